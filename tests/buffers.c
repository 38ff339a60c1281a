// The record writer's suite: radvoinis_write against a writer written from documents 01 and 02 alone (writing.h); and what it wrote read
// back by the naive reader, by the listing program and by radvoinis_status.
#include "../include/radvoinis.h"
#include "groups.h"
#include "lent.h"
#include "program.h"
#include "random.h"
#include "reading.h"
#include "runs.h"
#include "wild.h"
#include "writing.h"
#include <stdio.h>
#include <string.h>

typedef enum {
    CHECK_ANSWER,
    CHECK_BYTES,
    CHECK_PLACE,
    CHECK_KEPT,
    CHECK_NOTHING,
    CHECK_SAMPLE,
    CHECK_READ_BACK,
    CHECK_LISTED_BACK,
    CHECK_STATUS_BACK,
    CHECK_STATES_BACK,
    CHECK_LENGTH,
    CHECKS
} Check;

static const char *const check_names[CHECKS] = {
    "written, or refused with the number that comes first",
    "the record's bytes from the starting place on",
    "the place after the last byte",
    "all other bytes of the buffer, around it and of the tables kept",
    "nothing changed on a refusal",
    "a record as documents 01 and 02 have it",
    "read back: same n, marks, steps, keys and statuses",
    "listed back: nothing refused, totals of the status table",
    "asked back: same statuses, 21 from n on",
    "sent behind it: a step to n - 1 is accepted, one to n is refused with 5",
    "fresh tables take 25 bytes and the digits of n, any tables no more than the header says",
};

static unsigned long refusals[14], written_bytes, longest;

// ---- one call

static Lent lent_a;
static Table buffer;
static size_t place[3], place_before[3];    // the place stands in the middle

enum { EXTRA = 64, WRITTEN = 1 << MARKS | 1 << FROM | 1 << TO | 1 << KEY };

static char record[RECORD_MOST + 1];
static size_t length;

static uint32_t call_write(Lent *l)
{
    const Table *t = l->table;
    call_begin();
    uint32_t answer = radvoinis_write(l->n, l->limit, l->steps[1], bytes(l, MARKS), t[MARKS].told, words(l, FROM), t[FROM].told,
                                      words(l, TO), t[TO].told, bytes(l, KEY), t[KEY].told, buffer.at, buffer.told, &place[1]);
    call_end();
    return answer;
}

// The naive writer's record of the tables; answers its length.
static size_t right_record(const Lent *l)
{
    return length = writing_write(l->n, l->steps[1], bytes(l, MARKS), words(l, FROM), words(l, TO), bytes(l, KEY), record);
}

// The number of the first test that applies, or 0; then the record at hand is that of the tables.
static int right_number(const Lent *l)
{
    int number = reference_lent(l->n, l->limit, l->steps[1], lent_enough(l, WRITTEN));
    if (number) return number;
    right_record(l);
    return place[1] > buffer.told || buffer.told - place[1] < length ? 13 : 0;
}

// One call on the buffer and the place at hand, held to the naive writer. Answers whether it wrote.
static int hold(Lent *l)
{
    int number = right_number(l);
    shown_lent = l;
    lent_keep(l), table_keep(&buffer);
    place[0] = (size_t)random_word(), place[2] = (size_t)random_word();
    memcpy(place_before, place, sizeof place);
    uint32_t answer = call_write(l);
    if (number) {
        refusals[number]++;
        check(CHECK_ANSWER, answer == RADVOINIS_REFUSED + (uint32_t)number);
        check(CHECK_NOTHING, table_same(&buffer) && lent_unchanged(l) && memcmp(place, place_before, sizeof place) == 0);
        return 0;
    }
    check(CHECK_ANSWER, answer == 0);
    check(CHECK_LENGTH, length <= 29 + 22 * l->n + 18 * l->steps[1]);
    check(CHECK_BYTES, memcmp(buffer.at + place_before[1], record, length) == 0);
    table_expect_free(&buffer, place_before[1], length);
    place_before[1] += length;
    check(CHECK_PLACE, memcmp(place, place_before, sizeof place) == 0);
    check(CHECK_KEPT, table_same(&buffer) && lent_unchanged(l));
    written_bytes += length;
    if (length > longest) longest = length;
    return !failed;
}

static int hold_at(Lent *l, size_t buffer_length, size_t start)
{
    table_place(&buffer, buffer_length, (Side)below(2));
    place[1] = start;
    return hold(l);
}

// ---- the tables at hand, on buffers of all kinds

// A buffer just long enough, from its beginning or a place in its middle; one longer; too short by one or more; a place past the end.
static void hold_buffers(Lent *l)
{
    size_t needed = right_record(l), start = below(EXTRA / 2), more = 1 + below(EXTRA / 2);
    hold_at(l, needed, 0);
    hold_at(l, start + needed, start);
    hold_at(l, start + needed + more, start);
    hold_at(l, start + needed - 1, start);
    hold_at(l, start + below(needed), start);
    hold_at(l, start, start);
    hold_at(l, start, start + 1 + below(3));
    if (one_in(8)) hold_at(l, one_in(2) ? 0 : start, edges[below(EDGES)]);
}

// ---- reading back what was written for the tables of a run

static Reading reading;

static int all_zero(const uint8_t *table, size_t from)
{
    for (size_t s = from; s < MOST_STATES; s++)
        if (table[s]) return 0;
    return 1;
}

static void read_back(const Lent *l)
{
    reading_read(&reading, l->limit, (const uint8_t *)record, length, NULL);
    check(CHECK_READ_BACK, !reading.refused && reading.history.n == l->n && same_steps(l, &reading.history));
    check(CHECK_READ_BACK, memcmp(reading.marks, bytes(l, MARKS), l->n) == 0 && all_zero(reading.marks, l->n));
    check(CHECK_READ_BACK, memcmp(reading.status, bytes(l, STATUS), l->n) == 0 && all_zero(reading.status, l->n));
}

// The listing of what stands in the buffer ends with the totals of the status table, and nothing in it is refused.
static void list_back(const Lent *l, const uint8_t *written)
{
    char totals[128];
    size_t count[256] = {0};
    for (size_t s = 0; s < l->n; s++) count[bytes(l, STATUS)[s]]++;
    size_t end = (size_t)sprintf(totals, "end open %zu\nend unknown %zu\nend live %zu\nend dead %zu\n", count[OPEN], count[UNKNOWN],
                                 count[LIVE], count[DEAD]);
    Output output = program_run(LISTING, written, length, 0);
    check(CHECK_LISTED_BACK, output.ended && strcmp(output.said, "") == 0 && !memmem(output.bytes, output.length, "refused", 7));
    check(CHECK_LISTED_BACK, output.length > end && memcmp(output.bytes + output.length - end, totals, end) == 0);
}

// The written record stands against the page.
static void ask_back(const Lent *l, const uint8_t *written, size_t states)
{
    for (size_t i = 0; i < states && !failed; i++) {
        size_t s = states < MOST_STATES ? one_in(4) ? l->n - below(2) : below(one_in(8) ? MOST_STATES : l->n) : i;
        call_begin();
        uint8_t answer = radvoinis_status(written, length, (uint32_t)s);
        call_end();
        check(CHECK_STATUS_BACK, answer == (s < l->n ? bytes(l, STATUS)[s] : RADVOINIS_LINE_REFUSED + RADVOINIS_OUT_OF_RANGE));
    }
}

// The tables of a run: written, read back, and, where the steps are within the limit of those that read, listed and asked.
static void hold_round_trip(Lent *l, int list, size_t states)
{
    size_t needed = right_record(l), start = below(EXTRA);
    table_place(&buffer, start + needed, PAGE_BEHIND);
    place[1] = start;
    if (!hold(l)) return;
    read_back(l);
    if (l->steps[1] > 2048) return;
    if (list) list_back(l, buffer.at + start);
    ask_back(l, buffer.at + start, states);
}

// ---- groups

static void group_sample(void)
{
    static const Update updates[] = {{'E', 0, 1, 31}, {'T', 2, 0, 0}, {'E', 1, 0, 7}, {'C', 1, 0, 0}, {'T', 0, 0, 0},
                                     {'E', 0, 2, 0},  {'E', 0, 1, 31}, {'E', 0, 1, 8}, {'E', 0, 1, 32}, {'E', 0, 2, 0}, {'C', 2, 0, 0}};
    static const char sample[] = "states\n3\nkind from to key\nT 0 - -\nT 2 - -\nE 0 1 31\nE 1 0 7\nE 0 2 0\nE 0 1 8\nC 1 - -\nC 2 - -\n";
    Lent *l = &lent_a;
    shown_history = NULL;
    lent_size(l, 3, 4, 0);
    lent_fresh(l);
    check(CHECK_SAMPLE, right_record(l) == strlen(record) && strcmp(record, "states\n3\nkind from to key\n") == 0);
    hold_buffers(l);
    for (size_t i = 0; i < sizeof updates / sizeof *updates; i++) lent_update(l, updates[i]);
    check(CHECK_SAMPLE, right_record(l) == strlen(record) && strcmp(record, sample) == 0);
    hold_buffers(l);
    hold_round_trip(l, 1, MOST_STATES);
}

// Two steps sent behind what was written, from a state that is not closed, to the last state and to the one behind it: the second line is
// the only one that is refused. The listing program reads them, and the status call.
static void send_behind(const Lent *l, size_t open)
{
    static char longer[RECORD_MOST + 64];
    char refused[64];
    size_t lines = 0;
    for (size_t i = 0; i < length; i++) lines += record[i] == '\n';
    memcpy(longer, buffer.at + place[1] - length, length);
    size_t good = (size_t)sprintf(longer + length, "E %zu %zu 30\n", open, l->n - 1);
    size_t bad = (size_t)sprintf(longer + length + good, "E %zu %zu 30\n", open, l->n);
    size_t said = (size_t)sprintf(refused, "\n%zu refused 5\n", lines + 2);
    Output output = program_run(LISTING, (const uint8_t *)longer, length + good, 0);
    check(CHECK_STATES_BACK, output.ended && !memmem(output.bytes, output.length, "refused", 7));
    output = program_run(LISTING, (const uint8_t *)longer, length + good + bad, 0);
    const uint8_t *at = memmem(output.bytes, output.length, refused, said), *end = output.bytes + output.length;
    check(CHECK_STATES_BACK, output.ended && at && !memmem(at + said, (size_t)(end - at) - said, "refused", 7));
    call_begin();
    uint8_t accepted = radvoinis_status((const uint8_t *)longer, length + good, (uint32_t)open);
    uint8_t first = radvoinis_status((const uint8_t *)longer, length + good + bad, (uint32_t)open);
    call_end();
    check(CHECK_STATES_BACK, accepted < RADVOINIS_LINE_REFUSED && first == RADVOINIS_LINE_REFUSED + RADVOINIS_OUT_OF_RANGE);
}

// Updates over n states, after which the first state is not closed.
static void send_few(Lent *l)
{
    size_t n = l->n, last = n - 1;
    for (size_t i = 0; i < 12; i++) lent_update(l, (Update){'E', below(n), below(n), some_key()});
    lent_update(l, (Update){'E', 0, last, MOST_KEY}), lent_update(l, (Update){'E', last, last / 2, 0});
    for (size_t i = 0; i < 3; i++)
        if (n > 1) lent_update(l, (Update){one_in(4) ? 'T' : 'C', 1 + below(n - 1), 0, 0});
    if (n > 1 && one_in(2)) lent_update(l, (Update){one_in(2) ? 'T' : 'C', last, 0, 0});
}

// Every length of the buffer up to some bytes more than are needed.
static void every_length(Lent *l)
{
    size_t needed = right_record(l), start = one_in(2) ? 0 : below(EXTRA / 2);
    for (size_t room = needed > 400 ? needed - 4 : 0; room < needed + 4 && !failed; room++) hold_at(l, start + room, start);
}

// Each n from 1 to 64, and those beside a further digit and at the end: the head alone, then with lines behind it, and back.
static void group_states(void)
{
    static const size_t more[] = {99, 100, 101, 255, 256, 999, 1000, 1001, 1023, 1024, 2046, 2047, 2048};
    Lent *l = &lent_a;
    shown_history = NULL;
    for (size_t i = 0; i < 64 + sizeof more / sizeof *more && !failed; i++) {
        size_t n = i < 64 ? i + 1 : more[i - 64];
        progress(i, 64 + sizeof more / sizeof *more);
        for (size_t k = 0; k < by_scale(1, 4, 20) && !failed; k++) {
            lent_size(l, n, 20, 2);
            lent_fresh(l);
            check(CHECK_LENGTH, right_record(l) == (size_t)25 + (n < 10 ? 1 : n < 100 ? 2 : n < 1000 ? 3 : 4));
            every_length(l);
            hold_round_trip(l, 1, 8);
            if (!failed) send_behind(l, 0);
            send_few(l);
            every_length(l);
            hold_buffers(l);
            hold_round_trip(l, 1, n <= 64 && k == 0 ? MOST_STATES : 8);
            if (!failed) send_behind(l, 0);
        }
    }
}

static void send_and_write(Run *r, Update u)
{
    run_update(r, u);
    hold_buffers(r->lent);
    hold_round_trip(r->lent, one_in(64), 1);
}

static Run every_written = {.lent = &lent_a, .send = send_and_write};

static void group_lists(void)
{
    every_list(&every_written, 2, 3, by_scale(3, 4, 5), 2);
    every_list(&every_written, 3, 3, by_scale(2, 3, 3), 3);
}

// Of so many updates, the tables of one are written.
static size_t write_one_in;

static void send_and_write_some(Run *r, Update u)
{
    run_update(r, u);
    if (!one_in(write_one_in)) return;
    hold_buffers(r->lent);
    hold_round_trip(r->lent, one_in(4), 4);
}

static Run written = {.lent = &lent_a, .send = send_and_write_some};

static void group_runs_small(void)
{
    write_one_in = 8;
    for (size_t i = 0; i < rounds(400) && !failed; i++) {
        progress(i, rounds(400));
        small_run(&written, i);
    }
}

// The last tables of a run are asked for every state where there are few.
static void group_runs_large(void)
{
    for (size_t i = 0; i < rounds(16) && !failed; i++) {
        size_t n = i % 8 == 0 ? 2048 - below(3) : 13 + below(one_in(3) ? 1000 : 100);
        progress(i, rounds(16));
        write_one_in = 4 * n;
        large_run(&written, i, n, one_in(2) ? 2048 : one_in(2) ? 8192 - below(3) : 1 + below(2048));
        if (!failed) hold_round_trip(&lent_a, 1, n < 128 ? MOST_STATES : 64);
    }
    write_one_in = MOST_STEPS;
    if (!failed) full_list_run(&written, 3);
    if (!failed) hold_buffers(&lent_a), hold_round_trip(&lent_a, 1, 4);
}

// Every key byte, also those that no tables that fit have: of a step whose ends have as many digits as a state can, or as an entry can,
// beside others that differ from it only in key, or not at all, which no tables that fit have either. Those behind the list are not written.
static void group_keys(void)
{
    static const size_t ends[][2] = {{0, 0}, {3, 12}, {2047, 999}, {65535, 65535}};
    Lent *l = &lent_a;
    shown_history = NULL;
    lent_size(l, 13, 4, 2);
    lent_fresh(l);
    for (size_t i = 0; i < 256 * 4 && !failed; i++) {
        for (size_t p = 0; p < 4; p++) {
            table_set(&l->table[FROM], p, ends[i % 4][0]), table_set(&l->table[TO], p, ends[i % 4][1]);
            table_set(&l->table[KEY], p, p == 1 || one_in(4) ? i / 4 : below(256));
        }
        l->steps[1] = 1 + below(3);
        hold_buffers(l);
    }
}

// The same by updates, and back: three steps that differ only in key, each sent twice.
static void group_keys_back(void)
{
    Lent *l = &lent_a;
    shown_history = NULL;
    for (size_t key = 0; key <= MOST_KEY && !failed; key++) {
        lent_size(l, 13, 3, 2);
        lent_fresh(l);
        for (size_t p = 0; p < 6; p++) lent_update(l, (Update){'E', 3, 12, (key + p % 3) % (MOST_KEY + 1)});
        check(CHECK_SAMPLE, l->steps[1] == 3);
        hold_buffers(l);
        hold_round_trip(l, 1, 4);
    }
}

// On any contents: bits above 7 in the marks, ends of steps that are no states, keys above 31.
static void group_contents(void)
{
    shown_history = NULL;
    for (size_t i = 0; i < rounds(30000) && !failed; i++) {
        progress(i, rounds(30000));
        wild_size(&lent_a, 4);
        wild_contents(&lent_a);
        hold_buffers(&lent_a);
    }
}

// The longest record there is, and one byte short of it.
static void group_longest(void)
{
    Lent *l = &lent_a;
    shown_history = NULL;
    lent_size(l, MOST_STATES, MOST_STEPS, 0);
    for (Name k = MARKS; k <= KEY; k++) memset(l->table[k].at, 255, l->table[k].length * l->table[k].width);
    l->steps[1] = MOST_STEPS;
    hold_buffers(l);
    memset(bytes(l, MARKS), 1, MOST_STATES);
    hold_buffers(l);
    memset(bytes(l, MARKS), (uint8_t)~(TERMINAL | CLOSED), MOST_STATES);
    for (l->steps[1] = 0; l->steps[1] < 3; l->steps[1]++) hold_buffers(l);
}

// Tables too short, numbers that are refused, and buffers too short at once: the first number is given.
static void group_lengths(void)
{
    shown_history = NULL;
    for (size_t i = 0; i < rounds(200000) && !failed; i++) {
        progress(i, rounds(200000));
        if (one_in(8)) wild_told(&lent_a);
        else wild_lengths(&lent_a);
        wild_contents(&lent_a);
        wild_values(&lent_a);
        hold_at(&lent_a, below(600), one_in(4) ? 0 : below(one_in(2) ? 20 : 640));
    }
}

static void hold_short(Lent *l) { hold_at(l, below(40), below(2)); }
static void hold_some(Lent *l) { hold_at(l, below(200), below(200)); }

static void group_refusals(void) { each_refusal(&lent_a, hold_short, hold_some); }

// Places and buffer lengths up to the largest number. The buffer is told longer than it is; what is there is enough.
static void group_places(void)
{
    Lent *l = &lent_a;
    shown_history = NULL;
    for (size_t i = 0; i < EDGES * EDGES && !failed; i++) {
        for (size_t k = 0; k < 8 && !failed; k++) {
            lent_size(l, 3, 4, 0);
            wild_contents(l);
            size_t needed = right_record(l), told = edges[i / EDGES], start = edges[i % EDGES] - (k < 4 ? k * (needed / 3) : 0);
            table_place(&buffer, start < 20000 && told > 20000 ? 20000 : told < 20000 ? told : 0, PAGE_BEHIND);
            buffer.told = told, place[1] = start;
            if (start <= told && told - start >= needed && start + needed > buffer.length) continue;    // it would be right to write there
            hold(l);
        }
    }
}

// ---- all groups

static const Group groups[] = {
    {"a record as documents 01 and 02 have it", group_sample},
    {"each n up to 64, and the greatest ones, and back", group_states},
    {"after each update of every short list, and back", group_lists},
    {"random runs, up to 12 states, and back", group_runs_small},
    {"random runs, up to 2,048 states and 8,192 steps, and back", group_runs_large},
    {"every key, on tables that fit or not", group_keys},
    {"steps that differ only in key, and back", group_keys_back},
    {"tables of random contents", group_contents},
    {"the longest records", group_longest},
    {"tables of random lengths", group_lengths},
    {"refusals: n, limit, steps and lengths", group_refusals},
    {"places and buffer lengths up to the largest number", group_places},
};

static void show_counts(void)
{
    printf("%lu calls; %lu bytes written, at most %lu at once; refused 1: %lu, 2: %lu, 3: %lu, 4: %lu, 13: %lu\n", calls_made,
           written_bytes, longest, refusals[1], refusals[2], refusals[3], refusals[4], refusals[13]);
}

int main(int argc, char **argv)
{
    static const Suite suite = {groups, sizeof groups / sizeof *groups, check_names, CHECKS, show_run, show_counts};
    lent_make(&lent_a);
    table_make(&buffer, 1, RECORD_MOST + 2 * EXTRA);
    return suite_run(&suite, argc, argv);
}
