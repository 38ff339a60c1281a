// The short calls' suite: each is held to the raw call that it stands for, on equal tables. The raw calls have suites of their own; what
// is tested here is what the C in between does: where the tables are laid out, that they are fresh, and which is handed on as which.
#include "../include/radvoinis.h"
#include "groups.h"
#include "lent.h"
#include "random.h"
#include "runs.h"
#include "wild.h"
#include "writing.h"
#include <stdio.h>
#include <string.h>

typedef enum {
    CHECK_SIZE,
    CHECK_LAID,
    CHECK_NOTHING,
    CHECK_LAYOUT,
    CHECK_FRESH,
    CHECK_AROUND,
    CHECK_ANSWER,
    CHECK_VALUE,
    CHECK_TABLES,
    CHECK_QUESTION,
    CHECK_AUDIT,
    CHECK_SAVE,
    CHECK_EXAMPLE,
    CHECKS
} Check;

static const char *const check_names[CHECKS] = {
    "bytes for the tables, or 0 out of bounds",
    "laid out, or refused with the number that comes first",
    "nothing changed on a refusal",
    "tables inside the memory, aligned, apart from each other",
    "fresh tables",
    "memory around the tables and the struct kept",
    "an update's answer as the raw call has it",
    "state value as the raw call leaves it",
    "tables as the raw call leaves them",
    "status question",
    "table check",
    "record writer",
    "the examples of document 01, steps by keys, and a step that comes again",
};

static unsigned long sent, refused, laid;

// ---- the struct and its memory, between guards

static Table memory;
static unsigned char *begin;    // where it is handed over: at its beginning, or one byte behind, so that addresses are even and odd

static struct {
    uint64_t before[4];
    radvoinis_tables t;
    uint64_t after[4];
} held, held_before;

static Lent lent_a;
static Lent *const raw = &lent_a;

static unsigned char *table_at(const radvoinis_tables *t, Name k)
{
    unsigned char *const at[TABLES] = {
        [STATUS] = t->status,
        [MARKS] = t->marks,
        [FROM] = (unsigned char *)t->from,
        [TO] = (unsigned char *)t->to,
        [KEY] = t->key,
        [SUCCESSOR] = (unsigned char *)t->successor,
        [NEWS] = (unsigned char *)t->news,
        [IN_HEAD] = (unsigned char *)t->in_head,
        [OUT_HEAD] = (unsigned char *)t->out_head,
        [QUEUE] = (unsigned char *)t->queue,
        [VISITED] = (unsigned char *)t->visited,
        [IN_NEXT] = (unsigned char *)t->in_next,
        [OUT_NEXT] = (unsigned char *)t->out_next,
    };
    return at[k];
}

static size_t table_bytes(Name k) { return lent_needed(raw, k) * raw->table[k].width; }

static void fill_held(void)
{
    unsigned char *at = (unsigned char *)&held;
    for (size_t i = 0; i < sizeof held; i++) at[i] = (unsigned char)random_word();
}

static void keep(void)
{
    table_keep(&memory);
    memcpy(&held_before, &held, sizeof held);
}

static int unchanged(void) { return table_same(&memory) && memcmp(&held, &held_before, sizeof held) == 0; }

// In the copy of the memory, each table as it is now: what else differs was touched by nobody that may.
static int around_kept(void)
{
    for (Name k = 0; k < TABLES; k++) {
        size_t at = (size_t)(table_at(&held.t, k) - memory.at);
        table_expect_free(&memory, at, table_bytes(k));
    }
    return table_same(&memory) && memcmp(held.before, held_before.before, sizeof held.before) == 0 &&
           memcmp(held.after, held_before.after, sizeof held.after) == 0;
}

// ---- laying out

// Numbers that fit an argument of 32 bits.
static uint32_t edge32(size_t i) { return edges[i] > UINT32_MAX ? UINT32_MAX - (uint32_t)(i % 3) : (uint32_t)edges[i]; }

static int bounded(uint32_t n, uint32_t limit) { return n >= 1 && n <= MOST_STATES && limit >= 1 && limit <= MOST_STEPS; }

static size_t size_of(uint32_t n, uint32_t limit)
{
    call_begin();
    size_t size = radvoinis_tables_size(n, limit);
    call_end();
    return size;
}

static uint32_t lay(void *at, size_t size, uint32_t n, uint32_t limit)
{
    call_begin();
    uint32_t answer = radvoinis_tables_fresh(&held.t, at, size, n, limit);
    call_end();
    return answer;
}

static int apart(void)
{
    for (Name j = 0; j < TABLES; j++) {
        unsigned char *a = table_at(&held.t, j), *end = a + table_bytes(j);
        if (a < begin || end > memory.at + memory.length || (uintptr_t)a % raw->table[j].width) return 0;
        for (Name k = 0; k < j; k++) {
            unsigned char *b = table_at(&held.t, k);
            if (a < b + table_bytes(k) && b < end) return 0;
        }
    }
    return 1;
}

static int fresh_tables(void)
{
    for (Name k = 0; k < TABLES; k++)
        for (size_t i = 0; i < table_bytes(k); i++)
            if (table_at(&held.t, k)[i] != (k == SUCCESSOR ? 255 : 0)) return 0;
    return held.t.steps == 0;
}

// Fresh tables in memory of so many bytes more than needed, at an even or an odd address; and the raw call's beside them.
static void lay_out(size_t n, size_t limit, size_t more)
{
    lent_size(raw, n, limit, 0);
    lent_fresh(raw);
    memset(raw->table[FROM].at, 0, table_bytes(FROM)), memset(raw->table[TO].at, 0, table_bytes(TO));
    memset(raw->table[KEY].at, 0, table_bytes(KEY)), memset(raw->table[NEWS].at, 0, table_bytes(NEWS));
    size_t size = size_of((uint32_t)n, (uint32_t)limit) + more, shift = below(2);
    table_place(&memory, size + shift, (Side)below(2));
    begin = memory.at + shift;
    fill_held();
    keep();
    laid++;
    if (!check(CHECK_LAID, lay(begin, size, (uint32_t)n, (uint32_t)limit) == 0)) return;
    if (!check(CHECK_LAYOUT, held.t.n == n && held.t.limit == limit && apart())) return;
    check(CHECK_FRESH, fresh_tables());
    check(CHECK_AROUND, around_kept());
}

static void group_sizes(void)
{
    shown_lent = NULL;
    for (size_t i = 0; i < EDGES * EDGES && !failed; i++) {
        uint32_t n = edge32(i / EDGES), limit = edge32(i % EDGES);
        size_t size = size_of(n, limit), needed = (size_t)n * 12 + ((size_t)n + 15) / 16 * 2 + (size_t)limit * 9;
        check(CHECK_SIZE, bounded(n, limit) ? size >= needed && size <= needed + 64 : size == 0);
    }
    check(CHECK_SIZE, size_of(MOST_STATES, MOST_STEPS) <= memory.area_bytes - 64);
}

static void group_refused(void)
{
    shown_lent = NULL;
    for (size_t i = 0; i < EDGES * EDGES && !failed; i++) {
        uint32_t n = edge32(i / EDGES), limit = edge32(i % EDGES);
        uint32_t number = n < 1 || n > MOST_STATES ? 1 : limit < 1 || limit > MOST_STEPS ? 2 : 3;
        size_t size = size_of(n, limit);
        for (size_t k = 0; k < 6 && !failed; k++) {
            // too small by one, by more, empty, none at all; or any size, out of bounds
            size_t given = !size ? below(200) : k == 0 ? size - 1 : k == 1 ? below(size) : k == 2 ? 0 : k == 3 ? size / 2 : size;
            table_place(&memory, given, (Side)below(2));
            fill_held();
            keep();
            uint32_t answer = lay(k >= 4 && size ? NULL : memory.at, k == 5 ? SIZE_MAX : given, n, limit);
            check(CHECK_LAID, answer == RADVOINIS_REFUSED + number);
            check(CHECK_NOTHING, unchanged());
        }
    }
}

static void group_fresh(void)
{
    shown_lent = NULL;
    for (size_t n = 1; n <= 24 && !failed; n++)
        for (size_t limit = 1; limit <= 24 && !failed; limit++) lay_out(n, limit, below(4) * below(9));
    for (size_t i = 0; i < rounds(200) && !failed; i++)
        lay_out(i % 4 == 0 ? MOST_STATES - below(3) : 1 + below(MOST_STATES),
                i % 3 == 0 ? MOST_STEPS - below(3) : 1 + below(MOST_STEPS), below(3));
}

// ---- the calls beside each other

static uint32_t short_step(uint32_t from, uint32_t to, uint32_t key)
{
    return key == 0 && one_in(2) ? radvoinis_step(&held.t, from, to) : radvoinis_step_by_key(&held.t, from, to, key);
}

static uint32_t short_update(Update u)
{
    uint32_t first = (uint32_t)u.first, second = (uint32_t)u.second;
    call_begin();
    uint32_t answer = u.kind == 'E'   ? short_step(first, second, (uint32_t)u.key)
                      : u.kind == 'T' ? radvoinis_terminal(&held.t, first)
                                      : radvoinis_close(&held.t, first);
    call_end();
    return answer;
}

static int same_tables(void)
{
    for (Name k = 0; k < TABLES; k++)
        if (memcmp(table_at(&held.t, k), raw->table[k].at, table_bytes(k))) return 0;
    return 1;
}

static int same_value(void) { return held.t.n == raw->n && held.t.limit == raw->limit && held.t.steps == raw->steps[1]; }

// After any call: the struct as the raw call's numbers, the tables as its own, and nothing else touched.
static void check_beside(int in_bounds)
{
    check(CHECK_VALUE, same_value());
    if (in_bounds) check(CHECK_TABLES, same_tables());
    check(CHECK_AROUND, in_bounds ? around_kept() : unchanged());
}

static int send_beside(Update u, int in_bounds)
{
    shown_lent = raw, shown_update = u;
    lent_keep(raw);
    keep();
    uint32_t want = lent_update(raw, u), answer = short_update(u);
    sent++, refused += answer >= RADVOINIS_REFUSED;
    check(CHECK_ANSWER, answer == want);
    check_beside(in_bounds);
    return want < RADVOINIS_REFUSED;
}

static void ask_beside(uint32_t state, int in_bounds)
{
    keep();
    const Table *status = &raw->table[STATUS];
    uint32_t want = radvoinis_state_status(raw->n, raw->limit, raw->steps[1], status->at, raw->n, state);
    call_begin();
    uint32_t answer = radvoinis_status_of(&held.t, state);
    call_end();
    check(CHECK_QUESTION, answer == want);
    check(CHECK_NOTHING, unchanged());
    check_beside(in_bounds);
}

static void audit_beside(int in_bounds)
{
    keep();
    uint32_t want = radvoinis_audit(raw->n, raw->limit, raw->steps[1], bytes(raw, STATUS), raw->n, bytes(raw, MARKS), raw->n, words(raw, FROM),
                                    raw->limit, words(raw, TO), raw->limit, bytes(raw, KEY), raw->limit, words(raw, SUCCESSOR), raw->n,
                                    words(raw, IN_HEAD), raw->n, words(raw, OUT_HEAD), raw->n, words(raw, QUEUE), raw->n,
                                    words(raw, VISITED), lent_needed(raw, VISITED), words(raw, IN_NEXT), raw->limit, words(raw, OUT_NEXT),
                                    raw->limit);
    call_begin();
    uint32_t answer = radvoinis_check(&held.t);
    call_end();
    check(CHECK_AUDIT, answer == want);
    check_beside(in_bounds);
}

static uint32_t raw_write(uint8_t *buf, size_t len, size_t *at)
{
    return radvoinis_write(raw->n, raw->limit, raw->steps[1], bytes(raw, MARKS), raw->n, words(raw, FROM), raw->limit, words(raw, TO),
                           raw->limit, bytes(raw, KEY), raw->limit, buf, len, at);
}

// The writer, from a place in a buffer that just fits, or is one byte short.
static void save_beside(int in_bounds)
{
    static uint8_t record[RECORD_MOST + 128], again[sizeof record];
    size_t start = below(64), end = start, place = start, length = sizeof record;
    memset(record, 7, sizeof record), memset(again, 7, sizeof again);
    uint32_t want = raw_write(record, length, &end);
    if (want == 0 && one_in(2)) length = end;
    if (want == 0 && one_in(4)) {
        length = end - 1, end = start, memset(record, 7, sizeof record);
        want = raw_write(record, length, &end);
    }
    keep();
    call_begin();
    uint32_t answer = radvoinis_save(&held.t, again, length, &place);
    call_end();
    check(CHECK_SAVE, answer == want && place == end && memcmp(record, again, sizeof record) == 0);
    check(CHECK_NOTHING, unchanged());
    check_beside(in_bounds);
}

static void all_beside(int in_bounds)
{
    if (one_in(4)) ask_beside((uint32_t)below(raw->n + 2), in_bounds);
    if (one_in(16)) ask_beside(edge32(below(EDGES)), in_bounds);
    if (one_in(raw->n > 100 ? 400 : 8)) audit_beside(in_bounds);
    if (one_in(raw->n > 100 ? 400 : 8)) save_beside(in_bounds);
}

// ---- runs

static void send_both(Run *r, Update u)
{
    if (u.first > UINT32_MAX || u.second > UINT32_MAX || (u.kind == 'E' && u.key > UINT32_MAX)) return;
    if (r->history.count == 0) lay_out(raw->n, raw->limit, 0);
    shown_history = &r->history;
    if (send_beside(u, 1)) history_add(&r->history, u);
    all_beside(1);
}

static Run run = {.lent = &lent_a, .send = send_both};

static void group_runs(void)
{
    for (size_t i = 0; i < rounds(2000) && !failed; i++) small_run(&run, i);
}

static void group_runs_large(void)
{
    for (size_t i = 0; i < rounds(6) && !failed; i++) large_run(&run, i, MOST_STATES - below(100), MOST_STEPS - below(100));
    full_list_run(&run, 3);
}

// The examples of document 01 that name their verdicts, steps by keys, and one that comes again, as an explorer sends them.
static void group_examples(void)
{
    shown_lent = NULL;
    lay_out(3, 4, 0);
    radvoinis_tables *t = &held.t;
    check(CHECK_EXAMPLE, radvoinis_step(t, 0, 1) == 0 && radvoinis_step(t, 1, 0) == 0 && radvoinis_step(t, 1, 2) == 0);
    check(CHECK_EXAMPLE, radvoinis_close(t, 0) == 0 && radvoinis_close(t, 1) == 0);
    check(CHECK_EXAMPLE, t->status[0] == RADVOINIS_UNKNOWN && t->status[1] == RADVOINIS_UNKNOWN && t->status[2] == RADVOINIS_OPEN);
    check(CHECK_EXAMPLE, radvoinis_step(t, 0, 3) == RADVOINIS_REFUSED + RADVOINIS_OUT_OF_RANGE);
    check(CHECK_EXAMPLE, radvoinis_step(t, 0, 2) == RADVOINIS_REFUSED + RADVOINIS_CLOSED_SOURCE);
    check(CHECK_EXAMPLE, radvoinis_close(t, 0) == 0);
    check(CHECK_EXAMPLE, radvoinis_terminal(t, 2) == 3 && t->news[0] == 0 && t->news[1] == 1 && t->news[2] == 2);
    check(CHECK_EXAMPLE, radvoinis_status_of(t, 0) == RADVOINIS_LIVE && radvoinis_status_of(t, 3) == RADVOINIS_REFUSED + 5);
    check(CHECK_EXAMPLE, t->marks[2] == (RADVOINIS_NAMED | RADVOINIS_TERMINAL) && t->marks[0] == (RADVOINIS_NAMED | RADVOINIS_CLOSED));
    check(CHECK_EXAMPLE, t->steps == 3 && t->from[2] == 1 && t->to[2] == 2 && t->key[2] == 0 && radvoinis_check(t) == 1);
    check(CHECK_EXAMPLE, radvoinis_step_by_key(t, 0, 3, 32) == RADVOINIS_REFUSED + RADVOINIS_OUT_OF_RANGE);
    check(CHECK_EXAMPLE, radvoinis_step_by_key(t, 0, 2, 32) == RADVOINIS_REFUSED + RADVOINIS_BAD_KEY);
    check(CHECK_EXAMPLE, radvoinis_step_by_key(t, 0, 2, RADVOINIS_MAX_KEY) == RADVOINIS_REFUSED + RADVOINIS_CLOSED_SOURCE);
    check(CHECK_EXAMPLE, radvoinis_step_by_key(t, 2, 0, RADVOINIS_MAX_KEY) == 0 && t->steps == 4 && t->key[3] == 31);
    check(CHECK_EXAMPLE, radvoinis_step_by_key(t, 2, 0, 30) == RADVOINIS_REFUSED + RADVOINIS_LIST_FULL && radvoinis_check(t) == 1);
    check(CHECK_EXAMPLE, radvoinis_step_by_key(t, 2, 0, RADVOINIS_MAX_KEY) == 0 && t->steps == 4 && radvoinis_check(t) == 1);
    check(CHECK_EXAMPLE, radvoinis_step(t, 0, 1) == RADVOINIS_REFUSED + RADVOINIS_CLOSED_SOURCE);
    t->key[3] = 32;
    check(CHECK_EXAMPLE, radvoinis_check(t) == 0);
}

// ---- any contents and numbers

static void copy_contents(void)
{
    for (Name k = 0; k < TABLES; k++) memcpy(table_at(&held.t, k), raw->table[k].at, table_bytes(k));
    held.t.steps = raw->steps[1];
}

static Update some_update(void)
{
    static const uint8_t kinds[] = {'E', 'T', 'C'};
    Update u = wild_update(raw);
    if (one_in(16)) u.first += 65536 * below(4);
    if (one_in(16)) u.second += 65536 * below(4);
    if (u.first > UINT32_MAX) u.first = UINT32_MAX;
    if (u.second > UINT32_MAX) u.second = UINT32_MAX;
    if (u.key > UINT32_MAX) u.key = UINT32_MAX;
    u.kind = kinds[below(3)];
    return u;
}

static void group_contents(void)
{
    shown_history = NULL;
    for (size_t i = 0; i < rounds(20000) && !failed; i++) {
        size_t n = 1 + below(one_in(50) ? 300 : 12), limit = 1 + below(one_in(50) ? 900 : 16);
        lay_out(n, limit, 0);
        wild_contents(raw);
        raw->steps[1] = one_in(8) ? limit + below(3) : below(limit + 1);
        copy_contents();
        for (size_t k = 0; k < 4 && !failed; k++) send_beside(some_update(), 1);
        all_beside(1);
    }
}

// A struct whose numbers were overwritten: 1 and 2 whatever else, 4 where the tables are as they were.
static void group_numbers(void)
{
    shown_history = NULL;
    for (size_t i = 0; i < EDGES * EDGES && !failed; i++) {
        size_t n = edges[i / EDGES], limit = edges[i % EDGES];
        if (n >= 1 && n <= MOST_STATES && limit >= 1 && limit <= MOST_STEPS) n = 0;
        lay_out(3, 4, 0);
        held.t.n = raw->n = n, held.t.limit = raw->limit = limit, held.t.steps = raw->steps[1] = one_in(2) ? edges[below(EDGES)] : 0;
        for (size_t k = 0; k < 6 && !failed; k++) send_beside((Update){"ETC"[k % 3], below(3), below(3), below(40)}, 0);
        ask_beside((uint32_t)below(3), 0);
        audit_beside(0);
        save_beside(0);
    }
    for (size_t i = 0; i < EDGES && !failed; i++) {
        lay_out(3, 4, 0);
        held.t.steps = raw->steps[1] = edges[i];
        for (size_t k = 0; k < 6 && !failed; k++) send_beside((Update){"ETC"[k % 3], below(4), below(4), below(40)}, 1);
        ask_beside((uint32_t)below(4), 1);
        audit_beside(1);
        save_beside(1);
    }
}

static const Group groups[] = {
    {"bytes for the tables", group_sizes},
    {"laying out: refusals", group_refused},
    {"laying out: fresh tables at even and odd addresses", group_fresh},
    {"examples, as an explorer sends them", group_examples},
    {"random runs, up to 12 states", group_runs},
    {"random runs, up to 2,048 states and 8,192 steps", group_runs_large},
    {"tables of random contents", group_contents},
    {"n, limit and steps up to the largest number", group_numbers},
};

static void show_counts(void)
{
    printf("%lu calls; %lu times laid out; %lu updates, %lu of them refused\n", calls_made, laid, sent, refused);
}

int main(int argc, char **argv)
{
    static const Suite suite = {groups, sizeof groups / sizeof *groups, check_names, CHECKS, show_run, show_counts};
    lent_make(&lent_a);
    table_make(&memory, 1, 14 * MOST_STATES + 9 * MOST_STEPS + 256);
    return suite_run(&suite, argc, argv);
}
