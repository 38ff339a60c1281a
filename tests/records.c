// The record reader's suite: the listing program and radvoinis_status against a reader written from documents 01 and 02 alone (reading.h),
// on valid records, damaged ones, and the shapes at the edges, with keys and without, with a count of states and without.
#include "../include/radvoinis.h"
#include "ending.h"
#include "groups.h"
#include "making.h"
#include "program.h"
#include "random.h"
#include "reading.h"
#include "table.h"
#include <stdio.h>
#include <stdlib.h>
#include <string.h>

enum { CHECK_LISTING = ENDING_CHECKS, CHECK_STATUS, CHECK_KEPT, CHECK_SAMPLE, CHECK_ANSWER, CHECKS };

static const char *const check_names[CHECKS] = {
    ENDING_CHECK_NAMES,
    "the listing, byte for byte",
    "the status of a state after a record",
    "the record and what is around it kept",
    "a sample listing",
    "a sample answer",
};

static unsigned long runs, answers[34], lines_listed;

// ---- the record in hand held to the naive reader

static Reading reading;
static Table lent;    // the record as the call gets it: the page stands right behind its last byte

static char *listing_text;
static size_t listing_length;

static void read_record(void)
{
    free(listing_text);
    FILE *listing = open_memstream(&listing_text, &listing_length);
    if (!listing) abort();
    reading_read(&reading, 2048, record, record_length, listing);
    fclose(listing);
}

static void hold_status(uint32_t state)
{
    uint8_t right = reading_answer(&reading, state);
    call_begin();
    uint8_t answer = radvoinis_status(lent.at, record_length, state);
    call_end();
    answers[right]++;
    check(CHECK_STATUS, answer == right);
}

// A state that an accepted line sends from, or any in range where there is none.
static uint32_t some_state(void)
{
    const History *h = &reading.history;
    return (uint32_t)(h->count > 0 && !one_in(8) ? h->accepted[below(h->count)].first : below(MOST_STATES));
}

// So many states in range, one on either side of the count, and the last one that there can be or one past the end.
static void hold_statuses(size_t states)
{
    static const uint32_t far[] = {2048, 2049, 65535, 65536, 65537, 67583, 2147483648, 4294967295};
    table_place(&lent, record_length, PAGE_BEHIND);
    memcpy(lent.at, record, record_length);
    table_keep(&lent);
    while (states-- > 0) hold_status(some_state());
    for (size_t i = 0; i < 2; i++) hold_status((uint32_t)(reading.history.n - 1 + i));
    hold_status(one_in(2) ? 2047 : far[below(8)]);
    check(CHECK_KEPT, table_same(&lent));
}

static void hold_listing(Output output)
{
    read_record();
    runs++;
    for (size_t i = 0; i < listing_length; i++) lines_listed += listing_text[i] == '\n';
    check(CHECK_LISTING, output.length == listing_length && memcmp(output.bytes, listing_text, listing_length) == 0);
}

static void list_record(size_t piece)
{
    Output output = program_run(LISTING, record, record_length, piece);
    hold_end(output, "");
    hold_listing(output);
}

static void hold_record(size_t piece)
{
    list_record(piece);
    hold_statuses(record_length > 20000 ? 1 : reading.refused ? 2 : 6);
}

// ---- document 01's listing, one with keys, one with steps that come again, and some with a count of states

static void hold_sample(Form f, const char *lines, const char *listing)
{
    form = f;
    record_length = 0;
    add("%s%s", *lines == 's' ? "" : names_line[f], lines);
    for (int i = 0; i < 2; i++, record_length--) {
        hold_record(0);
        check(CHECK_SAMPLE, strcmp(listing, listing_text) == 0);
    }
}

static void group_sample(void)
{
    hold_sample(WITHOUT_KEYS, "E 0 1\nE 1 0\nC 0 -\nC 1 -\nT 1 -\nE 2 2048\n",
                "line verdict number\n5 dead 0\n5 dead 1\n6 refused 6\n7 refused 5\n"
                "end open 0\nend unknown 0\nend live 0\nend dead 2\n");
    hold_sample(WITH_KEYS,
                "E 0 1 7\nE 0 1 31\nE 1 0 32\nE 2048 0 32\nC 0 - -\nE 0 1 65535\nE 0 1 31\nE 1 2\nE 1 2 65536\nC 1 - -\nT 2 - -\n",
                "line verdict number\n4 refused 14\n5 refused 5\n7 refused 14\n8 refused 6\n9 refused 11\n10 refused 11\n"
                "11 dead 0\n11 dead 1\n12 live 2\nend open 0\nend unknown 0\nend live 1\nend dead 2\n");
    hold_sample(WITH_KEYS, "E 0 1 7\nE 0 1 7\nE 0 1 8\nE 0 1 7\nC 0 - -\nE 0 1 7\nE 0 1 32\nT 2 - -\nE 2 1 7\nE 2 1 7\nC 1 - -\n",
                "line verdict number\n7 refused 6\n8 refused 14\n9 live 2\n12 dead 0\n12 dead 1\n"
                "end open 0\nend unknown 0\nend live 1\nend dead 2\n");
    hold_sample(WITH_KEYS,
                "states\n9\nkind from to key\nE 0 8 7\nE 0 9 7\nT 9 - -\nE 9 0 32\nC 8 - -\nstates\nC 2048 - -\nC 0 - -\nE 7 1 0\n",
                "line verdict number\n5 refused 5\n6 refused 5\n7 refused 5\n8 dead 8\n9 refused 11\n10 refused 5\n11 dead 0\n"
                "end open 2\nend unknown 0\nend live 0\nend dead 2\n");
    hold_sample(WITHOUT_KEYS, "states\n1\nkind from to\nE 0 0\nE 0 1\nC 0 -\n",
                "line verdict number\n5 refused 5\n6 dead 0\nend open 0\nend unknown 0\nend live 0\nend dead 1\n");
    hold_sample(WITHOUT_KEYS, "states\n2049\nkind from to\nT 0 -\n",
                "line verdict number\n2 refused 17\nend open 0\nend unknown 0\nend live 0\nend dead 0\n");
    hold_sample(WITHOUT_KEYS, "states\n", "line verdict number\n2 refused 17\nend open 0\nend unknown 0\nend live 0\nend dead 0\n");
    hold_sample(WITHOUT_KEYS, "states\n5\n", "line verdict number\n3 refused 10\nend open 0\nend unknown 0\nend live 0\nend dead 0\n");
    hold_sample(WITHOUT_KEYS, "states \n", "line verdict number\n1 refused 10\nend open 0\nend unknown 0\nend live 0\nend dead 0\n");
}

// ---- what the status call answers first

// A record's bytes, and the states that are asked with the answers that they get: 33 for a count that is none, whatever is asked; then 21
// for a state at or above the count, whatever stands behind it; then the first refused line; then the status.
typedef struct {
    const char *record;
    struct {
        uint32_t state;
        uint8_t answer;
    } asked[6];
} Question;

static const Question questions[] = {
    {"states\n9\nkind from to\nT 8 -\nC 3 -\n", {{8, 3}, {3, 4}, {0, 0}, {9, 21}, {2047, 21}, {2048, 21}}},
    {"states\n2048\nkind from to\nT 2047 -\n", {{2047, 3}, {2048, 21}, {2049, 21}, {65535, 21}, {65536, 21}, {4294967295, 21}}},
    {"kind from to\nT 2047 -\n", {{2047, 3}, {2048, 21}, {2049, 21}, {65535, 21}, {65536, 21}, {4294967295, 21}}},
    {"states\n1\nkind from to key\nE 0 0 31\n", {{0, 1}, {1, 21}, {2, 21}, {2047, 21}, {65536, 21}, {4294967295, 21}}},
    {"states\n9", {{8, 26}, {9, 21}, {0, 26}, {2047, 21}, {2048, 21}, {65536, 21}}},
    {"states\n9\n", {{8, 26}, {9, 21}, {0, 26}, {2047, 21}, {2048, 21}, {65536, 21}}},
    {"states\n9\nkind from\nT 8 -\n", {{8, 26}, {9, 21}, {0, 26}, {2047, 21}, {2048, 21}, {65536, 21}}},
    {"states\n9\nstates\n9\nkind from to\n", {{8, 26}, {9, 21}, {0, 26}, {2047, 21}, {2048, 21}, {65536, 21}}},
    {"states\n9\nkind from to\nX\nT 8 -\n", {{8, 27}, {9, 21}, {0, 27}, {2047, 21}, {2048, 21}, {65536, 21}}},
    {"states\n9\nkind from to\nT 9 -\nX\n", {{8, 21}, {9, 21}, {0, 21}, {2047, 21}, {2048, 21}, {65536, 21}}},
    {"states\n9\nkind from to key\nE 8 0 32\n", {{8, 30}, {9, 21}, {0, 30}, {2047, 21}, {2048, 21}, {65536, 21}}},
    {"states\n9\nkind from to\nC 8 -\nT 8 -\n", {{8, 22}, {9, 21}, {0, 22}, {2047, 21}, {2048, 21}, {65536, 21}}},
    {"states", {{0, 33}, {2047, 33}, {2048, 33}, {65535, 33}, {65536, 33}, {4294967295, 33}}},
    {"states\n", {{0, 33}, {2047, 33}, {2048, 33}, {65535, 33}, {65536, 33}, {4294967295, 33}}},
    {"states\n0\nkind from to\nT 0 -\n", {{0, 33}, {2047, 33}, {2048, 33}, {65535, 33}, {65536, 33}, {4294967295, 33}}},
    {"states\n2049\nkind from to\nT 0 -\n", {{0, 33}, {2047, 33}, {2048, 33}, {2049, 33}, {65536, 33}, {4294967295, 33}}},
    {"states\n9\r\nkind from to\nX\n", {{0, 33}, {8, 33}, {9, 33}, {2048, 33}, {65536, 33}, {4294967295, 33}}},
    {"states\nkind from to\nT 2048 -\n", {{0, 33}, {2047, 33}, {2048, 33}, {65535, 33}, {65536, 33}, {4294967295, 33}}},
    {"kind from\nT 0 -\n", {{0, 26}, {2047, 26}, {2048, 21}, {65535, 21}, {65536, 21}, {4294967295, 21}}},
    {"states \n9\nkind from to\n", {{0, 26}, {9, 26}, {2047, 26}, {2048, 21}, {65536, 21}, {4294967295, 21}}},
    {"kind from to\nstates\n9\nT 9 -\n", {{0, 27}, {9, 27}, {2047, 27}, {2048, 21}, {65536, 21}, {4294967295, 21}}},
    {"", {{0, 26}, {9, 26}, {2047, 26}, {2048, 21}, {65536, 21}, {4294967295, 21}}},
};

static void group_order(void)
{
    for (size_t i = 0; i < sizeof questions / sizeof *questions && !failed; i++) {
        record_length = 0;
        add("%s", questions[i].record);
        read_record();
        hold_statuses(1);
        for (size_t k = 0; k < 6; k++) {
            check(CHECK_ANSWER, reading_answer(&reading, questions[i].asked[k].state) == questions[i].asked[k].answer);
            hold_status(questions[i].asked[k].state);
        }
    }
}

// What stands behind a count: no line, names lines that are exact or not, lines that are accepted and refused.
static const char *const behind[] = {
    "", "kind from to\n", "kind from to key\n", "kind from to ", "kind from to\nX\n", "kind from to key\nE 0 0 32\n",
    "kind from to\nC 0 -\nT 0 -\n", "kind from to\nT 2048 -\n", "kind from to\nT 0 -\n", "kind from to key\nC 0 - -\n",
    "kind from to key\nE 0 0 7\nC 0 - -\nE 0 0 7\nX\n",
};

// Each count, each of these, and every state around the count and around 2,048; and counts that are none with the same.
static void group_around(void)
{
    for (size_t count = 0; count <= 2052 && !failed; count += count < 20 || count > 2040 ? 1 : by_scale(401, 67, 1)) {
        for (size_t i = 0; i < sizeof behind / sizeof *behind && !failed; i++) {
            record_length = 0;
            add("states\n%zu\n%s", count, behind[i]);
            read_record();
            hold_statuses(1);
            for (size_t s = count > 3 ? count - 3 : 0; s < count + 3; s++) hold_status((uint32_t)s);
            for (size_t s = 2045; s < 2051; s++) hold_status((uint32_t)s), hold_status((uint32_t)(65536 + s - 2045));
        }
        progress(count, 2052);
    }
}

// ---- the series of records

static void group_valid(void) { valid_records(rounds(600), hold_record); }
static void group_full_list(void) { full_records(rounds(20), hold_record); }
static void group_repeated(void) { repeated_records(rounds(300), hold_record); }
static void group_damaged(void) { damaged_records(rounds(1200), hold_record); }
static void group_damaged_heads(void) { damaged_heads(rounds(1200), hold_record); }
static void group_noise(void) { noisy_records(rounds(200), hold_record); }
static void group_awkward(void) { awkward_records(hold_record); }
static void group_beginnings(void) { beginnings(hold_record); }
static void group_heads(void) { other_heads(hold_record); }
static void group_counts(void) { each_count(by_scale(23, 1, 1), hold_record); }
static void group_mixes(void) { each_mix(hold_record); }
static void group_many_lines(void) { many_lines(by_scale(4, 12, 120), hold_record); }
static void group_long_lines(void) { long_lines(hold_record); }
static void group_pieces(void) { records_in_pieces(rounds(400), hold_record); }
static void group_pieces_of_heads(void) { heads_in_pieces(hold_record); }
static void group_cuts(void) { cut_lines(hold_record); }

// ---- lines with every byte altered

// Lines of all kinds, to be altered, after either names line; the longest has 16 bytes, and the last lacks its key.
static const struct {
    Form form;
    const char *line;
} whole[] = {
    {WITHOUT_KEYS, "E 12 3"},
    {WITHOUT_KEYS, "T 4 -"},
    {WITHOUT_KEYS, "C 56 -"},
    {WITHOUT_KEYS, "E 65535 6553"},
    {WITHOUT_KEYS, "E 2047 2048"},
    {WITHOUT_KEYS, "C 2047 -"},
    {WITHOUT_KEYS, "E 0 0"},
    {WITH_KEYS, "E 12 3 7"},
    {WITH_KEYS, "T 4 - -"},
    {WITH_KEYS, "C 56 - -"},
    {WITH_KEYS, "E 0 0 31"},
    {WITH_KEYS, "E 65535 65535 3"},
    {WITH_KEYS, "E 65535 65535 31"},
    {WITH_KEYS, "E 2047 2047 6553"},
    {WITH_KEYS, "C 2047 - -"},
    {WITH_KEYS, "E 1 2"},
};

enum { WHOLE = sizeof whole / sizeof *whole };

// The ith alteration of a line: a byte put in at some place, or in the place of another; and how many there are.
static size_t alterations(const char *line) { return 512 * strlen(line) + 256; }

static void add_altered(const char *line, size_t i)
{
    uint8_t byte = (uint8_t)i;
    size_t count = strlen(line), at = i / 512, over = i / 256 % 2;
    add_bytes(line, at), add_bytes(&byte, 1), add_bytes(line + at + over, count - at - over);
}

// Every alteration of a line, and the line with each byte left out, in one record; then each alteration alone, asked.
static void group_every_byte(void)
{
    for (size_t i = 0; i < WHOLE && !failed; i++) {
        const char *line = whole[i].line;
        start_record(whole[i].form);
        for (size_t k = 0; k < alterations(line); k++) add_altered(line, k), add("\n");
        for (size_t at = 0; line[at]; at++) add_bytes(line, at), add("%s\n", line + at + 1);
        hold_record(0);
    }
}

static void group_every_byte_alone(void)
{
    for (size_t i = 0; i < WHOLE && !failed; i += by_scale(7, 1, 1)) {
        const char *line = whole[i].line;
        for (size_t k = 0; k < alterations(line) && !failed; k++) {
            progress(k, alterations(line));
            start_record(whole[i].form);
            add_altered(line, k);
            if (one_in(2)) add("\n");
            read_record();
            hold_statuses(1);
        }
    }
}

// ---- the head

// Every alteration of a head, the newlines among its bytes, and the head with each byte left out. Of so many one is listed too.
static void altered_heads(Form f, const char *head, size_t list_one_in)
{
    for (size_t i = 0; i < alterations(head) + strlen(head) && !failed; i++) {
        size_t out = i - alterations(head);
        progress(i, alterations(head));
        form = f;
        record_length = 0;
        if (i < alterations(head)) add_altered(head, i);
        else add_bytes(head, out), add("%s", head + out + 1);
        add_lines("T 0 -\nE 8 0\nC 9 -\nC 12 -\n");
        i % list_one_in == 0 || i >= alterations(head) ? list_record(0) : read_record();
        hold_statuses(1);
    }
}

static void group_names(void)
{
    for (Form f = 0; f < FORMS; f++) altered_heads(f, names_line[f], by_scale(64, 16, 4));
}

static void group_heads_altered(void)
{
    altered_heads(WITH_KEYS, "states\n9\nkind from to key\n", by_scale(64, 5, 1));
    altered_heads(WITHOUT_KEYS, "states\n12\nkind from to\n", by_scale(64, 16, 4));
    altered_heads(WITH_KEYS, "states\n2048\nkind from to key\n", by_scale(64, 16, 4));
}

// ---- long listings

// All states are settled at once where so many lines are listed before: at every fill of the output, up to several times as much as a
// program would keep.
static void group_fills(void)
{
    for (size_t refused = 0; refused < 24000 && !failed; refused += by_scale(6000, 1500, 500)) {
        start_counted(some_form(), refused % 1000 ? 2048 : 0);
        for (size_t s = 0; s < 2047; s++) add_update((Update){'E', s, s + 1, s % 32}), add_update((Update){'C', s, 0, 0});
        add_run('\n', refused);
        add_lines("C 2047 -\nT 0 -\n");
        list_record(0);
    }
}

// ---- how the program ends

static void group_stopped(void) { stopped_inputs(LISTING, hold_listing); }
static void group_failing_inputs(void) { failing_inputs(LISTING, hold_listing); }
static void group_arguments(void) { arguments_given(LISTING); }

// A listing of which a part cannot be written ends there, though more lines would come.
static void group_failing_outputs(void)
{
    failing_outputs(LISTING);
    if (failed) return;
    lines_record(0, MOST_LINES, BLANK, "", 1);
    hold_end(program_run_between(LISTING, FROM_HELD_PIPE, record, record_length, PIECE_MOST, TO_FULL_DEVICE), cannot_write[LISTING]);
}

// ---- all groups

static const Group groups[] = {
    {"document 01's listing, one with keys, one with repeated steps, some with a count", group_sample},
    {"what the status call answers first", group_order},
    {"states around the count, whatever stands behind it", group_around},
    {"inputs that nobody closes, where reading stops", group_stopped},
    {"inputs that cannot be read to their end", group_failing_inputs},
    {"outputs that cannot be written", group_failing_outputs},
    {"arguments", group_arguments},
    {"valid records", group_valid},
    {"records up to the step limit and past it", group_full_list},
    {"repeated steps, up to 65,535 lines of which 2,048 steps differ", group_repeated},
    {"damaged records", group_damaged},
    {"damaged heads", group_damaged_heads},
    {"lines of random bytes", group_noise},
    {"lines at the edges of the grammar", group_awkward},
    {"lines with every byte altered, in one record", group_every_byte},
    {"lines with every byte altered, each alone", group_every_byte_alone},
    {"names lines with every byte altered", group_names},
    {"heads with a count, every byte altered", group_heads_altered},
    {"beginnings, the empty record among them", group_beginnings},
    {"lines of the head missing, twice, late, long, and no counts", group_heads},
    {"each count up to 2,100", group_counts},
    {"states of each mix of statuses", group_mixes},
    {"65,534 to 65,537 lines", group_many_lines},
    {"lines of up to ten million bytes", group_long_lines},
    {"records that come in pieces", group_pieces},
    {"heads that come in pieces of every length", group_pieces_of_heads},
    {"lines across the cuts of large reads", group_cuts},
    {"verdicts at every fill of the output", group_fills},
};

static void show_counts(void)
{
    printf("%lu runs of the listing program, %lu lines of listings\n", runs, lines_listed);
    printf("answers of the status call:");
    for (int i = 0; i < 34; i++)
        if (answers[i]) printf(" %d: %lu;", i, answers[i]);
    printf("\n");
}

int main(int argc, char **argv)
{
    static const Suite suite = {groups, sizeof groups / sizeof *groups, check_names, CHECKS, show_record, show_counts};
    table_make(&lent, 1, sizeof record);
    return suite_run(&suite, argc, argv);
}
