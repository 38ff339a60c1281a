// The suite of the program that lists every small history: its bytes against a naive listing (enumerating.h), and what each line says
// against the words of document 02, #114, one by one.
#include "../include/radvoinis.h"
#include "ending.h"
#include "enumerating.h"
#include "groups.h"
#include "making.h"
#include "program.h"
#include <stdio.h>
#include <stdlib.h>
#include <string.h>

enum { CHECK_LISTING = ENDING_CHECKS, CHECK_FORM, CHECK_LEGAL, CHECK_ORDER, CHECK_ALL, CHECK_COUNT, CHECK_LIBRARY, CHECK_DEAD, CHECK_TOTALS, CHECKS };

static const char *const check_names[CHECKS] = {
    ENDING_CHECK_NAMES,
    "the listing, byte for byte",
    "a line: updates over two states by key 0, joined by commas, a colon and two digits",
    "a listed history is legal, and has at most three updates",
    "each history stands before the next",
    "as many histories are listed as are legal of all that there are",
    "the count at the end",
    "the digits: the statuses of the library for C, which accepts every update",
    "dead: no legal continuation makes the state live",
    "the digits: the totals of the listing program",
};

// ---- the listing in hand, line by line

enum { MOST_LISTED = 1000 };

typedef struct {
    Update updates[MOST_UPDATES];
    size_t count;
    uint8_t digits[SMALL_STATES];
} Line;

static Line lines[MOST_LISTED];
static size_t listed, last_count;
static const char *shown = "";    // the line under way

static void show_line(void) { printf("  at the line \"%.60s\"\n", shown); }

// Takes an update off a text, or answers 0.
static int take_update(const char **at, Update *u)
{
    static const struct {
        const char *text;
        Update update;
    } all[] = {{"E 0 0 0", {'E', 0, 0, 0}}, {"E 0 1 0", {'E', 0, 1, 0}}, {"E 1 0 0", {'E', 1, 0, 0}}, {"E 1 1 0", {'E', 1, 1, 0}},
               {"T 0 - -", {'T', 0, 0, 0}}, {"T 1 - -", {'T', 1, 0, 0}}, {"C 0 - -", {'C', 0, 0, 0}}, {"C 1 - -", {'C', 1, 0, 0}}};
    for (size_t i = 0; i < sizeof all / sizeof *all; i++) {
        if (strncmp(*at, all[i].text, strlen(all[i].text)) != 0) continue;
        *at += strlen(all[i].text), *u = all[i].update;
        return 1;
    }
    return 0;
}

// Takes updates with commas between them off a text, or answers 0.
static int take_updates(const char **at, Line *l)
{
    for (;; (*at)++) {
        if (l->count == MOST_UPDATES || !take_update(at, &l->updates[l->count++])) return 0;
        if (**at != ',') return 1;
    }
}

// Takes a line off a text, with its newline, or answers 0.
static int take_line(const char **at, Line *l)
{
    *l = (Line){.count = 0};
    if (**at != ':' && !take_updates(at, l)) return 0;
    if (*(*at)++ != ':') return 0;
    for (size_t s = 0; s < SMALL_STATES; s++, (*at)++) {
        if (**at < '0' || **at > '4') return 0;
        l->digits[s] = (uint8_t)(**at - '0');
    }
    return *(*at)++ == '\n';
}

// The lines up to the last, which is a number.
static void take_listing(const char *at)
{
    int used = 0;
    for (listed = 0; listed < MOST_LISTED && strchr(at, ':'); listed++) {
        shown = at;
        if (!check(CHECK_FORM, take_line(&at, &lines[listed]))) return;
    }
    shown = at;
    check(CHECK_COUNT, sscanf(at, "%5zu%n", &last_count, &used) == 1 && strcmp(at + used, "\n") == 0);
}

static char *run_histories(void)
{
    static char *text;
    Output output = program_run(HISTORIES, NULL, 0, 0);
    hold_end(output, "");
    free(text);
    if (!(text = strndup((const char *)output.bytes, output.length))) abort();
    return text;
}

// ---- the whole

static void hold_listing(Output output)
{
    char *text;
    size_t length;
    FILE *naive = open_memstream(&text, &length);
    if (!naive) abort();
    enumerating_write(naive);
    fclose(naive);
    check(CHECK_LISTING, output.length == length && memcmp(output.bytes, text, length) == 0);
    free(text);
}

static void group_listing(void)
{
    Output output = program_run(HISTORIES, NULL, 0, 0);
    hold_end(output, "");
    hold_listing(output);
}

// Whatever its input is, none of it is read.
static void group_inputs(void)
{
    for (Source from = FROM_FILE; from <= FROM_NOTHING && !failed; from++) {
        start_some(2);
        add_lines("E 0 1\nT 1 -\nC 0 -\n");
        Output output = program_run_between(HISTORIES, from, record, record_length, PIECE_MOST, TO_MEMORY);
        hold_end(output, "");
        check(CHECK_UNREAD, output.taken == 0);
        hold_listing(output);
    }
}

static void group_failing_outputs(void) { failing_outputs(HISTORIES); }
static void group_arguments(void) { arguments_given(HISTORIES); }

// ---- which histories, and in which order

// "A history is legal if no step and no terminal mark follows a close of its first state."
static int is_legal(const Line *l)
{
    for (size_t i = 0; i < l->count; i++)
        for (size_t before = 0; before < i; before++)
            if (l->updates[i].kind != 'C' && l->updates[before].kind == 'C' && l->updates[before].first == l->updates[i].first) return 0;
    return 1;
}

// How many lists of so many updates more are legal, of the eight that there are for each.
static size_t count_legal(Line *l, size_t more)
{
    size_t count = 0;
    if (more == 0) return (size_t)is_legal(l);
    for (size_t i = 0; i < 8; i++) {
        l->updates[l->count++] = (Update){i < 4 ? 'E' : i < 6 ? 'T' : 'C', i / 2 % 2, i % 2, 0};
        if (i >= 4) l->updates[l->count - 1].first = i % 2;
        count += count_legal(l, more - 1);
        l->count--;
    }
    return count;
}

static int order_of(const char *kinds, Update a, Update b)
{
    const char *x = strchr(kinds, a.kind), *y = strchr(kinds, b.kind);
    if (x != y) return x < y ? -1 : 1;
    if (a.first != b.first) return a.first < b.first ? -1 : 1;
    return a.second < b.second ? -1 : a.second > b.second;
}

// "shorter ones first, then update by update with steps before terminal marks before closes, lower from first, lower to next"
static int stands_before(const Line *a, const Line *b)
{
    if (a->count != b->count) return a->count < b->count;
    for (size_t i = 0; i < a->count; i++) {
        int order = order_of("ETC", a->updates[i], b->updates[i]);
        if (order) return order < 0;
    }
    return 0;
}

static void group_histories(void)
{
    size_t all = 0;
    take_listing(run_histories());
    for (size_t i = 0; i < listed && !failed; i++) {
        check(CHECK_LEGAL, is_legal(&lines[i]));
        if (i > 0) check(CHECK_ORDER, stands_before(&lines[i - 1], &lines[i]));
    }
    for (size_t updates = 0; updates <= MOST_UPDATES; updates++) all += count_legal(&(Line){.count = 0}, updates);
    check(CHECK_ALL, listed == all);
    check(CHECK_COUNT, last_count == all);
}

// ---- the digits

static void hold_library(const Line *l)
{
    static uint64_t memory[64];
    radvoinis_tables t;
    int accepted = radvoinis_tables_size(SMALL_STATES, MOST_UPDATES) <= sizeof memory;
    accepted = accepted && radvoinis_tables_fresh(&t, memory, sizeof memory, SMALL_STATES, MOST_UPDATES) == 0;
    for (size_t i = 0; i < l->count && accepted; i++) {
        uint32_t first = (uint32_t)l->updates[i].first, second = (uint32_t)l->updates[i].second;
        uint8_t kind = l->updates[i].kind;
        uint32_t answer = kind == 'E' ? radvoinis_step(&t, first, second) : kind == 'T' ? radvoinis_terminal(&t, first) : radvoinis_close(&t, first);
        accepted = answer < RADVOINIS_REFUSED;
    }
    check(CHECK_LIBRARY, accepted && memcmp(t.status, l->digits, SMALL_STATES) == 0);
}

// A step to the other state and a terminal mark there are all that a state can need to become live.
static void hold_dead(const Line *l)
{
    static History h;
    history_start(&h, SMALL_STATES, MOST_UPDATES);
    for (size_t i = 0; i < l->count; i++) history_add(&h, l->updates[i]);
    for (size_t s = 0; s < SMALL_STATES; s++) check(CHECK_DEAD, (l->digits[s] == DEAD) == !reference_can_live(&h, s, 2));
}

static void group_digits(void)
{
    take_listing(run_histories());
    for (size_t i = 0; i < listed && !failed; i++) {
        hold_library(&lines[i]);
        hold_dead(&lines[i]);
    }
}

// Each history as a record of two states.
static void group_records(void)
{
    static const struct {
        const char *name;
        uint8_t status;
    } totals[] = {{"open", OPEN}, {"unknown", UNKNOWN}, {"live", LIVE}, {"dead", DEAD}};
    take_listing(run_histories());
    for (size_t i = 0; i < listed && !failed; i++) {
        char end[100];
        size_t length = 0;
        progress(i, listed);
        start_counted(WITH_KEYS, SMALL_STATES);
        for (size_t k = 0; k < lines[i].count; k++) add_update(lines[i].updates[k]);
        for (size_t k = 0; k < sizeof totals / sizeof *totals; k++)
            length += (size_t)sprintf(end + length, "end %s %d\n", totals[k].name, (lines[i].digits[0] == totals[k].status) + (lines[i].digits[1] == totals[k].status));
        Output output = program_run(LISTING, record, record_length, 0);
        check(CHECK_TOTALS, output.length >= length && memcmp(output.bytes + output.length - length, end, length) == 0);
    }
}

// ---- all groups

static const Group groups[] = {
    {"which histories, and in which order", group_histories},
    {"the digits, by the library for C and by continuations", group_digits},
    {"each history as a record", group_records},
    {"the listing", group_listing},
    {"inputs, of which none is read", group_inputs},
    {"outputs that cannot be written", group_failing_outputs},
    {"arguments", group_arguments},
};

static void show_counts(void) { printf("%zu histories\n", listed); }

int main(int argc, char **argv)
{
    static const Suite suite = {groups, sizeof groups / sizeof *groups, check_names, CHECKS, show_line, show_counts};
    return suite_run(&suite, argc, argv);
}
