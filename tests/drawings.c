// The drawing program's suite, against a picture written by its format alone (drawing.h). Which successors are drawn bold is the engine's
// choice: the bold steps are held to document 01's rule of successors, everything else is held byte for byte.
#include "drawing.h"
#include "ending.h"
#include "groups.h"
#include "making.h"
#include "program.h"
#include "random.h"
#include "reading.h"
#include "runs.h"
#include <stdio.h>
#include <stdlib.h>
#include <string.h>

enum { CHECK_PICTURE = ENDING_CHECKS, CHECK_BOLD, CHECK_SAMPLE, CHECKS };

static const char *const check_names[CHECKS] = {
    ENDING_CHECK_NAMES,
    "the picture, byte for byte, whichever steps are bold",
    "bold steps: one out of each unknown state, none out of another; they lead to an open state within n - 1",
    "a sample picture",
};

static unsigned long runs, drawn[5], terminal_drawn, steps_drawn, bold_drawn;
static size_t longest_way;

// ---- the record in hand held to the naive picture

static Reading reading;
static uint8_t bold[MOST_STEPS];

static char *picture_text;
static size_t picture_length;

static void count_drawn(void)
{
    runs++, steps_drawn += reading.history.steps;
    for (size_t s = 0; s < MOST_STATES; s++) drawn[reading.status[s]]++, terminal_drawn += (reading.marks[s] & TERMINAL) != 0;
    for (size_t p = 0; p < reading.history.steps; p++) bold_drawn += bold[p];
}

static void hold_picture(Output output)
{
    free(picture_text);
    FILE *picture = open_memstream(&picture_text, &picture_length);
    if (!picture) abort();
    reading_read(&reading, 2048, record, record_length, NULL);
    drawing_bold(&reading, output.bytes, output.length, bold);
    drawing_write(&reading, bold, picture);
    fclose(picture);
    check(CHECK_PICTURE, output.length == picture_length && memcmp(output.bytes, picture_text, picture_length) == 0);
    size_t way = drawing_leads(&reading, bold);
    check(CHECK_BOLD, way > 0);
    if (way > longest_way) longest_way = way;
    count_drawn();
}

static void hold_record(size_t piece)
{
    Output output = program_run(DRAW, record, record_length, piece);
    hold_end(output, "");
    hold_picture(output);
}

// ---- samples, in which there is one choice of successors; the fourth has terminal states, which are live, open and closed in their marks,
// beside live states that are not terminal and refused marks; the next ones have steps that differ only in key, keys that are refused, and
// steps that come again; the last ones a count of states, which is 3, or is none, or stands before no names line

typedef struct {
    Form form;
    const char *lines, *picture;    // below the names line, or with the head where there is a count; and between opening and end
} Sample;

static const Sample samples[] = {
    {WITHOUT_KEYS, "", ""},
    {WITHOUT_KEYS, "E 0 1\nE 1 0\nE 1 2\nC 0 -\nC 1 -\n",
     "  0 [label=\"0 unknown\", fillcolor=\"#ffe08a\"];\n  1 [label=\"1 unknown\", fillcolor=\"#ffe08a\"];\n"
     "  2 [label=\"2 open\", fillcolor=\"#ffffff\"];\n  0 -> 1 [label=\"0\", style=bold];\n"
     "  1 -> 0 [label=\"0\"];\n  1 -> 2 [label=\"0\", style=bold];\n"},
    {WITHOUT_KEYS, "E 7 7\nE 7 12\nT 12 -\nC 12 -\nE 12 7\nC 2047 -\nE 2047 0\nE 0 2047\nX\n",
     "  0 [label=\"0 open\", fillcolor=\"#ffffff\"];\n  7 [label=\"7 live\", fillcolor=\"#a8dba0\"];\n"
     "  12 [label=\"12 live\", fillcolor=\"#a8dba0\", peripheries=2];\n  2047 [label=\"2047 dead\", fillcolor=\"#f0a8a0\"];\n"
     "  7 -> 7 [label=\"0\"];\n  7 -> 12 [label=\"0\"];\n  0 -> 2047 [label=\"0\"];\n"},
    {WITHOUT_KEYS, "E 0 1\nT 1 -\nE 1 2\nC 1 -\nT 1 -\nT 3 -\nT 3 -\nE 4 3\nC 4 -\nT 4 -\nC 5 -\nT 5 -\nE 6 2\nC 6 -\nT 6 -\nT 2048 -\n",
     "  0 [label=\"0 live\", fillcolor=\"#a8dba0\"];\n  1 [label=\"1 live\", fillcolor=\"#a8dba0\", peripheries=2];\n"
     "  2 [label=\"2 open\", fillcolor=\"#ffffff\"];\n  3 [label=\"3 live\", fillcolor=\"#a8dba0\", peripheries=2];\n"
     "  4 [label=\"4 live\", fillcolor=\"#a8dba0\"];\n  5 [label=\"5 dead\", fillcolor=\"#f0a8a0\"];\n"
     "  6 [label=\"6 unknown\", fillcolor=\"#ffe08a\"];\n  0 -> 1 [label=\"0\"];\n  1 -> 2 [label=\"0\"];\n  4 -> 3 [label=\"0\"];\n"
     "  6 -> 2 [label=\"0\", style=bold];\n"},
    {WITH_KEYS, "", ""},
    {WITH_KEYS, "E 0 1 0\nE 0 1 7\nE 0 1 31\nE 0 1 32\nE 0 1\nE 2 0 9\nE 1 1 10\nC 2 - -\nE 2 1 255\nT 0 -\nC 1 - -\n",
     "  0 [label=\"0 open\", fillcolor=\"#ffffff\"];\n  1 [label=\"1 dead\", fillcolor=\"#f0a8a0\"];\n"
     "  2 [label=\"2 unknown\", fillcolor=\"#ffe08a\"];\n  0 -> 1 [label=\"0\"];\n  0 -> 1 [label=\"7\"];\n  0 -> 1 [label=\"31\"];\n"
     "  2 -> 0 [label=\"9\", style=bold];\n  1 -> 1 [label=\"10\"];\n"},
    {WITH_KEYS, "E 2047 2046 30\nC 2047 - -\nC 2046 - -\nE 2046 0 30\nE 5 2047 31\nE 5 2047 31\nT 5 - -\n",
     "  5 [label=\"5 live\", fillcolor=\"#a8dba0\", peripheries=2];\n  2046 [label=\"2046 dead\", fillcolor=\"#f0a8a0\"];\n"
     "  2047 [label=\"2047 dead\", fillcolor=\"#f0a8a0\"];\n  2047 -> 2046 [label=\"30\"];\n  5 -> 2047 [label=\"31\"];\n"},
    {WITHOUT_KEYS, "E 0 1\nE 0 1\nE 1 0\nE 0 1\nE 1 0\nC 0 -\nE 0 1\n",
     "  0 [label=\"0 unknown\", fillcolor=\"#ffe08a\"];\n  1 [label=\"1 open\", fillcolor=\"#ffffff\"];\n"
     "  0 -> 1 [label=\"0\", style=bold];\n  1 -> 0 [label=\"0\"];\n"},
    {WITH_KEYS, "states\n3\nkind from to key\n", ""},
    {WITH_KEYS, "states\n3\nkind from to key\nE 0 1 9\nE 1 3 9\nE 3 1 9\nE 1 2 31\nT 3 - -\nC 2047 - -\nC 0 - -\nC 1 - -\n",
     "  0 [label=\"0 unknown\", fillcolor=\"#ffe08a\"];\n  1 [label=\"1 unknown\", fillcolor=\"#ffe08a\"];\n"
     "  2 [label=\"2 open\", fillcolor=\"#ffffff\"];\n  0 -> 1 [label=\"9\", style=bold];\n  1 -> 2 [label=\"31\", style=bold];\n"},
    {WITHOUT_KEYS, "states\n0\nkind from to\nT 0 -\n", ""},
    {WITHOUT_KEYS, "states\n3\nkind from\nT 0 -\n", ""},
};

// Whether a sample has its head among its lines.
static int has_head(const Sample *s) { return *s->lines == 's'; }

static void group_samples(void)
{
    for (size_t i = 0; i < 2 * (sizeof samples / sizeof *samples) && !failed; i++) {
        char picture[1024];
        snprintf(picture, sizeof picture, "digraph verdicts {\n  rankdir=LR;\n  node [style=filled];\n%s}\n", samples[i / 2].picture);
        form = samples[i / 2].form;
        record_length = 0;
        add("%s%s", has_head(&samples[i / 2]) ? "" : names_line[form], samples[i / 2].lines);
        record_length -= i % 2;
        hold_record(0);
        check(CHECK_SAMPLE, strcmp(picture, picture_text) == 0);
    }
}

// ---- short records

// The record in hand, and every one with up to so many lines more.
static void every_record(size_t numbers, size_t lines)
{
    size_t here = record_length;
    hold_record(0);
    for (size_t i = 0; i < updates_over(numbers) && lines > 0 && !failed; i++) {
        add_update(nth_update(numbers, i));
        every_record(numbers, lines - 1);
        record_length = here;
    }
}

static void group_short(void)
{
    for (Form f = 0; f < FORMS; f++) {
        start_record(f);
        every_record(2, by_scale(2, 3, 4));
        start_record(f);
        every_record(3, by_scale(2, 2, 3));
        start_counted(f, 2);    // 2 is no state
        every_record(3, by_scale(1, 2, 3));
    }
}

// ---- what explorers send, cut anywhere

static Lent lent;

static void send_line(Run *r, Update u)
{
    (void)r;
    add_update(u);
}

static Run explorer = {.lent = &lent, .send = send_line};

static void hold_cut(void)
{
    if (!one_in(4)) record_length = head_length + below(record_length - head_length + 1);
    hold_record(0);
}

static void group_explored(void)
{
    for (size_t i = 0; i < rounds(600) && !failed; i++) {
        progress(i, rounds(600));
        start_some(12);
        small_run(&explorer, i);
        hold_cut();
    }
}

// Rings and lines among them: long ways to an open state.
static void group_explored_large(void)
{
    for (size_t i = 0; i < rounds(40) && !failed; i++) {
        size_t n = one_in(3) ? 2048 - below(3) : 13 + below(300);
        progress(i, rounds(40));
        start_some(n);
        large_run(&explorer, i, n, 2048);
        hold_cut();
    }
}

// As many states and steps as there can be, in a ring of which one state is left open.
static void group_longest_way(void)
{
    for (size_t how = 0; how < 4; how++) {
        start_counted((Form)(how / 2), how % 2 ? 2048 : 0);
        for (size_t i = 0; i < 2048; i++) {
            size_t s = how % 2 ? 2047 - i : i;
            add_update((Update){'E', s, (s + 1) % 2048, MOST_KEY - i % 2});
            if (s < 2047) add_update((Update){'C', s, 0, 0});
        }
        hold_record(0);
    }
    check(CHECK_BOLD, longest_way == 2048);
}

// As many terminal states and steps as there can be.
static void group_fullest(void)
{
    for (Form f = 0; f < FORMS; f++) {
        start_record(f);
        for (size_t s = 0; s < 2048; s++) add_update((Update){'T', s, 0, 0}), add_update((Update){'E', s, 2047 - s, MOST_KEY});
        hold_record(0);
    }
}

// ---- the series of records

static void group_valid(void) { valid_records(rounds(300), hold_record); }
static void group_full_list(void) { full_records(rounds(20), hold_record); }
static void group_repeated(void) { repeated_records(rounds(150), hold_record); }
static void group_damaged(void) { damaged_records(rounds(600), hold_record); }
static void group_damaged_heads(void) { damaged_heads(rounds(600), hold_record); }
static void group_noise(void) { noisy_records(rounds(100), hold_record); }
static void group_awkward(void) { awkward_records(hold_record); }
static void group_beginnings(void) { beginnings(hold_record); }
static void group_heads(void) { other_heads(hold_record); }
static void group_counts(void) { each_count(by_scale(97, 11, 1), hold_record); }
static void group_many_lines(void) { many_lines(by_scale(4, 12, 120), hold_record); }
static void group_long_lines(void) { long_lines(hold_record); }
static void group_pieces(void) { records_in_pieces(rounds(400), hold_record); }
static void group_pieces_of_heads(void) { heads_in_pieces(hold_record); }
static void group_cuts(void) { cut_lines(hold_record); }
static void group_stopped(void) { stopped_inputs(DRAW, hold_picture); }
static void group_failing_inputs(void) { failing_inputs(DRAW, hold_picture); }
static void group_failing_outputs(void) { failing_outputs(DRAW); }
static void group_arguments(void) { arguments_given(DRAW); }

// ---- all groups

static const Group groups[] = {
    {"sample pictures", group_samples},
    {"inputs that nobody closes, where reading stops", group_stopped},
    {"inputs that cannot be read to their end", group_failing_inputs},
    {"outputs that cannot be written", group_failing_outputs},
    {"arguments", group_arguments},
    {"every short record", group_short},
    {"explorers' records, up to 12 states", group_explored},
    {"explorers' records, up to 2,048 states", group_explored_large},
    {"the longest way to an open state", group_longest_way},
    {"as many terminal states and steps as there can be", group_fullest},
    {"valid records", group_valid},
    {"records up to the step limit and past it", group_full_list},
    {"repeated steps, up to 65,535 lines of which 2,048 steps differ", group_repeated},
    {"damaged records", group_damaged},
    {"damaged heads", group_damaged_heads},
    {"lines of random bytes", group_noise},
    {"lines at the edges of the grammar", group_awkward},
    {"beginnings, the empty record among them", group_beginnings},
    {"lines of the head missing, twice, late, long, and no counts", group_heads},
    {"counts up to 2,100", group_counts},
    {"65,534 to 65,537 lines", group_many_lines},
    {"lines of up to ten million bytes", group_long_lines},
    {"records that come in pieces", group_pieces},
    {"heads that come in pieces of every length", group_pieces_of_heads},
    {"lines across the cuts of large reads", group_cuts},
};

static void show_counts(void)
{
    printf("%lu pictures; states drawn open: %lu, unknown: %lu, live: %lu, %lu of them terminal, dead: %lu; ", runs, drawn[OPEN],
           drawn[UNKNOWN], drawn[LIVE], terminal_drawn, drawn[DEAD]);
    printf("%lu steps, %lu of them bold, at most %zu in a way\n", steps_drawn, bold_drawn, longest_way - 1);
}

int main(int argc, char **argv)
{
    static const Suite suite = {groups, sizeof groups / sizeof *groups, check_names, CHECKS, show_record, show_counts};
    lent_make(&lent);
    return suite_run(&suite, argc, argv);
}
