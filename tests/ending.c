// How a program ends.
#include "ending.h"
#include "groups.h"
#include "making.h"
#include <stdlib.h>
#include <string.h>

const char *const cannot_read[] = {"radvoinis-listing: cannot read standard input\n", "radvoinis-draw: cannot read standard input\n"};
const char *const cannot_write[] = {"radvoinis-listing: cannot write standard output\n", "radvoinis-draw: cannot write standard output\n",
                                    "radvoinis-histories: cannot write standard output\n"};

void hold_end(Output output, const char *said)
{
    check(CHECK_ENDED, output.ended);
    check(CHECK_SAID, strcmp(output.said, said) == 0);
}

static Output run(Program p, Source from, Target to, const char *said)
{
    Output output = program_run_between(p, from, record, record_length, PIECE_MOST, to);
    hold_end(output, said);
    return output;
}

// A 10, a 17 and a 12: "Reading stops."
void stopped_inputs(Program p, void (*hold)(Output output))
{
    static const struct {
        const char *before, *line;    // behind what may stand, the line that ends the reading
    } first[] = {{"", "y"}, {"", ""}, {"", "kind from to "}, {"", "T 0 -"}, {"", "kind from to ke"}, {"", "kind from to key "},
                 {"", "states "}, {"states\n", "0"}, {"states\n", ""}, {"states\n", "2049"}, {"states\n", "09"}, {"states\n", "states"},
                 {"states\n", "kind from to"}, {"states\n9\n", "9"}, {"states\n9\n", ""}, {"states\n9\n", "kind from to k"}};
    static const char *const last[] = {"T 0 -", "", "E 1 2 "};
    for (size_t i = 0; i < 2 * (sizeof first / sizeof *first) && !failed; i++) {
        record_length = 0;
        add("%s", first[i / 2].before);
        for (size_t lines = i % 2 ? 200000 : 1; lines > 0; lines--) add("%s\n", first[i / 2].line);
        hold(run(p, FROM_HELD_PIPE, TO_MEMORY, ""));
    }
    for (size_t i = 0; i < 12 && !failed; i++) {
        lines_record(i / 6 ? 8 : 0, MOST_LINES + 1, TERMINALS, last[i / 2 % 3], 1);
        if (i % 2) add_run('\n', 200000);
        hold(run(p, FROM_HELD_PIPE, TO_MEMORY, ""));
    }
}

// A read error counts as the end of the input, wherever it comes; where reading has stopped before it, nobody meets it.
void failing_inputs(Program p, void (*hold)(Output output))
{
    static const char *const before[] = {"", "kind from", "kind from to", "kind from to\n", "kind from to\nE 0 1\nC 0 -\nC 1 -",
                                         "kind from to\nE 0 1\nC 0 -\nC 1 -\n", "kind from to ke", "kind from to key", "kind from to key\n",
                                         "kind from to key\nE 0 1 7\nC 0 - -\nC 1 - -", "kind from to key\nE 0 1 7\nC 0 - -\nC 1 - -\n",
                                         "state", "states", "states\n", "states\n2", "states\n2\n", "states\n2\nkind from to ke",
                                         "states\n2\nkind from to key\nE 0 1 7\nC 0 - -\nC 1 - -",
                                         "states\n2\nkind from to\nE 0 1\nC 0 -\nC 1 -\n"};
    record_length = 0;
    hold(run(p, FROM_FOLDER, TO_MEMORY, cannot_read[p]));
    hold(run(p, FROM_NOTHING, TO_MEMORY, cannot_read[p]));
    for (size_t i = 0; i < 2 * (sizeof before / sizeof *before) && !failed; i++) {
        const char *text = before[i / 2];
        record_length = 0;
        add("%s", text);
        int keys = strstr(text, "key\n") != NULL;
        if (i % 2 && (keys || strstr(text, "to\n"))) add_run('x', 200000), add(keys ? "\nE 2 3 8\nC 2 - -" : "\nE 2 3\nC 2 -");
        hold(run(p, FROM_FAILING_SOCKET, TO_MEMORY, cannot_read[p]));
    }
    for (size_t i = 0; i < 3 && !failed; i++) {
        static const char *const stopped[] = {"kind from to \n", "states\n2 \n", "states\n2\nkind from to \n"};
        record_length = 0;
        add("%s", stopped[i]);
        hold(run(p, FROM_FAILING_SOCKET, TO_MEMORY, ""));
    }
}

// A short text and a long one, which the listing program writes in several parts.
void failing_outputs(Program p)
{
    for (size_t i = 0; i < 4 && !failed; i++) {
        start_some(2001);
        for (size_t s = 0; s < (i / 2 ? 2000 : 2); s++) add_update((Update){'E', s, s + 1, s % 32}), add_run('\n', 8);
        run(p, FROM_FILE, i % 2 ? TO_FULL_DEVICE : TO_NOTHING, cannot_write[p]);
    }
}

// ---- arguments

// What begins each program's usage. The rest of it is the program's own, and the same on both streams.
static const char *const usage_line[] = {"usage: radvoinis-listing <RECORD\n", "usage: radvoinis-draw <RECORD\n", "usage: radvoinis-histories\n"};
static char *usage;

static Output run_with(Program p, const char *const *arguments, Source from, Target to)
{
    start_some(2);
    add_lines("E 0 1\nT 1 -\nC 0 -\n");
    Output output = program_run_with(p, arguments, from, record, from == FROM_HELD_PIPE ? 0 : record_length, PIECE_MOST, to);
    check(CHECK_ENDED, output.ended);
    check(CHECK_UNREAD, output.taken == 0);
    return output;
}

static void hold_help(Program p, Source from)
{
    static const char *const help[] = {"--help", NULL};
    Output output = run_with(p, help, from, TO_MEMORY);
    check(CHECK_USAGE, output.length == strlen(usage) && memcmp(output.bytes, usage, output.length) == 0 && *output.said == 0);
}

static void hold_other(Program p, const char *first, const char *second, const char *third)
{
    const char *arguments[] = {first, second, third, NULL};
    for (int i = 0; i < 4 && !failed; i++) {
        static const Source from[] = {FROM_FILE, FROM_HELD_PIPE, FROM_NOTHING, FROM_FOLDER};
        Output output = run_with(p, arguments, from[i], i % 2 ? TO_MEMORY : TO_FULL_DEVICE);
        check(CHECK_USAGE, output.length == 0 && strcmp(output.said, usage) == 0);
    }
}

// --help with each of its bytes altered, one left out behind, one more.
static void hold_words_like_help(Program p)
{
    for (size_t i = 0; i < 8 && !failed; i++) {
        char word[] = "--help\0";
        if (i < 6) word[i] ^= i % 2 ? 32 : 1;
        else word[i == 6 ? 5 : 6] = i == 6 ? 0 : 'p';
        hold_other(p, word, NULL, NULL);
    }
}

void arguments_given(Program p)
{
    static const char *const others[][3] = {{""}, {"-"}, {"-h"}, {"--"}, {"x"}, {" --help"}, {"--help", ""}, {"--help", "--help"},
                                            {"", "--help"}, {"x", "--help"}, {"x", "y"}, {"--help", "x", "y"}, {"", "", ""}};
    static const char *const help[] = {"--help", NULL};
    static char longest[100001];
    memset(longest, 'x', sizeof longest - 1);
    free(usage);
    usage = strdup((const char *)run_with(p, help, FROM_FILE, TO_MEMORY).bytes);
    check(CHECK_USAGE, strncmp(usage, usage_line[p], strlen(usage_line[p])) == 0 && usage[strlen(usage) - 1] == '\n');
    for (Source from = FROM_FILE; from <= FROM_NOTHING && !failed; from++)
        if (from != FROM_FAILING_SOCKET) hold_help(p, from);
    for (size_t i = 0; i < sizeof others / sizeof *others && !failed; i++) hold_other(p, others[i][0], others[i][1], others[i][2]);
    if (!failed) hold_other(p, longest, NULL, NULL);
    if (!failed) hold_words_like_help(p);
    for (Target to = TO_FULL_DEVICE; to <= TO_NOTHING && !failed; to++)
        check(CHECK_SAID, strcmp(run_with(p, help, FROM_FILE, to).said, cannot_write[p]) == 0);
}
