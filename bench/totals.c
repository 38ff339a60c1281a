// The benchmark's third part: the count of the listing's totals by itself, over tables of every mix of statuses. `totals [PAGE]`: adds a
// section to the page.
#include "../tests/random.h"
#include "counts.h"
#include "page.h"
#include <stdlib.h>
#include <string.h>

enum { STATES = 2048, RUNS = 201, CALLS = 64, MIXES = 31, MOST_CASES = 31 };

uint64_t random_state;

static const struct {
    const char *name;
    count_call *count;
} ways[] = {
    {"proved", proved_totals}, {"C", baseline_totals},       {"clang", clang_totals},
    {"gcc -O3", gcc3_totals},  {"a counter each", counter_totals}, {"a branch each", branch_totals},
};

enum { PROVED, PLAIN, CLANG, GCC3, WAYS = sizeof ways / sizeof *ways };

// What is counted: the first n states of a table.
typedef struct {
    size_t n;
    uint8_t status[STATES];
} Case;

// A table in which each state's status is one of those whose bits are in the mix, at random.
static void fill(Case *c, size_t n, unsigned mix)
{
    c->n = n;
    for (size_t s = 0; s < STATES; s++) {
        size_t k = below(5);
        while (!(mix >> k & 1)) k = below(5);
        c->status[s] = (uint8_t)k;
    }
}

static const char *name_of(unsigned mix)
{
    static const char *const words[] = {"unseen", "open", "unknown", "live", "dead"};
    static char name[64];
    *name = 0;
    for (unsigned k = 0; k < 5; k++)
        if (mix >> k & 1) strcat(strcat(name, *name ? ", " : ""), words[k]);
    return name;
}

static void count(int way, const Case *c, size_t *t) { ways[way].count(c->n, c->status, STATES, &t[0], &t[1], &t[2], &t[3]); }

// Ends the program unless all ways count alike.
static void hold(const Case *c)
{
    size_t right[5] = {0};
    for (size_t s = 0; s < c->n; s++) right[c->status[s]]++;
    for (int w = 0; w < WAYS; w++) {
        size_t t[4];
        count(w, c, t);
        if (!memcmp(t, right + 1, sizeof t)) continue;
        out("Counted wrong: %s\n", ways[w].name);
        exit(1);
    }
}

static double time_calls(int way, const Case *c)
{
    size_t t[4];
    double start = thread_time();
    for (int k = 0; k < CALLS; k++) count(way, c, t);
    return (thread_time() - start) / CALLS;
}

typedef struct {
    double ns[WAYS];
} Times;

// Nanoseconds of a call: the least of all runs, which a slow moment of the machine does not touch. Cases and ways in turn.
static void measure(const Case *cases, size_t len, Times *results)
{
    for (size_t c = 0; c < len; c++) hold(&cases[c]);
    for (int i = 0; i < RUNS; i++)
        for (size_t c = 0; c < len; c++)
            for (int w = 0; w < WAYS; w++) {
                double ns = time_calls(w, &cases[c]);
                if (i == 0 || ns < results[c].ns[w]) results[c].ns[w] = ns;
            }
}

static Case cases[MOST_CASES];
static Times results[MOST_CASES];

static void head(const char *first, int width)
{
    out("| %-*s |", width, first);
    for (int w = 0; w < WAYS; w++) out(" %14s |", ways[w].name);
    out(" p / C | p / clang |\n| %.*s |", width, "------------------------------------------------------------");
    for (int w = 0; w < WAYS; w++) out(" -------------: |");
    out(" ----: | --------: |\n");
}

static void row(Times t)
{
    for (int w = 0; w < WAYS; w++) out(" %14.1f |", t.ns[w]);
    out(" %5.2f | %9.2f |\n", t.ns[PROVED] / t.ns[PLAIN], t.ns[PROVED] / t.ns[CLANG]);
}

static double worst(int beside)
{
    double most = 0;
    for (size_t c = 0; c < MIXES; c++)
        if (results[c].ns[PROVED] / results[c].ns[beside] > most) most = results[c].ns[PROVED] / results[c].ns[beside];
    return most;
}

static double spread(void)
{
    double most = 0, least = 1e9;
    for (size_t c = 0; c < MIXES; c++) {
        if (results[c].ns[PROVED] > most) most = results[c].ns[PROVED];
        if (results[c].ns[PROVED] < least) least = results[c].ns[PROVED];
    }
    return most / least;
}

static void show_mixes(void)
{
    for (unsigned mix = 1; mix <= MIXES; mix++) fill(&cases[mix - 1], STATES, mix);
    measure(cases, MIXES, results);
    head("statuses", 34);
    for (unsigned mix = 1; mix <= MIXES; mix++) out("| %-34s |", name_of(mix)), row(results[mix - 1]);
    out("\n");
    goal("proved / C on the worst mix, at most 1.5", worst(PLAIN), worst(PLAIN) <= 1.5);
    goal("proved / clang on the worst mix, at most 1.5", worst(CLANG), worst(CLANG) <= 1.5);
    goal("proved, the slowest mix / the fastest, at most 1.2", spread(), spread() <= 1.2);
}

static void show_growth(void)
{
    static const size_t counts[] = {1, 9, 16, 31, 32, 64, 127, 128, 129, 256, 512, 1024, 2047, 2048};
    size_t len = sizeof counts / sizeof *counts;
    for (size_t i = 0; i < len; i++) fill(&cases[i], counts[i], MIXES);
    measure(cases, len, results);
    out("\nAs n grows, over states of all five:\n\n");
    head("n", 4);
    for (size_t i = 0; i < len; i++) out("| %4zu |", counts[i]), row(results[i]);
}

int main(int argc, char **argv)
{
    random_state = 1;
    open_page(argc > 1 ? argv[1] : NULL, "a");
    out("\n## Totals\n\n"
        "Nanoseconds to count the four totals of a listing, the count by itself: for crates/totals; for the same in plain C,\n"
        "bench/counts.c, built three times; and for C with a counter for each status and with a branch for each. Over tables of 2,048\n"
        "states of every mix of statuses, each state's at random. The least of %d runs of %d calls, the tables and the ways in turn,\n"
        "by the thread's own clock. All ways counted alike.\n\n",
        RUNS, CALLS);
    show_mixes();
    show_growth();
    return close_page();
}
