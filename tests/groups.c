// The groups of a suite: run one after the other from their seeds, watched and counted.
#include "groups.h"
#include "random.h"
#include <signal.h>
#include <stdio.h>
#include <stdlib.h>
#include <sys/time.h>
#include <time.h>
#include <unistd.h>

enum { MOST_CHECKS = 32 };

uint64_t random_state;
volatile unsigned long calls_made, call_inside;
int failed;

static const Suite *suite;
static const char *group;
static unsigned long counts[MOST_CHECKS];
static int passed_groups, failed_groups;
static size_t scale;
static double last_shown;

static void closing_line(void) { printf("%d passed, %d failed\n", passed_groups, failed_groups); }

static void show_failure(const char *what)
{
    printf("FAILED: %s: %s\n", group, what);
    suite->show();
}

int check(size_t kind, int holds)
{
    counts[kind]++;
    if (!holds && !failed) failed = 1, show_failure(suite->checks[kind]);
    return holds;
}

static double seconds(void)
{
    struct timespec t;
    clock_gettime(CLOCK_MONOTONIC, &t);
    return (double)t.tv_sec + (double)t.tv_nsec * 1e-9;
}

void progress(size_t done, size_t all)
{
    if (seconds() - last_shown < 5) return;
    last_shown = seconds();
    fprintf(stderr, "  %s: %zu of %zu\n", group, done, all);
}

size_t rounds(size_t usual) { return scale ? usual * scale : (usual + 9) / 10; }

size_t by_scale(size_t least, size_t usual, size_t most) { return scale == 0 ? least : scale == 1 ? usual : most; }

// ---- a call that leaves its memory or does not return

static void give_up(const char *what)
{
    show_failure(what);
    failed_groups++;
    closing_line();
    fflush(stdout);
    _exit(1);
}

static void on_fault(int sig)
{
    (void)sig;
    give_up(call_inside ? "the call touched memory that it was not lent" : "the suite failed");
}

static void on_timer(int sig)
{
    static unsigned long seen;
    (void)sig;
    if (call_inside && call_inside == seen) give_up("the call does not return");
    seen = call_inside;
}

static void watch(void)
{
    struct itimerval every = {{10, 0}, {10, 0}};
    signal(SIGSEGV, on_fault);
    signal(SIGBUS, on_fault);
    signal(SIGALRM, on_timer);
    setitimer(ITIMER_REAL, &every, NULL);
}

// ---- all groups

static void run_group(size_t i, uint64_t seed)
{
    double start = seconds();
    unsigned long calls = calls_made;
    group = suite->groups[i].name, failed = 0, last_shown = start;
    random_state = seed * 1000003 + i;    // a group's calls do not depend on the groups before it
    suite->groups[i].run();
    failed ? failed_groups++ : passed_groups++;
    fprintf(stderr, "[%2zu/%2zu] %s: %s, %lu calls, %.1f s\n", i + 1, suite->group_count, group, failed ? "FAILED" : "ok",
            calls_made - calls, seconds() - start);
}

int suite_run(const Suite *s, int argc, char **argv)
{
    uint64_t seed = argc > 1 ? strtoull(argv[1], NULL, 10) : 1;
    scale = argc > 2 ? strtoull(argv[2], NULL, 10) : 1;
    suite = s;
    if (s->check_count > MOST_CHECKS) abort();
    watch();
    for (size_t i = 0; i < s->group_count && !(argc > 3 && failed_groups); i++) run_group(i, seed);
    s->sum();
    for (size_t i = 0; i < s->check_count; i++) printf("%12lu  %s\n", counts[i], s->checks[i]);
    closing_line();
    return failed_groups != 0;
}
