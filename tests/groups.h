// Groups of checks, as every suite runs them: `SUITE [seed] [scale] [stop]`. A scale of 10 makes ten times as many random rounds, 0 a
// tenth; with a third argument nothing is run behind a group that failed. Progress goes to stderr; the last line is 'N passed, M failed',
// N and M counting groups.
#ifndef GROUPS_H
#define GROUPS_H

#include <stddef.h>

typedef struct {
    const char *name;
    void (*run)(void);
} Group;

typedef struct {
    const Group *groups;
    size_t group_count;
    const char *const *checks;    // what each check is called
    size_t check_count;
    void (*show)(void);           // shows what was under way where a check failed
    void (*sum)(void);            // shows what was counted beside the checks
} Suite;

int suite_run(const Suite *suite, int argc, char **argv);

// Counts a check. The first that fails is shown, and `failed` ends its group.
int check(size_t kind, int holds);
extern int failed;

// Says how far a group is, every few seconds.
void progress(size_t done, size_t all);

// How many rounds of a random group; and a number for the scales 0, 1 and above.
size_t rounds(size_t usual);
size_t by_scale(size_t least, size_t usual, size_t most);

// Stand around each call of what is tested: it is counted, and shown where it leaves its memory or does not return. `call_inside` is
// the call that has not returned yet, or 0.
extern volatile unsigned long calls_made, call_inside;
static inline void call_begin(void) { call_inside = ++calls_made; }
static inline void call_end(void) { call_inside = 0; }

#endif
