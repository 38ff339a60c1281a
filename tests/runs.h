// Runs from fresh tables: what explorers send, whatever is done with each update.
#ifndef RUNS_H
#define RUNS_H

#include "lent.h"

typedef struct Run Run;
struct Run {
    Lent *lent;
    History history;
    uint8_t status[MOST_STATES], marks[MOST_STATES];    // the reference's, where `send` keeps them
    void (*send)(Run *r, Update u);                     // sends one update, and does what the suite does with it
};

// Fresh tables for a run; and the same for a second run with tables of the same lengths.
void run_start(Run *r, size_t n, size_t limit);
void run_start_beside(Run *r, const Run *first);

// Sends an update and keeps the history; answers what the engine answers.
uint32_t run_update(Run *r, Update u);

// Whether the step list is that of the history.
int same_steps(const Lent *l, const History *h);

// A run over few states, to come back to.
typedef struct {
    Saved tables;
    size_t count, steps;
    uint8_t status[4], marks[4];
} SavedRun;
void run_save(const Run *r, SavedRun *s);
void run_restore(Run *r, const SavedRun *s);

// The nth update over these state numbers: steps, each by a key of its own, then terminal marks, then closes; and how many there are.
Update nth_update(size_t numbers, size_t i);
size_t updates_over(size_t numbers);

// Every list of up to `depth` updates; the state numbers sent are below `numbers`, and those from n on are out of range. The second sends
// each step by each of a few keys, above 31 too.
void every_list(Run *r, size_t n, size_t limit, size_t depth, size_t numbers);
void every_keyed_list(Run *r, size_t n, size_t limit, size_t depth, size_t numbers);

// Targets of steps: anywhere, or near their source.
size_t target(size_t n, size_t source, size_t near);

// Keys: in bounds, the first and the last more often than others; and above, most of them in bounds in a byte, or in 16 or 32 bits. An
// update has one that is in bounds for a step; to marks and closes it means nothing.
size_t some_key(void);
size_t far_key(void);
size_t key_for(uint8_t kind);

// A history of up to so many updates, in random proportions, steps that come again among them, the last close again at its end; a legal one
// lists at most `limit` steps, and none is refused.
void random_history(History *h, size_t n, size_t limit, size_t updates, int legal);

// Each of the runs below has steps that come again, and ends with a close that does.

// Updates in random proportions; closes at random, by rising or by falling state; now and then a state or a key out of range.
void mixed_run(Run *r, size_t n, size_t limit, size_t updates);

// A ring or a line whose states are closed one after the other (how: rising, falling, shuffled): long chains of successors, and many
// that break. Of `extra` states one has a further step, of `skip` one is left open at first; 0 is for none.
void chain_run(Run *r, size_t n, size_t how, size_t extra, size_t skip);

// A random graph with some steps out of each state, read state by state, or all steps first; then the last states one after the other.
void graph_run(Run *r, size_t n, size_t limit);

// The i-th of a series of runs of all kinds: of up to 12 states, and of n states with a list of at most so many steps.
void small_run(Run *r, size_t i);
void large_run(Run *r, size_t i, size_t n, size_t limit);

// A number of states, up to 2,048, whose visited marks just fill their entries, one less or one more, by turns.
size_t around_full_entries(size_t i);

// As many states and listed steps as there can be; then, from open states and closed ones, steps that come again and others, and a verdict
// for each state.
void full_list_run(Run *r, size_t near);

// Shows the run that is under way, where a check fails.
extern const History *shown_history;
extern const Lent *shown_lent;
extern Update shown_update;
void show_run(void);

#endif
