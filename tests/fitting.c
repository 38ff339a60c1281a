// "Tables fit", by the words of documents 01 and 02 and the rule of the work tables.
#include "fitting.h"
#include <string.h>

// ---- "some legal history gives these marks, this step list and these statuses"

// A bit for each step that there can be, in a byte for each eight keys.
static uint8_t *byte_of(const Tables *t, size_t p)
{
    static uint8_t met[MOST_STATES][MOST_STATES][(MOST_KEY + 1) / 8];
    return &met[t->from[p]][t->to[p]][t->key[p] / 8];
}

static int bit_of(const Tables *t, size_t p) { return 1 << t->key[p] % 8; }

// "Fitting tables hold no two equal steps." Meets them one after the other; the bits are taken away again.
static int no_two_equal(const Tables *t)
{
    size_t p = 0;
    for (; p < t->steps && !(*byte_of(t, p) & bit_of(t, p)); p++) *byte_of(t, p) |= (uint8_t)bit_of(t, p);
    int none = p == t->steps;
    while (p-- > 0) *byte_of(t, p) = 0;
    return none;
}

static int steps_in_bounds(const Tables *t)
{
    for (size_t p = 0; p < t->steps; p++)
        if (t->from[p] >= t->n || t->to[p] >= t->n || t->key[p] > MOST_KEY) return 0;
    return 1;
}

// No step leaves a closed state here and none is marked, so it is legal; every other legal history with these terminal marks, steps and
// closes, however ordered, gives the same marks, step list and statuses. So one legal history gives the tables where this one does.
int history_of(const Tables *t, History *h)
{
    if (!steps_in_bounds(t) || !no_two_equal(t)) return 0;
    history_start(h, t->n, t->steps);
    for (size_t s = 0; s < t->n; s++)
        if (t->marks[s] & TERMINAL) history_add(h, (Update){'T', s, 0, 0});
    for (size_t p = 0; p < t->steps; p++) history_add_unlike(h, (Update){'E', t->from[p], t->to[p], t->key[p]});
    for (size_t s = 0; s < t->n; s++)
        if (t->marks[s] & CLOSED) history_add(h, (Update){'C', s, 0, 0});
    return 1;
}

int fits_history(const Tables *t)
{
    static History h;
    uint8_t marks[MOST_STATES], status[MOST_STATES];
    if (!history_of(t, &h)) return 0;
    reference_marks(&h, marks);
    if (memcmp(marks, t->marks, t->n) != 0) return 0;
    t->n <= 12 ? reference_statuses(&h, status) : reference_statuses_quick(&h, status);
    return memcmp(status, t->status, t->n) == 0;
}

// ---- successors

// "For an unknown state the successor entry is the place of a listed step that leaves it."
static int leaves(const Tables *t, size_t s)
{
    size_t p = t->successor[s];
    return p < t->steps && t->from[p] == s && t->to[p] < t->n;
}

// How many successors lead from an unknown state to an open one, or 0 where they do not within n - 1; `far` holds what is known.
static size_t chain_length(const Tables *t, size_t s, const uint16_t *far)
{
    size_t turns = 0;
    while (t->status[s] == UNKNOWN && !far[s]) {
        if (++turns > t->n - 1 || !leaves(t, s)) return 0;
        s = t->to[t->successor[s]];
    }
    if (t->status[s] != OPEN && !far[s]) return 0;
    turns += far[s];
    return turns <= t->n - 1 ? turns : 0;
}

size_t fits_successors(const Tables *t)
{
    uint16_t far[MOST_STATES];
    size_t longest = 0;
    memset(far, 0, 2 * t->n);
    for (size_t s = 0; s < t->n; s++) {
        if (t->status[s] != UNKNOWN && t->successor[s] != NO_SUCCESSOR) return 0;
        if (t->status[s] != UNKNOWN || far[s]) continue;
        size_t turns = chain_length(t, s, far);
        if (turns == 0) return 0;
        if (turns > longest) longest = turns;
        for (size_t x = s; t->status[x] == UNKNOWN && !far[x]; x = t->to[t->successor[x]]) far[x] = (uint16_t)turns--;
    }
    return 1 + longest;
}

// ---- work tables

// A state's entry is 1 + the last place that has it as that end, a place's 1 + the last one before it with the same end, 0 for none.
static int list_fits(const Tables *t, const uint16_t *ends, const uint16_t *head, const uint16_t *next)
{
    uint16_t last[MOST_STATES];
    memset(last, 0, 2 * t->n);
    for (size_t p = 0; p < t->steps; p++) {
        if (ends[p] >= t->n || next[p] != last[ends[p]]) return 0;
        last[ends[p]] = (uint16_t)(p + 1);
    }
    return memcmp(last, head, 2 * t->n) == 0;
}

int fits_lists(const Tables *t)
{
    return list_fits(t, t->to, t->in_head, t->in_next) && list_fits(t, t->from, t->out_head, t->out_next);
}

// A bit for each state; what stands in the last entry behind them is free.
int fits_visited(const Tables *t)
{
    for (size_t s = 0; s < t->n; s++)
        if (t->visited[s / 16] & 1u << s % 16) return 0;
    return 1;
}

int fits(const Tables *t) { return fits_history(t) && fits_successors(t) && fits_lists(t) && fits_visited(t); }
