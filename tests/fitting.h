// Whether tables fit, from the words of documents 01 and 02 and the rule of the work tables (docs/ARCHITECTURE.md, "The tables"). It knows
// nothing of the table check.
#ifndef FITTING_H
#define FITTING_H

#include "reference.h"

// Tables of any contents, each as long as n or the limit asks, with a number of steps within the limit.
typedef struct {
    size_t n, steps;
    const uint8_t *status, *marks, *key;
    const uint16_t *from, *to, *successor, *in_head, *out_head, *visited, *in_next, *out_next;
} Tables;

int fits(const Tables *t);

// Its parts: some legal history gives marks, step list and statuses; the successor rule; the rule of the lists; no state visited. The
// second answers 1 + the length of the longest chain of successors, or 0.
int fits_history(const Tables *t);
size_t fits_successors(const Tables *t);
int fits_lists(const Tables *t);
int fits_visited(const Tables *t);

// The history that ends with these marks and this step list: terminal marks, steps, closes. Answers whether the steps' ends are below n,
// their keys in bounds, and no two of them equal.
int history_of(const Tables *t, History *h);

#endif
