// The counts of the totals that the benchmark compares, each behind the same call.
#ifndef COUNTS_H
#define COUNTS_H

#include <stddef.h>
#include <stdint.h>

// How many of the first n states of a table have each status.
typedef void count_call(size_t n, const uint8_t *status, size_t status_len, size_t *open, size_t *unknown, size_t *live, size_t *dead);

// crates/totals, whose call bench/run.sh makes, and the same in plain C, bench/counts.c: built by gcc -O2, by the kit's clang at -O3, by
// gcc -O3.
count_call proved_totals, baseline_totals, clang_totals, gcc3_totals;

// With a counter for each status, and with a branch for each.
count_call counter_totals, branch_totals;

#endif
