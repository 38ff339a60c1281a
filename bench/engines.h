// The engines that the benchmark compares, each behind the call of include/radvoinis.h.
#ifndef ENGINES_H
#define ENGINES_H

#include "../include/radvoinis.h"
#include <stddef.h>
#include <stdint.h>

enum { UNSEEN = 0, OPEN = 1, UNKNOWN = 2, LIVE = 3, DEAD = 4 };
enum { MAX_STATES = 2048, MAX_VISITED = MAX_STATES / 16, MAX_STEPS = 8192, MAX_KEY = 31, NO_SUCCESSOR = 65535, REFUSED = 65536 };

// The parameters of radvoinis_update, and the same as arguments.
#define PARAMETERS                                                                                                              \
    size_t n, size_t limit, size_t *steps, uint8_t kind, size_t first, size_t second, size_t by_key, uint8_t *status,             \
        size_t status_len, uint8_t *marks, size_t marks_len, uint16_t *from, size_t from_len, uint16_t *to, size_t to_len,         \
        uint8_t *key, size_t key_len, uint16_t *successor, size_t successor_len, uint16_t *news, size_t news_len,                  \
        uint16_t *in_head, size_t in_head_len, uint16_t *out_head, size_t out_head_len, uint16_t *queue, size_t queue_len,         \
        uint16_t *visited, size_t visited_len, uint16_t *in_next, size_t in_next_len, uint16_t *out_next, size_t out_next_len

typedef uint32_t update_call(PARAMETERS);

// The proved engine's algorithm in plain C, bench/baseline.c: built by gcc -O2, by the kit's clang at -O3, by gcc -O3; and once more,
// counting list moves.
update_call baseline_update, clang_update, gcc3_update, counted_update;

// Reads of a list's next entry, and of a successor, since it was last set to 0.
extern unsigned long list_moves;

// All verdicts worked out afresh after each update. Its visited marks take an entry for each state.
update_call naive_update;

// A step that settles nothing, on tables that are members of a struct.
uint32_t members_step(radvoinis_tables *t, uint32_t u, uint32_t v, uint32_t key);

#endif
