// Random numbers from a seed, the same on every machine.
#ifndef RANDOM_H
#define RANDOM_H

#include <stddef.h>
#include <stdint.h>

extern uint64_t random_state;

static inline uint64_t random_word(void)
{
    uint64_t z = random_state += 0x9e3779b97f4a7c15u;
    z = (z ^ z >> 30) * 0xbf58476d1ce4e5b9u;
    z = (z ^ z >> 27) * 0x94d049bb133111ebu;
    return z ^ z >> 31;
}

// A number below k.
static inline size_t below(size_t k) { return (size_t)(random_word() % k); }

static inline int one_in(size_t k) { return below(k) == 0; }

#endif
