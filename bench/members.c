// A new step that settles nothing in plain C, on the struct of the short calls: no length is tested and no table handed on. What is left of
// the call in an engine whose tables are its members.
#include "engines.h"

// The search of bench/baseline.c, in one block, without the look along the steps out of u.
static __attribute__((noinline, aligned(64), optimize("O3"))) int ends_listed(const radvoinis_tables *t, uint16_t u, uint16_t v)
{
    const uint16_t *from = t->from, *to = t->to;
    uint16_t any = 0;
    for (size_t p = 0; p < t->steps; p++) any |= (uint16_t)((from[p] == u) & (to[p] == v));
    return any;
}

static int listed(const radvoinis_tables *t, uint32_t u, uint32_t v, uint32_t key)
{
    if (!ends_listed(t, (uint16_t)u, (uint16_t)v)) return 0;
    for (size_t p = 0; p < t->steps; p++)
        if (t->from[p] == u && t->to[p] == v && t->key[p] == key) return 1;
    return 0;
}

static void name(radvoinis_tables *t, size_t s)
{
    t->marks[s] |= 1;
    if (t->status[s] == UNSEEN) t->status[s] = OPEN;
}

uint32_t members_step(radvoinis_tables *t, uint32_t u, uint32_t v, uint32_t key)
{
    if (u >= t->n || v >= t->n) return REFUSED + 5;
    if (key > MAX_KEY) return REFUSED + 14;
    if (t->marks[u] & 4) return REFUSED + 6;
    if (listed(t, u, v, key)) return 0;
    if (t->steps == t->limit) return REFUSED + 9;
    size_t p = t->steps++;
    t->from[p] = (uint16_t)u;
    t->to[p] = (uint16_t)v;
    t->key[p] = (uint8_t)key;
    t->out_next[p] = t->out_head[u];
    t->out_head[u] = (uint16_t)(p + 1);
    t->in_next[p] = t->in_head[v];
    t->in_head[v] = (uint16_t)(p + 1);
    name(t, u);
    name(t, v);
    return 0;
}
