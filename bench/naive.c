// The naive engine: the same tables (but an entry for each visited mark) and the same call, every verdict worked out afresh by two
// searches over all states and steps after each accepted update but a repeated step, which is looked for place by place.
#include "engines.h"

typedef struct {
    size_t n, steps;
    uint8_t *status;
    const uint8_t *marks;
    const uint16_t *from;
    uint16_t *successor, *news, *in_head, *queue, *visited, *in_next;
} Naive;

enum { NAMED = 1, TERMINAL = 2, CLOSED = 4 };

static size_t enqueue(Naive *e, size_t s, size_t len)
{
    e->visited[s] = 1;
    e->queue[len] = (uint16_t)s;
    return len + 1;
}

// Visits all states from which steps lead to one of the first len queued; each takes the step that it was found by as its successor.
static void search(Naive *e, size_t len)
{
    for (size_t at = 0; at < len; at++)
        for (size_t p = e->in_head[e->queue[at]]; p > 0; p = e->in_next[p - 1]) {
            size_t y = e->from[p - 1];
            if (e->visited[y]) continue;
            e->successor[y] = (uint16_t)(p - 1);
            len = enqueue(e, y, len);
        }
}

static size_t seeds(Naive *e, uint8_t mask, uint8_t value)
{
    size_t len = 0;
    for (size_t s = 0; s < e->n; s++) e->visited[s] = 0;
    for (size_t s = 0; s < e->n; s++)
        if ((e->marks[s] & mask) == value) len = enqueue(e, s, len);
    return len;
}

// Live states first, then those with a way to a state that is not closed; what is left is dead.
static size_t classify(Naive *e)
{
    size_t count = 0;
    search(e, seeds(e, TERMINAL, TERMINAL));
    for (size_t s = 0; s < e->n; s++)
        if (e->visited[s] && e->status[s] != LIVE) {
            e->status[s] = LIVE;
            e->news[count++] = (uint16_t)s;
        }
    search(e, seeds(e, CLOSED, 0));
    for (size_t s = 0; s < e->n; s++) {
        int unknown = (e->marks[s] & CLOSED) && e->status[s] != LIVE && e->visited[s];
        if (!unknown) e->successor[s] = NO_SUCCESSOR;
        if (e->status[s] == LIVE || !(e->marks[s] & NAMED)) continue;
        uint8_t now = unknown ? UNKNOWN : e->marks[s] & CLOSED ? DEAD : OPEN;
        if (now == DEAD && e->status[s] != DEAD) e->news[count++] = (uint16_t)s;
        e->status[s] = now;
    }
    for (size_t s = 0; s < e->n; s++) e->visited[s] = 0;
    return count;
}

static int refused(size_t n, const uint8_t *marks, uint8_t kind, size_t first, size_t second, size_t key)
{
    if (first >= n || (kind == 'E' && second >= n)) return 5;
    if (kind == 'E' && key > MAX_KEY) return 14;
    return kind != 'C' && (marks[first] & CLOSED) ? 6 : 0;
}

static int listed(size_t steps, const uint16_t *from, const uint16_t *to, const uint8_t *key, size_t u, size_t v, size_t by_key)
{
    for (size_t p = 0; p < steps; p++)
        if (from[p] == u && to[p] == v && key[p] == by_key) return 1;
    return 0;
}

uint32_t naive_update(PARAMETERS)
{
    (void)status_len, (void)marks_len, (void)from_len, (void)to_len, (void)key_len, (void)successor_len, (void)news_len;
    (void)in_head_len, (void)out_head_len, (void)queue_len, (void)visited_len, (void)in_next_len, (void)out_next_len;
    int number = refused(n, marks, kind, first, second, by_key);
    if (number) return REFUSED + (uint32_t)number;
    if (kind == 'C' && (marks[first] & CLOSED)) return 0;
    if (kind == 'E' && listed(*steps, from, to, key, first, second, by_key)) return 0;
    if (kind == 'E' && *steps == limit) return REFUSED + 9;
    marks[first] |= kind == 'E' ? NAMED : kind == 'T' ? NAMED | TERMINAL : NAMED | CLOSED;
    if (kind == 'E') {
        size_t p = (*steps)++;
        marks[second] |= NAMED;
        from[p] = (uint16_t)first;
        to[p] = (uint16_t)second;
        key[p] = (uint8_t)by_key;
        in_next[p] = in_head[second];
        in_head[second] = (uint16_t)(p + 1);
        out_next[p] = out_head[first];
        out_head[first] = (uint16_t)(p + 1);
    }
    Naive e = {n, *steps, status, marks, from, successor, news, in_head, queue, visited, in_next};
    return (uint32_t)classify(&e);
}
