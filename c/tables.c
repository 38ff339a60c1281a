/* The short calls of radvoinis.h: thin C over the proved raw calls. Here the tables are laid out, and each is handed on with its length;
   behind that the raw calls decide what is refused, answered and written. */
#include "radvoinis.h"

#include <string.h>

/* How many of the tables have an entry for each state, and for each step of the limit: a byte, or one of 16 bits. Besides them, the visited
   marks have a bit for each state. */
enum { STATE_BYTES = 2, STEP_BYTES = 1, STATE_ENTRIES = 5, STEP_ENTRIES = 4 };

static size_t visited_entries(size_t n) { return n / 16 + (n % 16 > 0); }

static int states_in_bounds(uint32_t n) { return n >= 1 && n <= RADVOINIS_MAX_STATES; }
static int limit_in_bounds(uint32_t limit) { return limit >= 1 && limit <= RADVOINIS_MAX_STEPS; }

/* One byte more than the tables take: the memory may begin at an odd address. */
size_t radvoinis_tables_size(uint32_t n, uint32_t limit)
{
    if (!states_in_bounds(n) || !limit_in_bounds(limit)) return 0;
    return (size_t)n * STATE_BYTES + (size_t)limit * STEP_BYTES +
           ((size_t)n * STATE_ENTRIES + visited_entries(n) + (size_t)limit * STEP_ENTRIES) * sizeof(uint16_t) + 1;
}

/* The next `count` entries of the memory that is laid out. */
static uint16_t *take(uint16_t **at, size_t count)
{
    uint16_t *table = *at;
    *at += count;
    return table;
}

uint32_t radvoinis_tables_fresh(radvoinis_tables *t, void *memory, size_t size, uint32_t n, uint32_t limit)
{
    if (!states_in_bounds(n)) return RADVOINIS_REFUSED + RADVOINIS_BAD_STATES;
    if (!limit_in_bounds(limit)) return RADVOINIS_REFUSED + RADVOINIS_BAD_LIMIT;
    if (memory == NULL || size < radvoinis_tables_size(n, limit)) return RADVOINIS_REFUSED + RADVOINIS_SHORT_TABLE;
    uint16_t *at = (uint16_t *)((uint8_t *)memory + (uintptr_t)memory % sizeof(uint16_t));
    t->n = n;
    t->limit = limit;
    t->steps = 0;
    t->from = take(&at, limit);
    t->to = take(&at, limit);
    t->in_next = take(&at, limit);
    t->out_next = take(&at, limit);
    t->in_head = take(&at, n);
    t->out_head = take(&at, n);
    t->successor = take(&at, n);
    t->news = take(&at, n);
    t->queue = take(&at, n);
    t->visited = take(&at, visited_entries(n));
    t->status = (uint8_t *)at;
    t->marks = t->status + n;
    t->key = t->marks + n;
    memset(t->from, 0, (size_t)(t->key + limit - (uint8_t *)t->from));
    memset(t->successor, 0xff, n * sizeof *t->successor);
    return 0;
}

static uint32_t send(radvoinis_tables *t, uint8_t kind, uint32_t first, uint32_t second, uint32_t by_key)
{
    return radvoinis_update(t->n, t->limit, &t->steps, kind, first, second, by_key, t->status, t->n, t->marks, t->n, t->from, t->limit,
                            t->to, t->limit, t->key, t->limit, t->successor, t->n, t->news, t->n, t->in_head, t->n, t->out_head, t->n,
                            t->queue, t->n, t->visited, visited_entries(t->n), t->in_next, t->limit, t->out_next, t->limit);
}

uint32_t radvoinis_step(radvoinis_tables *t, uint32_t from, uint32_t to) { return send(t, 'E', from, to, 0); }
uint32_t radvoinis_step_by_key(radvoinis_tables *t, uint32_t from, uint32_t to, uint32_t key) { return send(t, 'E', from, to, key); }
uint32_t radvoinis_terminal(radvoinis_tables *t, uint32_t state) { return send(t, 'T', state, 0, 0); }
uint32_t radvoinis_close(radvoinis_tables *t, uint32_t state) { return send(t, 'C', state, 0, 0); }

uint32_t radvoinis_status_of(const radvoinis_tables *t, uint32_t state)
{
    return radvoinis_state_status(t->n, t->limit, t->steps, t->status, t->n, state);
}

uint32_t radvoinis_check(radvoinis_tables *t)
{
    return radvoinis_audit(t->n, t->limit, t->steps, t->status, t->n, t->marks, t->n, t->from, t->limit, t->to, t->limit, t->key,
                           t->limit, t->successor, t->n, t->in_head, t->n, t->out_head, t->n, t->queue, t->n, t->visited,
                           visited_entries(t->n), t->in_next, t->limit, t->out_next, t->limit);
}

uint32_t radvoinis_save(const radvoinis_tables *t, uint8_t *buf, size_t len, size_t *at)
{
    return radvoinis_write(t->n, t->limit, t->steps, t->marks, t->n, t->from, t->limit, t->to, t->limit, t->key, t->limit,
                           buf, len, at);
}
