// The proved engine's algorithm in plain C: the same searches over the same tables, behind the same call. With COUNT_MOVES it counts
// list moves.
#include "engines.h"

#ifdef COUNT_MOVES
#define baseline_update counted_update
unsigned long list_moves;
#define MOVE() (list_moves++)
#else
#define MOVE() ((void)0)
#endif

// How many successors are followed in search of an open state near by; how many steps out of a state are looked at before the whole list
// is searched, and how many entries of it at a time.
enum { NEAR = 16, QUICK = 8, BLOCK = 256 };

// For the loop that a new step spends its time in. gcc vectorises it at -O3 alone, and not where it is inlined into what is built by -O2;
// where it is not aligned, its time turns on where the linker happens to put it.
#ifdef __clang__
#define VECTORISED __attribute__((noinline, aligned(64)))
#else
#define VECTORISED __attribute__((noinline, aligned(64), optimize("O3")))
#endif

typedef struct {
    size_t n, limit, steps;
    uint8_t *status, *marks, *key;
    uint16_t *from, *to, *successor, *news;
    uint16_t *in_head, *out_head, *queue, *visited, *in_next, *out_next;
} Engine;

// The states that were admitted: how many are queued, and the least and the greatest.
typedef struct {
    size_t len, low, high;
} Span;

typedef enum { LIVE_SOURCES, TREE_SOURCES } Mode;

enum { NAMED = 1, TERMINAL = 2, CLOSED = 4 };

// ---- refusals

static int refused_source(const Engine *e, size_t u)
{
    return e->marks[u] & CLOSED ? 6 : 0;
}

// Of a step the tests before the search of the list, behind which 9 stands.
static int refused_step(const Engine *e, size_t u, size_t v, size_t key)
{
    if (u >= e->n || v >= e->n) return 5;
    if (key > MAX_KEY) return 14;
    return refused_source(e, u);
}

static int refused_terminal(const Engine *e, size_t u)
{
    if (u >= e->n) return 5;
    return refused_source(e, u);
}

static int refused_close(const Engine *e, size_t u)
{
    return u >= e->n ? 5 : 0;
}

// ---- the lists of steps: entries are 1 + an index, 0 at the end; a walk only falls, so that it ends on any contents

static void push(uint16_t *head, uint16_t *next, size_t v, size_t p)
{
    next[p] = head[v];
    head[v] = (uint16_t)(p + 1);
}

static size_t first_of(const uint16_t *head, size_t v, size_t steps)
{
    size_t p = head[v];
    return p <= steps ? p : 0;
}

static size_t after(const uint16_t *next, size_t p)
{
    MOVE();
    size_t q = next[p - 1];
    return q < p ? q : 0;
}

// ---- the search for a step that is listed

static int equal_at(const Engine *e, size_t p, size_t u, size_t v, size_t key)
{
    return e->from[p] == u && e->to[p] == v && e->key[p] == key;
}

// Whether so many entries have a step with these ends, by any key. No branch, so that eight or more are compared at once.
static VECTORISED int ends_among(const uint16_t *from, const uint16_t *to, size_t count, uint16_t u, uint16_t v)
{
    uint16_t any = 0;
    for (size_t i = 0; i < count; i++) any |= (uint16_t)((from[i] == u) & (to[i] == v));
    return any;
}

// 1 + the first place of an equal step among those listed, or 0. No work table is read, so that it is right on any contents.
static size_t find_step(const Engine *e, size_t u, size_t v, size_t key)
{
    for (size_t at = 0; at < e->steps; at += BLOCK) {
        size_t end = e->steps - at < BLOCK ? e->steps : at + BLOCK;
        if (!ends_among(e->from + at, e->to + at, end - at, (uint16_t)u, (uint16_t)v)) continue;
        for (size_t p = at; p < end; p++)
            if (equal_at(e, p, u, v, key)) return p + 1;
    }
    return 0;
}

// A look along some steps out of u: a repeat is mostly found here. What it finds is listed, whatever the work tables hold.
static int found_soon(const Engine *e, size_t u, size_t v, size_t key)
{
    size_t left = QUICK;
    for (size_t p = first_of(e->out_head, u, e->steps); p > 0; p = after(e->out_next, p)) {
        if (equal_at(e, p - 1, u, v, key)) return 1;
        if (--left == 0) return 0;
    }
    return 0;
}

static int is_repeat(const Engine *e, size_t u, size_t v, size_t key)
{
    return found_soon(e, u, v, key) || find_step(e, u, v, key) > 0;
}

// ---- the visited marks: that of the state s is bit s % 16 of the entry s / 16

static int is_visited(const Engine *e, size_t s)
{
    return e->visited[s / 16] >> s % 16 & 1;
}

static void set_visited(const Engine *e, size_t s)
{
    e->visited[s / 16] |= (uint16_t)(1u << s % 16);
}

static void clear_visited(const Engine *e, size_t s)
{
    e->visited[s / 16] &= (uint16_t)~(1u << s % 16);
}

// The state behind s or, where no mark is set in its entry, the first of the next entry: none between is visited.
static size_t skip_unvisited(const Engine *e, size_t s)
{
    return e->visited[s / 16] == 0 ? (s | 15) + 1 : s + 1;
}

// ---- the closure along steps backwards

static int allowed(const Engine *e, Mode mode, size_t y, size_t p)
{
    if (mode == LIVE_SOURCES) return e->status[y] != LIVE;
    return e->status[y] == UNKNOWN && e->successor[y] == p;
}

static Span admit(const Engine *e, Span span, size_t y)
{
    set_visited(e, y);
    e->queue[span.len] = (uint16_t)y;
    return (Span){span.len + 1, y < span.low ? y : span.low, y > span.high ? y : span.high};
}

static Span offer_sources(const Engine *e, Mode mode, size_t x, Span span)
{
    for (size_t p = first_of(e->in_head, x, e->steps); p > 0; p = after(e->in_next, p)) {
        size_t y = e->from[p - 1];
        if (y < e->n && !is_visited(e, y) && allowed(e, mode, y, p - 1)) span = admit(e, span, y);
    }
    return span;
}

static Span spread(const Engine *e, Mode mode, size_t start)
{
    Span span = admit(e, (Span){0, start, start}, start);
    for (size_t at = 0; at < span.len; at++) span = offer_sources(e, mode, e->queue[at], span);
    return span;
}

// Gives the visited states the verdict, in rising order, and unmarks them.
static size_t settle(const Engine *e, Span span, uint8_t verdict)
{
    size_t count = 0;
    for (size_t s = span.low; s <= span.high; s = skip_unvisited(e, s)) {
        if (!is_visited(e, s)) continue;
        clear_visited(e, s);
        e->status[s] = verdict;
        e->successor[s] = NO_SUCCESSOR;
        e->news[count++] = (uint16_t)s;
    }
    return count;
}

// ---- an open state near by: at most `most` successors are followed from each target

static int meets_open(const Engine *e, size_t s, size_t most)
{
    for (size_t left = most;; left--) {
        if (s >= e->n) return 0;
        if (e->status[s] == OPEN) return 1;
        if (e->status[s] != UNKNOWN || left == 0) return 0;
        size_t p = e->successor[s];
        if (p >= e->steps) return 0;
        MOVE();
        s = e->to[p];
    }
}

// 1 + the index of a step out of u from whose target successors soon lead to an open state, or 0.
static size_t escape_within(const Engine *e, size_t u, size_t most)
{
    for (size_t p = first_of(e->out_head, u, e->steps); p > 0; p = after(e->out_next, p))
        if (meets_open(e, e->to[p - 1], most)) return p;
    return 0;
}

static size_t near_escape(const Engine *e, size_t u)
{
    size_t p = escape_within(e, u, 0);
    return p > 0 ? p : escape_within(e, u, NEAR);
}

// ---- which visited states keep a way to an open state

static int leads_out(const Engine *e, size_t y)
{
    return y < e->n && !is_visited(e, y) && (e->status[y] == OPEN || e->status[y] == UNKNOWN);
}

static size_t way_out(const Engine *e, size_t x)
{
    for (size_t p = first_of(e->out_head, x, e->steps); p > 0; p = after(e->out_next, p))
        if (leads_out(e, e->to[p - 1])) return p;
    return 0;
}

static size_t release(const Engine *e, size_t x, size_t p, size_t released)
{
    e->successor[x] = (uint16_t)p;
    clear_visited(e, x);
    e->queue[released] = (uint16_t)x;
    return released + 1;
}

// Releases the queued states with a step out of the visited ones, and moves them to the queue's front.
static size_t escapes(const Engine *e, size_t len)
{
    size_t released = 0;
    for (size_t at = 0; at < len; at++) {
        size_t x = e->queue[at], p = is_visited(e, x) ? way_out(e, x) : 0;
        if (p > 0) released = release(e, x, p - 1, released);
    }
    return released;
}

// Releases the visited sources of released states.
static size_t rescue(const Engine *e, size_t released)
{
    for (size_t at = 0; at < released; at++)
        for (size_t p = first_of(e->in_head, e->queue[at], e->steps); p > 0; p = after(e->in_next, p)) {
            size_t y = e->from[p - 1];
            if (y < e->n && is_visited(e, y)) released = release(e, y, p - 1, released);
        }
    return released;
}

// ---- updates

static void name(const Engine *e, size_t s)
{
    e->marks[s] |= NAMED;
    if (e->status[s] == UNSEEN) e->status[s] = OPEN;
}

static size_t make_live(const Engine *e, size_t u)
{
    if (e->status[u] == LIVE) return 0;
    return settle(e, spread(e, LIVE_SOURCES, u), LIVE);
}

static size_t find_dead(const Engine *e, size_t u)
{
    Span span = spread(e, TREE_SOURCES, u);
    rescue(e, escapes(e, span.len));
    return settle(e, span, DEAD);
}

// A repeat names its states like any step, takes no place and settles nothing.
static size_t repeat(const Engine *e, size_t u, size_t v)
{
    name(e, u);
    name(e, v);
    return 0;
}

static size_t step(Engine *e, size_t u, size_t v, size_t key)
{
    size_t p = e->steps++;
    e->from[p] = (uint16_t)u;
    e->to[p] = (uint16_t)v;
    e->key[p] = (uint8_t)key;
    push(e->out_head, e->out_next, u, p);
    push(e->in_head, e->in_next, v, p);
    name(e, u);
    name(e, v);
    return e->status[v] == LIVE ? make_live(e, u) : 0;
}

static size_t terminal(const Engine *e, size_t u)
{
    name(e, u);
    e->marks[u] |= TERMINAL;
    return make_live(e, u);
}

static size_t close_state(const Engine *e, size_t u)
{
    if (e->marks[u] & CLOSED) return 0;
    name(e, u);
    e->marks[u] |= CLOSED;
    if (e->status[u] == LIVE) return 0;
    e->status[u] = UNKNOWN;
    size_t p = near_escape(e, u);
    if (p == 0) return find_dead(e, u);
    e->successor[u] = (uint16_t)(p - 1);
    return 0;
}

// A step to which none of 5, 14 and 6 applies: 9 is for one that is not listed.
static uint32_t send_step(Engine *e, size_t u, size_t v, size_t key)
{
    if (is_repeat(e, u, v, key)) return (uint32_t)repeat(e, u, v);
    if (e->steps == e->limit) return REFUSED + 9;
    return (uint32_t)step(e, u, v, key);
}

static uint32_t send(Engine *e, uint8_t kind, size_t first, size_t second, size_t key)
{
    int number = kind == 'E' ? refused_step(e, first, second, key) : kind == 'T' ? refused_terminal(e, first) : refused_close(e, first);
    if (number) return REFUSED + (uint32_t)number;
    if (kind == 'E') return send_step(e, first, second, key);
    return (uint32_t)(kind == 'T' ? terminal(e, first) : close_state(e, first));
}

// Flattened into one function, in which the tables stay in registers: faster than with calls.
__attribute__((flatten)) uint32_t baseline_update(PARAMETERS)
{
    if (n == 0 || n > MAX_STATES) return REFUSED + 1;
    if (limit == 0 || limit > MAX_STEPS) return REFUSED + 2;
    if (status_len < n || marks_len < n || successor_len < n || news_len < n) return REFUSED + 3;
    if (in_head_len < n || out_head_len < n || queue_len < n || visited_len < (n + 15) / 16) return REFUSED + 3;
    if (from_len < limit || to_len < limit || key_len < limit || in_next_len < limit || out_next_len < limit) return REFUSED + 3;
    if (*steps > limit) return REFUSED + 4;
    if (kind != 'E' && kind != 'T' && kind != 'C') return REFUSED + 11;
    Engine e = {n, limit, *steps, status, marks, key, from, to, successor, news, in_head, out_head, queue, visited, in_next, out_next};
    uint32_t answer = send(&e, kind, first, second, by_key);
    *steps = e.steps;
    return answer;
}
