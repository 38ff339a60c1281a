// The naive reference, by the words of documents 01 and 02.
#include "reference.h"
#include <stdlib.h>
#include <string.h>

// ---- histories

void history_start(History *h, size_t n, size_t limit)
{
    h->n = n, h->limit = limit, h->count = h->steps = 0;
}

// "A step equal in from, to and key to a listed one"
static int equal_steps(Update a, Update b) { return a.first == b.first && a.second == b.second && a.key == b.key; }

int history_lists(const History *h, Update u)
{
    if (u.kind != 'E') return 0;
    for (size_t p = 0; p < h->steps; p++)
        if (equal_steps(h->listed[p], u)) return 1;
    return 0;
}

static void make_room(History *h)
{
    if (h->count < h->room) return;
    h->room = h->room ? 2 * h->room : 64;
    h->accepted = realloc(h->accepted, h->room * sizeof *h->accepted);
    h->listed = realloc(h->listed, h->room * sizeof *h->listed);
    if (!h->accepted || !h->listed) abort();
}

static void add(History *h, Update u, int repeat)
{
    make_room(h);
    h->accepted[h->count++] = u;
    if (u.kind == 'E' && !repeat) h->listed[h->steps++] = u;    // a repeat "is accepted without taking a place"
}

void history_add(History *h, Update u) { add(h, u, history_lists(h, u)); }

void history_add_unlike(History *h, Update u) { add(h, u, 0); }

void history_cut(History *h, size_t count, size_t steps) { h->count = count, h->steps = steps; }

void history_drop(History *h)
{
    Update last = h->accepted[--h->count];
    int before = 0;
    for (size_t i = 0; i < h->count; i++) before |= h->accepted[i].kind == 'E' && equal_steps(h->accepted[i], last);
    h->steps -= last.kind == 'E' && !before;
}

void history_end(History *h)
{
    free(h->accepted), free(h->listed);
    *h = (History){0};
}

// "A state is named when an accepted update mentions it."
void reference_marks(const History *h, uint8_t *marks)
{
    memset(marks, 0, h->n);
    for (size_t i = 0; i < h->count; i++) {
        Update u = h->accepted[i];
        marks[u.first] |= NAMED;
        if (u.kind == 'E') marks[u.second] |= NAMED;
        if (u.kind == 'T') marks[u.first] |= TERMINAL;
        if (u.kind == 'C') marks[u.first] |= CLOSED;
    }
}

// ---- verdicts, state by state

// The states that paths of zero or more steps lead to from s: passes over the history until one adds nothing.
static void reach(const History *h, size_t s, uint8_t *reached)
{
    memset(reached, 0, h->n);
    reached[s] = 1;
    for (int more = 1; more;) {
        more = 0;
        for (size_t i = 0; i < h->count; i++) {
            Update u = h->accepted[i];
            if (u.kind == 'E' && reached[u.first] && !reached[u.second]) reached[u.second] = 1, more = 1;
        }
    }
}

// "Live: a path of zero or more steps leads to a state marked terminal."
static int is_live(size_t n, const uint8_t *reached, const uint8_t *marks)
{
    for (size_t s = 0; s < n; s++)
        if (reached[s] && (marks[s] & TERMINAL)) return 1;
    return 0;
}

// "Dead: every reachable state, itself included, is closed and not terminal."
static int is_dead(size_t n, const uint8_t *reached, const uint8_t *marks)
{
    for (size_t s = 0; s < n; s++)
        if (reached[s] && (!(marks[s] & CLOSED) || (marks[s] & TERMINAL))) return 0;
    return 1;
}

// "Unknown: closed, neither live nor dead. Open: named, not closed, not live. Unseen: not named."
static uint8_t status_of(uint8_t marks, int live, int dead)
{
    if (!(marks & NAMED)) return UNSEEN;
    if (live) return LIVE;
    if (dead) return DEAD;
    return marks & CLOSED ? UNKNOWN : OPEN;
}

void reference_statuses(const History *h, uint8_t *status)
{
    uint8_t marks[MOST_STATES], reached[MOST_STATES];
    reference_marks(h, marks);
    for (size_t s = 0; s < h->n; s++) {
        reach(h, s, reached);
        status[s] = status_of(marks[s], is_live(h->n, reached, marks), is_dead(h->n, reached, marks));
    }
}

// ---- the same by two searches backwards

// The sources of the steps into each state: those of v stand at start[v] to start[v + 1].
typedef struct {
    size_t start[MOST_STATES + 1];
    uint16_t source[MOST_STEPS];
} Sources;

static void sort_sources(const History *h, Sources *x)
{
    memset(x->start, 0, sizeof x->start);
    for (size_t p = 0; p < h->steps; p++) x->start[h->listed[p].second]++;
    for (size_t s = 0, sum = 0; s <= h->n; s++) x->start[s] = sum += s < h->n ? x->start[s] : 0;
    for (size_t p = 0; p < h->steps; p++) x->source[--x->start[h->listed[p].second]] = (uint16_t)h->listed[p].first;
}

// Adds to the set every state from which steps lead into it.
static void search_back(size_t n, const Sources *x, uint8_t *set)
{
    size_t found[MOST_STATES], count = 0;
    for (size_t s = 0; s < n; s++)
        if (set[s]) found[count++] = s;
    while (count > 0) {
        size_t v = found[--count];
        for (size_t i = x->start[v]; i < x->start[v + 1]; i++)
            if (!set[x->source[i]]) set[x->source[i]] = 1, found[count++] = x->source[i];
    }
}

void reference_statuses_quick(const History *h, uint8_t *status)
{
    static Sources sources;
    uint8_t marks[MOST_STATES], live[MOST_STATES], hope[MOST_STATES];
    reference_marks(h, marks);
    sort_sources(h, &sources);
    for (size_t s = 0; s < h->n; s++) live[s] = (marks[s] & TERMINAL) != 0, hope[s] = live[s] || !(marks[s] & CLOSED);
    search_back(h->n, &sources, live);
    search_back(h->n, &sources, hope);
    for (size_t s = 0; s < h->n; s++) status[s] = status_of(marks[s], live[s], !hope[s]);
}

// ---- dead, by continuations

static int live_now(const History *h, size_t s)
{
    uint8_t marks[MOST_STATES], reached[MOST_STATES];
    reference_marks(h, marks);
    reach(h, s, reached);
    return is_live(h->n, reached, marks);
}

static int can_live_after(History *h, size_t s, int updates, Update u)
{
    history_add(h, u);
    int yes = reference_can_live(h, s, updates);
    history_drop(h);
    return yes;
}

// "A history is legal if no step and no terminal mark follows a close of its first state." No step limit holds here, and one key is as good
// as another.
int reference_can_live(History *h, size_t s, int updates)
{
    uint8_t marks[MOST_STATES];
    if (live_now(h, s)) return 1;
    if (updates == 0) return 0;
    reference_marks(h, marks);
    for (size_t u = 0; u < h->n; u++) {
        if (can_live_after(h, s, updates - 1, (Update){'C', u, 0, 0})) return 1;
        if (marks[u] & CLOSED) continue;
        for (size_t v = 0; v < h->n; v++)
            if (can_live_after(h, s, updates - 1, (Update){'E', u, v, 0})) return 1;
        if (can_live_after(h, s, updates - 1, (Update){'T', u, 0, 0})) return 1;
    }
    return 0;
}

// ---- news and refusals

size_t reference_news(size_t n, const uint8_t *before, const uint8_t *after, uint16_t *news)
{
    size_t count = 0;
    for (size_t s = 0; s < n; s++)
        if (after[s] != before[s] && (after[s] == LIVE || after[s] == DEAD)) news[count++] = (uint16_t)s;
    return count;
}

int reference_lent(size_t n, size_t limit, size_t steps, int long_enough)
{
    if (n == 0 || n > MOST_STATES) return 1;
    if (limit == 0 || limit > MOST_STEPS) return 2;
    if (!long_enough) return 3;
    if (steps > limit) return 4;
    return 0;
}

int reference_listed(size_t steps, const uint16_t *from, const uint16_t *to, const uint8_t *key, Update u)
{
    if (u.kind != 'E') return 0;
    for (size_t p = 0; p < steps; p++)
        if (equal_steps((Update){'E', from[p], to[p], key[p]}, u)) return 1;
    return 0;
}

int reference_sent(size_t n, size_t limit, size_t steps, const uint8_t *marks, int listed, Update u)
{
    int opens = u.kind == 'E' || u.kind == 'T';
    if (!opens && u.kind != 'C') return 11;
    if (u.first >= n || (u.kind == 'E' && u.second >= n)) return 5;
    if (u.kind == 'E' && u.key > MOST_KEY) return 14;    // "tested right after 5"
    if (opens && (marks[u.first] & CLOSED)) return 6;
    if (u.kind == 'E' && steps == limit && !listed) return 9;    // a repeat is accepted "also when the list is full"
    return 0;
}

int reference_legal(const uint8_t *marks, Update u) { return u.kind == 'C' || !(marks[u.first] & CLOSED); }

int reference_again(const uint8_t *marks, Update u) { return u.kind == 'C' && (marks[u.first] & CLOSED); }
