// Runs from fresh tables: every short list, and random explorers.
#include "runs.h"
#include "../include/radvoinis.h"
#include "groups.h"
#include "random.h"
#include <stdio.h>
#include <string.h>

void run_start(Run *r, size_t n, size_t limit)
{
    lent_size(r->lent, n, limit, one_in(2) ? 0 : 8);
    lent_fresh(r->lent);
    history_start(&r->history, n, limit);
    memset(r->status, 0, n);
    memset(r->marks, 0, n);
}

void run_start_beside(Run *r, const Run *first)
{
    run_start(r, first->lent->n, first->lent->limit);
    for (Name k = 0; k < TABLES; k++) lent_place(r->lent, k, first->lent->table[k].length, (Side)below(2));
    lent_fresh(r->lent);
}

uint32_t run_update(Run *r, Update u)
{
    shown_lent = r->lent, shown_history = &r->history, shown_update = u;
    uint32_t answer = lent_update(r->lent, u);
    if (answer < RADVOINIS_REFUSED) history_add(&r->history, u);
    return answer;
}

int same_steps(const Lent *l, const History *h)
{
    if (h->steps != l->steps[1]) return 0;
    for (size_t p = 0; p < h->steps; p++) {
        Update u = h->listed[p];
        if (words(l, FROM)[p] != u.first || words(l, TO)[p] != u.second || bytes(l, KEY)[p] != u.key) return 0;
    }
    return 1;
}

static void send_update(Run *r, Update u)
{
    if (!failed) r->send(r, u);
}

static void send(Run *r, char kind, size_t first, size_t second)
{
    send_update(r, (Update){(uint8_t)kind, first, second, key_for((uint8_t)kind)});
}

// A step that comes again at once, now and then.
static void send_step(Run *r, size_t first, size_t second)
{
    Update u = {'E', first, second, some_key()};
    send_update(r, u);
    if (one_in(4)) send_update(r, u);
}

// ---- every short list

void run_save(const Run *r, SavedRun *s)
{
    lent_save(r->lent, &s->tables);
    s->count = r->history.count, s->steps = r->history.steps;
    memcpy(s->status, r->status, 4), memcpy(s->marks, r->marks, 4);
}

void run_restore(Run *r, const SavedRun *s)
{
    lent_restore(r->lent, &s->tables);
    history_cut(&r->history, s->count, s->steps);
    memcpy(r->status, s->status, 4), memcpy(r->marks, s->marks, 4);
}

Update nth_update(size_t numbers, size_t i)
{
    size_t steps = numbers * numbers;
    if (i < steps) return (Update){'E', i / numbers, i % numbers, MOST_KEY - i};
    return (Update){i < steps + numbers ? 'T' : 'C', (i - steps) % numbers, 0, MOST_KEY + 1};
}

size_t updates_over(size_t numbers) { return numbers * numbers + 2 * numbers; }

static void every_longer_list(Run *r, const Update *all, size_t count, size_t depth, int first)
{
    SavedRun here;
    if (depth == 0) return;
    run_save(r, &here);
    for (size_t i = 0; i < count && !failed; i++) {
        if (first) progress(i, count);
        r->send(r, all[i]);
        every_longer_list(r, all, count, depth - 1, 0);
        run_restore(r, &here);
    }
}

enum { MOST_NUMBERS = 4, LIST_KEYS = 4, MOST_SENT = LIST_KEYS * MOST_NUMBERS * MOST_NUMBERS + 2 * MOST_NUMBERS };

void every_list(Run *r, size_t n, size_t limit, size_t depth, size_t numbers)
{
    Update all[MOST_SENT];
    for (size_t i = 0; i < updates_over(numbers); i++) all[i] = nth_update(numbers, i);
    run_start(r, n, limit);
    every_longer_list(r, all, updates_over(numbers), depth, 1);
}

void every_keyed_list(Run *r, size_t n, size_t limit, size_t depth, size_t numbers)
{
    static const size_t keys[LIST_KEYS] = {0, MOST_KEY, MOST_KEY + 1, 256};    // in a byte 256 is the first again
    Update all[MOST_SENT];
    size_t count = 0;
    for (size_t i = 0; i < updates_over(numbers); i++) {
        Update u = nth_update(numbers, i);
        for (size_t k = 0; k < (u.kind == 'E' ? LIST_KEYS : 1); k++) u.key = keys[k], all[count++] = u;
    }
    run_start(r, n, limit);
    every_longer_list(r, all, count, depth, 1);
}

// ---- random runs

size_t target(size_t n, size_t source, size_t near) { return near ? (source + 1 + below(near)) % n : below(n); }

size_t some_key(void) { return one_in(3) ? MOST_KEY * below(2) : below(MOST_KEY + 1); }

size_t far_key(void)
{
    static const size_t far[] = {
        32, 33, 63, 64, 127, 128, 255, 256, 287, 511, 65535, 65536, 65567, 0xffffffff, 0x100000000, 0x10000001f, SIZE_MAX / 2 + 1,
        SIZE_MAX - 31, SIZE_MAX,
    };
    return far[below(sizeof far / sizeof *far)];
}

size_t key_for(uint8_t kind) { return kind != 'E' && one_in(8) ? far_key() : some_key(); }

void random_history(History *h, size_t n, size_t limit, size_t updates, int legal)
{
    uint8_t closed[MOST_STATES] = {0};
    size_t steps = 1 + below(8), terminals = below(3), closes = 1 + below(6), near = one_in(2) ? 1 + below(4) : 0, again = below(5);
    history_start(h, n, limit);
    for (size_t i = 0; i < updates; i++) {
        size_t kind = below(steps + terminals + closes);
        Update u = {kind < steps ? 'E' : kind < steps + terminals ? 'T' : 'C', below(n), 0, some_key()};
        if (u.kind == 'T' && !one_in(1 + n / 8)) u.kind = 'E';
        if (updates > 1 && i + 2 == updates) u.kind = 'C';
        if (updates > 1 && i + 1 == updates) u = h->accepted[h->count - 1];    // the close before it, again
        if (u.kind == 'E') u.second = target(n, u.first, near);
        if (u.kind == 'E' && h->steps > 0 && again && one_in(2 * again)) u = h->listed[below(h->steps)];
        if (legal && closed[u.first] && u.kind != 'C') continue;
        if (legal && u.kind == 'E' && h->steps == limit && !history_lists(h, u)) continue;
        closed[u.first] |= u.kind == 'C';
        history_add(h, u);
    }
}

// The last close comes again, of whatever status its state is.
static void close_again(Run *r)
{
    size_t s = below(r->lent->n);
    send(r, 'C', s, 0), send(r, 'C', s, 0);
}

// Some of the steps that a run has sent.
enum { KEPT = 256 };
typedef struct {
    Update step[KEPT];
    size_t count;
} Past;

static void keep_step(Past *past, Update u)
{
    if (u.kind == 'E') past->step[past->count < KEPT ? past->count++ : below(KEPT)] = u;
}

// One of them again, or the same but for its source, its target or its key.
static Update step_again(const Past *past, size_t n)
{
    Update u = past->step[below(past->count)];
    size_t other = below(12);
    if (other == 0) u.first = below(n);
    if (other == 1) u.second = below(n);
    if (other == 2) u.key = some_key();
    return u;
}

void mixed_run(Run *r, size_t n, size_t limit, size_t updates)
{
    Past past = {.count = 0};
    size_t steps = 1 + below(12), terminals = one_in(2) ? below(3) : 0, closes = 1 + below(6), again = below(5);
    size_t order = below(3), near = one_in(2) ? 1 + below(4) : 0, wild = one_in(2) ? 20 + below(40) : 0;
    run_start(r, n, limit);
    for (size_t i = 0; i < updates && !failed; i++) {
        size_t kind = below(steps + terminals + closes);
        Update u = {kind < steps ? 'E' : kind < steps + terminals ? 'T' : 'C', below(n), 0, 0};
        if (terminals && n > 64 && u.kind == 'T' && !one_in(n / 16)) u.kind = 'E';
        if (u.kind == 'C' && order) u.first = order == 1 ? i * n / updates : n - 1 - i * n / updates;
        u.second = target(n, u.first, near);
        u.key = wild && one_in(wild) ? far_key() : key_for(u.kind);
        if (wild && one_in(wild)) *(one_in(2) ? &u.first : &u.second) = n + below(one_in(2) ? 3 : 70000);
        if (u.kind == 'E' && past.count > 0 && again && one_in(2 * again)) u = step_again(&past, n);
        keep_step(&past, u);
        r->send(r, u);
    }
    close_again(r);
}

static void shuffle(size_t *order, size_t n)
{
    for (size_t i = n; i > 1; i--) {
        size_t j = below(i), x = order[i - 1];
        order[i - 1] = order[j], order[j] = x;
    }
}

// The states rising, falling or shuffled.
static void read_order(size_t *order, size_t n, size_t how)
{
    for (size_t i = 0; i < n; i++) order[i] = how == 1 ? n - 1 - i : i;
    if (how == 2) shuffle(order, n);
}

void chain_run(Run *r, size_t n, size_t how, size_t extra, size_t skip)
{
    size_t order[MOST_STATES], mark = one_in(3);
    read_order(order, n, how);
    run_start(r, n, n + n / 2 + 2);
    for (size_t i = 0; i < n && !failed; i++) {
        size_t s = order[i];
        if (!one_in(n)) send_step(r, s, (s + 1) % n);
        if (extra && one_in(extra)) send_step(r, s, below(n));
        if (mark && one_in(n)) send(r, 'T', s, 0);
        if (!skip || !one_in(skip)) send(r, 'C', s, 0);
    }
    for (size_t i = n; i > 0 && !failed; i--)
        if (!one_in(8)) send(r, 'C', order[i - 1], 0);
    close_again(r);
}

void graph_run(Run *r, size_t n, size_t limit)
{
    size_t order[MOST_STATES], degree = 1 + below(4), near = one_in(2) ? 1 + below(8) : 0, late = one_in(3), mark = one_in(3);
    read_order(order, n, below(3));
    run_start(r, n, limit);
    for (size_t i = 0; i < n && !failed; i++) {
        for (size_t k = below(degree + 1); k > 0; k--) send_step(r, order[i], target(n, order[i], near));
        if (mark && one_in(n)) send(r, 'T', order[i], 0);
        if (!late && !one_in(16)) send(r, 'C', order[i], 0);
    }
    for (size_t i = 0; i < n && !failed; i++) {
        if (mark && one_in(n)) send(r, 'T', order[i], 0);
        else send(r, 'C', order[i], 0);
    }
    close_again(r);
}

void small_run(Run *r, size_t i)
{
    if (i % 4 == 0) chain_run(r, 2 + below(10), below(3), 2 * below(4), one_in(2) ? 10 : 0);
    else if (i % 4 == 1) graph_run(r, 2 + below(10), 1 + below(40));
    else mixed_run(r, 1 + below(12), 1 + below(24), 10 + below(50));
}

void large_run(Run *r, size_t i, size_t n, size_t limit)
{
    if (i % 3 == 0) mixed_run(r, n, limit, 4 * n);
    else if (i % 3 == 1) chain_run(r, n, below(3), 2 * below(30), one_in(2) ? 50 : 0);
    else graph_run(r, n, limit);
}

size_t around_full_entries(size_t i)
{
    size_t full = 16 * (1 + below(i % 16 ? 8 : MOST_STATES / 16));
    return i % 3 == 0 ? full : i % 3 == 1 || full == MOST_STATES ? full - 1 : full + 1;
}

// Four steps out of each state, by keys that differ, so that the list has 8,192.
void full_list_run(Run *r, size_t near)
{
    static Update steps[MOST_STATES][4];
    size_t order[MOST_STATES], n = MOST_STATES;
    read_order(order, n, 2);
    run_start(r, n, MOST_STEPS);
    for (size_t i = 0; i < n && !failed; i++) {
        for (size_t k = 0; k < 4; k++) {
            steps[i][k] = (Update){'E', order[i], target(n, order[i], near), 8 * k + below(8)};
            send_update(r, steps[i][k]);
        }
        if (i % 16) send(r, 'C', order[i], 0);
    }
    for (size_t i = 0; i < n && !failed; i += 16) {
        Update again = steps[i][below(4)], other = again, late = steps[i + 1][below(4)];
        other.key = (other.key + 8) % (MOST_KEY + 1);
        send_update(r, again), send_update(r, other), send_update(r, late);
        send(r, 'E', order[i], order[i + 1]);
        send(r, i % 1024 ? 'C' : 'T', order[i], 0);
        send_update(r, again);
    }
    close_again(r);
}

// ---- the run that is under way

const History *shown_history;
const Lent *shown_lent;
Update shown_update;

static void show_update(Update u)
{
    if (u.kind == 'E') printf(" E %zu %zu %zu", u.first, u.second, u.key);
    else if (u.kind == 'T' || u.kind == 'C') printf(" %c %zu - -", u.kind, u.first);
    else printf(" of kind %u", u.kind);
}

void show_run(void)
{
    if (!shown_lent) return;
    printf("  n %zu, limit %zu, %zu steps, call %lu, last update", shown_lent->n, shown_lent->limit, shown_lent->steps_before[1], calls_made);
    show_update(shown_update);
    printf("\n");
    if (!shown_history || shown_history->count > 40) return;
    printf("  accepted:");
    for (size_t i = 0; i < shown_history->count; i++) show_update(shown_history->accepted[i]);
    printf("\n");
}
