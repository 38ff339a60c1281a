// The table check's suite: radvoinis_audit against the definition of tables that fit (fitting.h), on the tables of runs, on damaged
// ones, on tables written for a history, and on tables of random contents and lengths.
#include "../include/radvoinis.h"
#include "fitting.h"
#include "groups.h"
#include "lent.h"
#include "random.h"
#include "runs.h"
#include "wild.h"
#include <stdio.h>
#include <string.h>

typedef enum {
    CHECK_ANSWER,
    CHECK_RUN_FITS,
    CHECK_NOTHING,
    CHECK_KEPT,
    CHECK_GOES_ON,
    CHECK_WRITTEN_FITS,
    CHECK_KEYS,
    CHECK_COPIES,
    CHECK_VISITED,
    CHECK_DEFINITION,
    CHECKS
} Check;

static const char *const check_names[CHECKS] = {
    "yes, no or refused, as the definition has it",
    "tables of a run fit",
    "nothing changed on a refusal",
    "all but the queue and bits that are no state's kept after a yes, all but queue and visited after a no, past them and around the tables too",
    "a run with checks in between: same answers, news and tables",
    "tables written for a history fit",
    "a listed key above 31 is found, a key behind the list is not looked at",
    "two equal steps are found; steps that are equal but for one of from, to and key fit",
    "a state's visited mark is found, a bit behind those of the states is not looked at",
    "the definition is what every short history gives",
};

static unsigned long answers[2], refusals[5], still_fit, fit_no_more;

static Lent lent_a, lent_b;

// ---- one check

enum { AUDITED = ALL_TABLES & ~(1 << NEWS) };

static uint32_t audit(Lent *l)
{
    const Table *t = l->table;
    call_begin();
    uint32_t answer = radvoinis_audit(
        l->n, l->limit, l->steps[1], bytes(l, STATUS), t[STATUS].told, bytes(l, MARKS), t[MARKS].told, words(l, FROM), t[FROM].told,
        words(l, TO), t[TO].told, bytes(l, KEY), t[KEY].told, words(l, SUCCESSOR), t[SUCCESSOR].told, words(l, IN_HEAD),
        t[IN_HEAD].told, words(l, OUT_HEAD), t[OUT_HEAD].told, words(l, QUEUE), t[QUEUE].told, words(l, VISITED), t[VISITED].told,
        words(l, IN_NEXT), t[IN_NEXT].told, words(l, OUT_NEXT), t[OUT_NEXT].told);
    call_end();
    return answer;
}

static uint32_t right_answer(const Lent *l)
{
    int number = reference_lent(l->n, l->limit, l->steps[1], lent_enough(l, AUDITED));
    if (number) return RADVOINIS_REFUSED + (uint32_t)number;
    Tables t = lent_tables(l);
    return (uint32_t)fits(&t);
}

// In the copy of visited, the bits behind those of the states as they are now.
static void expect_spare_free(Lent *l)
{
    Table *t = &l->table[VISITED];
    size_t last = lent_needed(l, VISITED) - 1, spare = lent_spare_bits(l);
    table_expect(t, last, (table_was(t, last) & ~spare) | (table_get(t, last) & spare));
}

// One check of the tables, held to the definition and to what it may write. Answers whether they fit.
static int fit(Lent *l)
{
    uint32_t right = right_answer(l);
    shown_lent = l;
    lent_keep(l);
    check(CHECK_ANSWER, audit(l) == right);
    if (right > RADVOINIS_REFUSED) {
        refusals[right - RADVOINIS_REFUSED]++;
        check(CHECK_NOTHING, lent_unchanged(l));
        return 0;
    }
    answers[right]++;
    table_expect_free(&l->table[QUEUE], 0, l->n);
    if (right) expect_spare_free(l);
    else table_expect_free(&l->table[VISITED], 0, lent_needed(l, VISITED));
    check(CHECK_KEPT, lent_unchanged(l));
    return (int)right;
}

// ---- the definition against every short history, over two states and up to two steps, by keys 0 and 31; the tables may hold 32

enum { SHORT_KEYS = 3, SHORT_STEPS = 4 * SHORT_KEYS, STEP_LISTS = 1 + SHORT_STEPS + SHORT_STEPS * SHORT_STEPS };
enum { SHORT_TABLES = 64 * 25 * STEP_LISTS };

static uint8_t given[SHORT_TABLES];
static const uint8_t short_keys[SHORT_KEYS] = {0, MOST_KEY, MOST_KEY + 1};

// The tables of two states have a number: marks, statuses and step list, by their digits.
typedef struct {
    size_t steps;
    uint8_t marks[2], status[2], key[2];
    uint16_t from[2], to[2];
} Short;

static size_t step_number(const Short *x, size_t p)
{
    size_t k = x->key[p] == short_keys[0] ? 0 : x->key[p] == short_keys[1] ? 1 : 2;
    return 4 * k + 2 * (size_t)x->from[p] + x->to[p];
}

static size_t short_number(const Short *x)
{
    size_t list = x->steps > 0 ? 1 + step_number(x, 0) : 0;
    if (x->steps > 1) list = 1 + SHORT_STEPS + SHORT_STEPS * (list - 1) + step_number(x, 1);
    return ((list * 8 + x->marks[0]) * 8 + x->marks[1]) * 25 + x->status[0] * 5u + x->status[1];
}

static void give(const History *h)
{
    Short x = {0};
    reference_marks(h, x.marks);
    reference_statuses(h, x.status);
    for (; x.steps < h->steps; x.steps++) {
        Update u = h->listed[x.steps];
        x.from[x.steps] = (uint16_t)u.first, x.to[x.steps] = (uint16_t)u.second, x.key[x.steps] = (uint8_t)u.key;
    }
    given[short_number(&x)] = 1;
}

// Every legal history of up to `updates` more updates that lists at most two steps.
static void give_every(History *h, int updates)
{
    uint8_t marks[2];
    give(h);
    reference_marks(h, marks);
    for (size_t i = 0; i < updates_over(2) && updates > 0; i++) {
        Update u = nth_update(2, i);
        if (!reference_legal(marks, u)) continue;
        for (size_t k = 0; k < (u.kind == 'E' ? 2 : 1); k++) {
            u.key = short_keys[k];
            if (u.kind == 'E' && h->steps == 2 && !history_lists(h, u)) continue;
            history_add(h, u);
            give_every(h, updates - 1);
            history_drop(h);
        }
    }
}

// The digits of a number, the last first.
static size_t digit(size_t *number, size_t base)
{
    size_t x = *number % base;
    *number /= base;
    return x;
}

static void read_step(Short *x, size_t p, size_t *number)
{
    x->to[p] = (uint16_t)digit(number, 2), x->from[p] = (uint16_t)digit(number, 2);
    x->key[p] = short_keys[digit(number, SHORT_KEYS)];
}

static void group_definition(void)
{
    History h = {0};
    shown_lent = NULL;
    history_start(&h, 2, 2);
    give_every(&h, 6);    // two terminal marks, two steps, two closes
    history_end(&h);
    for (size_t i = 0; i < SHORT_TABLES; i++) {
        size_t k = i;
        Short x = {0};
        x.status[1] = (uint8_t)digit(&k, 5), x.status[0] = (uint8_t)digit(&k, 5);
        x.marks[1] = (uint8_t)digit(&k, 8), x.marks[0] = (uint8_t)digit(&k, 8);
        if (k > SHORT_STEPS) k -= 1 + SHORT_STEPS, read_step(&x, 1, &k), x.steps = 2, k++;
        if (k > 0) k -= 1, read_step(&x, 0, &k), x.steps += !x.steps;
        Tables t = {.n = 2, .steps = x.steps, .marks = x.marks, .status = x.status, .from = x.from, .to = x.to, .key = x.key};
        check(CHECK_DEFINITION, short_number(&x) == i && fits_history(&t) == given[i]);
    }
}

// ---- every table of small entries: of one state, and of two states with lists that fit

static void put(Lent *l, Name k, size_t i, size_t x) { table_set(&l->table[k], i, x); }

static void group_one_state(void)
{
    static const size_t successors[] = {0, 1, 65535}, keys[] = {MOST_KEY, MOST_KEY + 1, 255}, visits[] = {0, 1, 65534};
    shown_history = NULL;
    lent_size(&lent_a, 1, 1, 0);
    for (size_t i = 0; i < 6 * 9 * 2 * 2 * 2 * 3 * 81 * 3 * 3 && !failed; i++) {
        size_t k = i;
        put(&lent_a, STATUS, 0, digit(&k, 6)), put(&lent_a, MARKS, 0, digit(&k, 9));
        put(&lent_a, FROM, 0, digit(&k, 2)), put(&lent_a, TO, 0, digit(&k, 2)), lent_a.steps[1] = digit(&k, 2);
        put(&lent_a, SUCCESSOR, 0, successors[digit(&k, 3)]);
        put(&lent_a, IN_HEAD, 0, digit(&k, 3)), put(&lent_a, OUT_HEAD, 0, digit(&k, 3));
        put(&lent_a, IN_NEXT, 0, digit(&k, 3)), put(&lent_a, OUT_NEXT, 0, digit(&k, 3));
        put(&lent_a, VISITED, 0, visits[digit(&k, 3)]), put(&lent_a, KEY, 0, keys[digit(&k, 3)]);
        fit(&lent_a);
    }
}

// The bits of visited that are no state's may hold anything.
static void scramble_spare(Lent *l) { words(l, VISITED)[lent_needed(l, VISITED) - 1] ^= (uint16_t)(random_word() & lent_spare_bits(l)); }

static void clear_visited(Lent *l)
{
    memset(words(l, VISITED), 0, 2 * lent_needed(l, VISITED));
    if (one_in(2)) scramble_spare(l);
}

// The lists of the steps that are listed, and no state visited.
static void write_list(Lent *l, Name ends, Name head, Name next)
{
    memset(words(l, head), 0, 2 * l->n);
    for (size_t p = 0; p < l->steps[1]; p++) {
        size_t s = words(l, ends)[p];
        if (s >= l->n) continue;
        words(l, next)[p] = words(l, head)[s];
        words(l, head)[s] = (uint16_t)(p + 1);
    }
}

static void write_work(Lent *l)
{
    write_list(l, TO, IN_HEAD, IN_NEXT);
    write_list(l, FROM, OUT_HEAD, OUT_NEXT);
    clear_visited(l);
}

// The statuses are those that are given, the rest is every choice.
static void two_states(const uint8_t *status)
{
    static const size_t successors[] = {0, 1, 2, 65535};
    for (size_t i = 0; i < 3 * 81 * 64 * 16 && !failed; i++) {
        size_t k = i;
        for (size_t p = 0; p < 2; p++) put(&lent_a, FROM, p, digit(&k, 3)), put(&lent_a, TO, p, digit(&k, 3));
        for (size_t p = 0; p < 2; p++) put(&lent_a, KEY, p, one_in(16) ? MOST_KEY + 1 : some_key());
        if (one_in(4)) put(&lent_a, KEY, 1, table_get(&lent_a.table[KEY], 0));
        lent_a.steps[1] = digit(&k, 3);
        if (lent_a.steps[1] < 2 && (words(&lent_a, FROM)[1] || words(&lent_a, TO)[1])) continue;
        if (lent_a.steps[1] < 1 && (words(&lent_a, FROM)[0] || words(&lent_a, TO)[0])) continue;
        for (size_t s = 0; s < 2; s++) {
            put(&lent_a, STATUS, s, status[s]), put(&lent_a, MARKS, s, digit(&k, 8));
            put(&lent_a, SUCCESSOR, s, successors[digit(&k, 4)]);
        }
        write_work(&lent_a);
        fit(&lent_a);
    }
}

static void group_two_states(void)
{
    shown_history = NULL;
    lent_size(&lent_a, 2, 2, 0);
    for (size_t i = 0; i < 25 && !failed; i++) {
        uint8_t status[2] = {(uint8_t)(i / 5), (uint8_t)(i % 5)};
        progress(i, 25);
        two_states(status);
    }
}

// ---- runs: every table that an update leaves fits

static void send_and_check(Run *r, Update u)
{
    run_update(r, u);
    check(CHECK_RUN_FITS, fit(r->lent));
}

static Run checked = {.lent = &lent_a, .send = send_and_check};

static void send_alone(Run *r, Update u) { run_update(r, u); }

static Run unchecked = {.lent = &lent_a, .send = send_alone};

static void group_lists(void)
{
    every_keyed_list(&checked, 2, 2, by_scale(3, 3, 4), 2);
    every_list(&checked, 2, 2, 5, 3);
    every_list(&checked, 2, 3, by_scale(5, 6, 7), 2);
    every_list(&checked, 3, 2, 4, 4);
    every_list(&checked, 3, 4, by_scale(3, 4, 5), 3);
}

// Sends to a run with checks in between, and to one without; what a check leaves free may hold anything.
static Run alone = {.lent = &lent_b};
static int alone_started;

static void scramble_free(Lent *l)
{
    for (size_t s = 0; s < l->n; s++) words(l, QUEUE)[s] = (uint16_t)random_word();
    scramble_spare(l);
    for (size_t p = l->steps[1]; p < l->limit; p++) {
        words(l, IN_NEXT)[p] = (uint16_t)random_word(), words(l, OUT_NEXT)[p] = (uint16_t)random_word();
        words(l, FROM)[p] = (uint16_t)random_word(), words(l, TO)[p] = (uint16_t)random_word(), bytes(l, KEY)[p] = (uint8_t)random_word();
    }
}

// Whether the first entries are the same in both lent tables.
static int same_entries(Name k, size_t entries)
{
    return memcmp(lent_a.table[k].at, lent_b.table[k].at, entries * lent_a.table[k].width) == 0;
}

static void send_to_both(Run *r, Update u)
{
    size_t n = r->lent->n;
    if (!alone_started) run_start_beside(&alone, r), alone_started = 1;
    uint32_t answer = run_update(r, u), steps = (uint32_t)r->lent->steps[1];
    check(CHECK_GOES_ON, answer == run_update(&alone, u) && steps == lent_b.steps[1]);
    check(CHECK_GOES_ON, answer > RADVOINIS_REFUSED || same_entries(NEWS, answer));
    check(CHECK_GOES_ON, same_entries(STATUS, n) && same_entries(MARKS, n));
    check(CHECK_GOES_ON, same_entries(FROM, steps) && same_entries(TO, steps) && same_entries(KEY, steps));
    for (size_t i = below(3); i > 0; i--) check(CHECK_RUN_FITS, fit(r->lent));
    if (one_in(4)) scramble_free(r->lent);
}

static Run interrupted = {.lent = &lent_a, .send = send_to_both};

static void group_interrupted(void)
{
    for (size_t i = 0; i < rounds(2000) && !failed; i++) {
        progress(i, rounds(2000));
        alone_started = 0;
        if (i % 1000 == 0) mixed_run(&interrupted, 2048 - below(2), 8192 - below(3), 3000);
        else if (i % 50 == 1) chain_run(&interrupted, 2 + below(200), below(3), 2 * below(4), one_in(2) ? 10 : 0);
        else if (i % 50 == 2) graph_run(&interrupted, 2 + below(100), 1 + below(400));
        else if (i % 50 == 3) mixed_run(&interrupted, 13 + below(one_in(4) ? 1000 : 100), 1 + below(600), 400);
        else mixed_run(&interrupted, 1 + below(12), 1 + below(24), 10 + below(50));
    }
}

static void group_large_runs(void)
{
    for (size_t i = 0; i < rounds(4) && !failed; i++) {
        progress(i, rounds(4));
        if (i % 4 == 0) full_list_run(&checked, one_in(2) ? 0 : 3);
        else if (i % 4 == 1) chain_run(&checked, 2048 - below(2), below(3), 50, 500);
        else if (i % 4 == 2) mixed_run(&checked, 2048 - below(3), 8192 - below(3), 8000);
        else graph_run(&checked, 1500 + below(549), MOST_STEPS - below(1000));
    }
}

// ---- every damage of one entry

static void damage_entry(Lent *l, Name k, size_t i, size_t x)
{
    size_t was = table_get(&l->table[k], i);
    put(l, k, i, x);
    if (table_get(&l->table[k], i) != was) fit(l) ? still_fit++ : fit_no_more++;
    put(l, k, i, was);
    clear_visited(l);
}

static void damage_table(Lent *l, Name k, size_t values)
{
    for (size_t i = 0; i < lent_needed(l, k) && !failed; i++) {
        size_t was = table_get(&l->table[k], i), far[] = {65535, 65534, was + 256, was + 32768, (size_t)random_word()};
        for (size_t x = 0; x < values; x++) damage_entry(l, k, i, x);
        for (size_t x = 0; x < sizeof far / sizeof *far; x++) damage_entry(l, k, i, far[x]);
    }
}

// The least values, which an entry is damaged by: past those that it can have, or all of a byte.
static size_t small_values(const Lent *l, Name k, size_t all_bytes)
{
    if (lent_width(k) > 1) return (l->n > l->limit ? l->n : l->limit) + 3;
    return all_bytes ? 256 : k == KEY ? MOST_KEY + 3 : 10;
}

static void send_and_damage(Run *r, Update u)
{
    Lent *l = r->lent;
    size_t all_bytes = one_in(16);
    send_and_check(r, u);
    for (Name k = 0; k < TABLES && !failed; k++)
        if (k != NEWS) damage_table(l, k, small_values(l, k, all_bytes));
}

static Run damaged = {.lent = &lent_a, .send = send_and_damage};

static void group_every_damage(void)
{
    every_list(&damaged, 2, 3, by_scale(3, 4, 5), 2);
    every_list(&damaged, 3, 3, by_scale(2, 3, 3), 3);
}

static void group_every_damage_later(void)
{
    for (size_t i = 0; i < rounds(200) && !failed; i++) {
        progress(i, rounds(200));
        mixed_run(&damaged, 1 + below(8), 1 + below(12), 10 + below(10));
    }
}

// ---- keys

// Whether a place has a step that is equal to that of another, of which both are listed.
static int is_copy(const Lent *l, size_t p)
{
    const uint16_t *from = words(l, FROM), *to = words(l, TO);
    const uint8_t *key = bytes(l, KEY);
    for (size_t q = 0; q < l->steps[1] && p < l->steps[1]; q++)
        if (q != p && from[q] == from[p] && to[q] == to[p] && key[q] == key[p]) return 1;
    return 0;
}

static void damage_key(Lent *l, size_t p)
{
    static const size_t above[] = {MOST_KEY + 1, MOST_KEY + 2, 63, 64, 127, 128, 254, 255};
    size_t was = table_get(&l->table[KEY], p), i = below(sizeof above / sizeof *above);
    for (size_t k = 0; k < 2; k++) {
        put(l, KEY, p, k ? above[i] : some_key());
        check(CHECK_KEYS, fit(l) == (p >= l->steps[1] || (k == 0 && !is_copy(l, p))));
        clear_visited(l);
    }
    put(l, KEY, p, was);
}

// Every place of a short list; of a long one the first and the last that is listed, and any.
static void send_and_damage_keys(Run *r, Update u)
{
    Lent *l = r->lent;
    run_update(r, u);
    if (l->limit > 40 && !one_in(l->n)) return;
    for (size_t p = 0; l->limit <= 40 && p < l->limit && !failed; p++) damage_key(l, p);
    size_t steps = l->steps[1], places[] = {0, steps ? steps - 1 : 0, steps < l->limit ? steps : 0, below(l->limit)};
    for (size_t i = 0; l->limit > 40 && i < 4 && !failed; i++) damage_key(l, places[i]);
}

static Run keys_damaged = {.lent = &lent_a, .send = send_and_damage_keys};

static void group_keys(void)
{
    for (size_t i = 0; i < rounds(200) && !failed; i++) {
        progress(i, rounds(200));
        small_run(&keys_damaged, i);
    }
    for (size_t i = 0; i < rounds(6) && !failed; i++) large_run(&keys_damaged, i, 2048 - below(1000), 8192 - below(3));
}

// ---- visited marks

// Each bit of the needed entries by itself, and all of those that are no state's.
static void damage_visited(Lent *l)
{
    uint16_t *visited = words(l, VISITED), spare = lent_spare_bits(l);
    size_t entries = lent_needed(l, VISITED);
    for (size_t b = 0; b < 16 * entries && !failed; b++) {
        memset(visited, 0, 2 * entries);
        visited[b / 16] = (uint16_t)(1u << b % 16 | (one_in(2) ? spare : 0u));
        check(CHECK_VISITED, fit(l) == (b >= l->n));
    }
    memset(visited, 0, 2 * entries);
    visited[entries - 1] = spare;
    check(CHECK_VISITED, fit(l) == 1);
}

// The last ten runs may have up to 2,048 states.
static void group_visited(void)
{
    for (size_t i = 1; i <= 80 && !failed; i++) {
        size_t n = i <= 50 ? i : around_full_entries(i <= 70 ? i : 16 * i);
        progress(i, 80);
        large_run(&unchecked, i, n < 2 ? 2 : n, n + 1 + below(n));
        damage_visited(&lent_a);
    }
}

// ---- random damages, of one entry or of some that belong together

static size_t listed_step_out_of(const Lent *l, size_t s)
{
    size_t steps = l->steps[1], first = below(steps + 1);
    for (size_t i = 0; i < steps; i++)
        if (words(l, FROM)[(first + i) % steps] == s) return (first + i) % steps;
    return NO_SUCCESSOR;
}

// A value that an entry of the table could have.
static size_t likely_entry(const Lent *l, Name k, size_t i)
{
    if (one_in(4)) return wild_entry(l, k);
    switch (k) {
    case STATUS: return below(5);
    case MARKS: return bytes(l, MARKS)[i] ^ 1u << below(3);
    case FROM:
    case TO: return below(l->n);
    case KEY: return below(MOST_KEY + 3);
    case SUCCESSOR: return one_in(4) ? NO_SUCCESSOR : listed_step_out_of(l, i);
    case QUEUE: return below(l->n);
    case VISITED: return words(l, VISITED)[i] ^ 1u << below(16);
    default: return below(l->steps[1] + 1);
    }
}

static void damage(Lent *l, Name k, size_t i) { put(l, k, i, likely_entry(l, k, i)); }

// A place among the needed ones, of a listed step mostly where the table has one for each step.
static size_t some_place(const Lent *l, Name k)
{
    size_t needed = lent_needed(l, k);
    return needed == l->limit && l->steps[1] > 0 && !one_in(8) ? below(l->steps[1]) : below(needed);
}

static void damage_any(Lent *l)
{
    Name k = (Name)below(TABLES);
    damage(l, k, some_place(l, k));
}

// A step becomes another, or two change places, and the lists with them.
static void damage_step(Lent *l)
{
    static const Name columns[] = {FROM, TO, KEY};
    size_t p = below(l->steps[1]), q = below(l->steps[1]);
    if (one_in(2)) {
        damage(l, columns[below(3)], p);
    } else {
        for (size_t i = 0; i < 3; i++) {
            const Table *t = &l->table[columns[i]];
            size_t x = table_get(t, p), y = table_get(t, q);
            put(l, columns[i], p, y), put(l, columns[i], q, x);
        }
    }
    write_work(l);
}

// The step list is longer or shorter by one, and the lists with it.
static void damage_length(Lent *l)
{
    size_t steps = l->steps[1];
    if (steps < l->limit && one_in(2)) {
        put(l, FROM, steps, below(l->n)), put(l, TO, steps, below(l->n)), put(l, KEY, steps, below(MOST_KEY + 3));
        l->steps[1]++;
    } else if (steps > 0) {
        l->steps[1]--;
    }
    if (one_in(2)) write_work(l);
}

static void damage_somehow(Lent *l)
{
    size_t s = below(l->n), how = below(10);
    if (how < 3) damage_any(l);
    else if (how == 3) damage_any(l), damage_any(l);
    else if (how == 4) damage(l, STATUS, s), damage(l, SUCCESSOR, s);
    else if (how == 5) damage(l, MARKS, s), damage(l, STATUS, s);
    else if (how == 6) damage(l, MARKS, s), damage(l, STATUS, s), damage(l, SUCCESSOR, s);
    else if (how == 7) damage(l, SUCCESSOR, s), damage(l, SUCCESSOR, below(l->n));
    else if (how == 8 && l->steps[1] > 0) damage_step(l);
    else damage_length(l);
}

static void copy_tables(Lent *l, const Lent *from)
{
    l->n = from->n, l->limit = from->limit;
    for (Name k = 0; k < TABLES; k++) {
        lent_place(l, k, from->table[k].length, (Side)below(2));
        memcpy(l->table[k].at, from->table[k].at, l->table[k].length * l->table[k].width);
    }
    memcpy(l->steps, from->steps, sizeof l->steps);
}

static int all_same(void)
{
    for (Name k = 0; k < TABLES; k++)
        if (!same_entries(k, lent_needed(&lent_a, k))) return 0;
    return lent_a.steps[1] == lent_b.steps[1];
}

static void damage_copy(void)
{
    copy_tables(&lent_b, &lent_a);
    damage_somehow(&lent_b);
    if (!all_same()) fit(&lent_b) ? still_fit++ : fit_no_more++;
}

// Of so many updates, the tables of one are damaged.
static size_t damage_one_in;

static void send_and_damage_copies(Run *r, Update u)
{
    run_update(r, u);
    if (!one_in(damage_one_in)) return;
    check(CHECK_RUN_FITS, fit(r->lent));
    for (size_t i = 0; i < 8 && !failed; i++) damage_copy();
}

static Run copied = {.lent = &lent_a, .send = send_and_damage_copies};

static void group_damage_small(void)
{
    damage_one_in = 3;
    for (size_t i = 0; i < rounds(8000) && !failed; i++) {
        progress(i, rounds(8000));
        small_run(&copied, i);
    }
}

static void group_damage_large(void)
{
    for (size_t i = 0; i < rounds(120) && !failed; i++) {
        size_t n = i % 20 < 3 ? 2048 - below(3) : 13 + below(one_in(3) ? 1000 : 100);
        progress(i, rounds(120));
        damage_one_in = 1 + n / 16;
        large_run(&copied, i, n, i % 20 < 3 ? 8192 - below(3) : 1 + below(4 * n));
    }
}

// ---- tables written for a history

static void write_marks(Lent *l, const History *h) { reference_marks(h, bytes(l, MARKS)); }

static void write_statuses(Lent *l, const History *h) { reference_statuses_quick(h, bytes(l, STATUS)); }

static void write_steps(Lent *l, const History *h)
{
    for (size_t p = 0; p < h->steps; p++) lent_list(l, p, h->listed[p]);
    l->steps[1] = h->steps;
}

// For each state that the table calls unknown any step by which it comes nearer to an open state: passes over the listed steps, from
// anywhere and in either direction, until one adds nothing.
static void write_successors(Lent *l)
{
    uint8_t leads[MOST_STATES];
    size_t steps = l->steps[1];
    memset(words(l, SUCCESSOR), 255, 2 * l->n);
    for (size_t s = 0; s < l->n; s++) leads[s] = bytes(l, STATUS)[s] == OPEN;
    for (int more = 1; more;) {
        size_t first = below(steps + 1), back = one_in(2);
        more = 0;
        for (size_t i = 0; i < steps; i++) {
            size_t p = (first + (back ? steps - 1 - i : i)) % steps, s = words(l, FROM)[p];
            if (bytes(l, STATUS)[s] != UNKNOWN || leads[s] || !leads[words(l, TO)[p]]) continue;
            leads[s] = 1, more = 1;
            put(l, SUCCESSOR, s, p);
        }
    }
}

static void write_tables(Lent *l, const History *h)
{
    write_marks(l, h), write_statuses(l, h), write_steps(l, h);
    write_successors(l), write_work(l);
}

// The same history but for one update, which is gone, doubled or another; no more steps than the limit allows.
static void neighbour(History *h, const History *of)
{
    size_t other = below(of->count + 1), how = below(3);
    history_start(h, of->n, of->limit);
    for (size_t i = 0; i < of->count; i++) {
        Update u = of->accepted[i];
        if (i == other && how == 1) history_add(h, u);
        if (i == other && how == 2 && one_in(3)) u.key = below(MOST_KEY + 2);
        else if (i == other && how == 2) *(one_in(2) ? &u.first : &u.second) = below(of->n);
        if ((i == other && how == 0) || (u.kind == 'E' && h->steps == h->limit && !history_lists(h, u))) continue;
        history_add(h, u);
    }
}

// Some of the tables are those of another history.
static void mix(Lent *l, const History *other)
{
    size_t which = 1 + below(15);
    if (which & 1) write_marks(l, other);
    if (which & 2) write_statuses(l, other);
    if (which & 4) write_steps(l, other);
    if (which & 8) write_successors(l);
    if (one_in(2)) write_work(l);
}

static void written_round(size_t n, size_t limit, size_t updates)
{
    static History one, two;
    Lent *l = &lent_a;
    random_history(&one, n, limit, updates, 1);
    lent_size(l, n, limit, 4);
    shown_history = &one;
    for (size_t i = 0; i < 8 && !failed; i++) {
        write_tables(l, &one);
        check(CHECK_WRITTEN_FITS, fit(l));
        if (one_in(3)) random_history(&two, n, limit, updates, 1);
        else neighbour(&two, &one);
        mix(l, &two);
        fit(l);
    }
}

static void group_written(void)
{
    for (size_t i = 0; i < rounds(40000) && !failed; i++) {
        progress(i, rounds(40000));
        if (i % 2000 == 0) written_round(2048 - below(3), 8192 - below(3), 8000);
        else if (i % 100 == 0) written_round(13 + below(200), 1 + below(800), 600);
        else written_round(1 + below(10), 1 + below(20), below(40));
    }
}

// ---- copies: tables that would fit, but for two equal steps

// A step of the list comes again at a place of it, and those from there on move by one; all else is as the history has it.
static void hold_copy(Lent *l, const History *h, size_t of, size_t place)
{
    for (size_t p = 0; p <= h->steps; p++) lent_list(l, p, p == place ? h->listed[of] : h->listed[p < place ? p : p - 1]);
    l->steps[1] = h->steps + 1;
    write_successors(l), write_work(l);
    check(CHECK_COPIES, !fit(l));
}

// The tables of a history whose steps stand before its closes; and the same with copies: of every step at every place, or of some.
static void hold_copies(const History *h, size_t some)
{
    Lent *l = &lent_a;
    size_t all = h->steps * (h->steps + 1), limit = h->steps + 1 + below(3);
    lent_size(l, h->n, limit < MOST_STEPS ? limit : MOST_STEPS, 4);
    shown_history = h;
    write_tables(l, h);
    check(CHECK_COPIES, fit(l));
    for (size_t i = 0; i < (some ? some : all) && !failed; i++) {
        size_t k = some ? below(all) : i;
        hold_copy(l, h, k / (h->steps + 1), k % (h->steps + 1));
    }
    if (some && !failed) hold_copy(l, h, 0, h->steps), hold_copy(l, h, h->steps - 1, 0), hold_copy(l, h, h->steps - 1, h->steps);
}

// Of two steps that differ in one of from, to and key, by every pair of keys: they fit, and a copy of either does not. The ends are all
// choices among three states, a step to itself among them.
static void group_copies_of_two(void)
{
    static History h;
    for (size_t i = 0; i < 32 * 32 * 9 * 3 && !failed; i++) {
        size_t k = i, key = digit(&k, 32), other_key = digit(&k, 32), from = digit(&k, 3), to = digit(&k, 3), other = 1 + below(2);
        Update u = {'E', from, to, key}, near = u;
        if (k == 0) near.key = other_key;
        if (k == 1) near.first = (from + other) % 3;
        if (k == 2) near.second = (to + other) % 3;
        progress(i, 32 * 32 * 9 * 3);
        if (k > 0 && other_key % 8) continue;
        history_start(&h, 3, 4);
        history_add(&h, u), history_add(&h, near);
        if (one_in(2)) history_add(&h, (Update){"TC"[below(2)], below(3), 0, 0});
        hold_copies(&h, 0);
    }
}

// Every copy in lists of a few steps between few states, by few keys of both halves and by all, so that most differ from others in one of
// the three alone.
static void group_copies_small(void)
{
    static History h;
    for (size_t i = 0; i < rounds(1500) && !failed; i++) {
        size_t n = 1 + below(4), few = one_in(2);
        progress(i, rounds(1500));
        history_start(&h, n, 16);
        if (one_in(3)) history_add(&h, (Update){'T', below(n), 0, 0});
        for (size_t k = 1 + below(12); k > 0; k--) {
            size_t key = few ? 5 + 16 * below(2) + below(2) : below(MOST_KEY + 1);
            history_add(&h, (Update){'E', below(n), below(n), key});
        }
        for (size_t s = 0; s < n; s++)
            if (one_in(2)) history_add(&h, (Update){'C', s, 0, 0});
        hold_copies(&h, 0);
    }
}

// Copies near and far in long lists: all steps into one state, all out of one, between two states in turn, or between any.
static void group_copies_large(void)
{
    static History h;
    for (size_t i = 0; i < rounds(40) && !failed; i++) {
        size_t n = 2 + below(one_in(2) ? 300 : 2047), steps = i % 8 == 0 ? MOST_STEPS - 1 : 1 + below(i % 8 == 1 ? MOST_STEPS - 1 : 2000);
        progress(i, rounds(40));
        history_start(&h, n, MOST_STEPS);
        for (size_t p = 0; p < steps; p++) {
            size_t spread = p / (MOST_KEY + 1) % n, key = p % (MOST_KEY + 1);
            Update into = {'E', spread, n - 1, key}, out = {'E', n - 1, spread, key}, any = {'E', below(n), below(n), below(MOST_KEY + 1)};
            history_add(&h, i % 4 == 0 ? into : i % 4 == 1 ? out : i % 4 == 2 && p % 2 ? into : any);
        }
        for (size_t s = 0; s < n; s++)
            if (one_in(3)) history_add(&h, (Update){'C', s, 0, 0});
        hold_copies(&h, 20);
    }
}

// ---- refusals, and tables of random contents and lengths

static void hold(Lent *l) { fit(l); }

static void group_refusals(void) { each_refusal(&lent_a, hold, hold); }

static void group_contents(void)
{
    shown_history = NULL;
    for (size_t i = 0; i < rounds(300000) && !failed; i++) {
        progress(i, rounds(300000));
        wild_size(&lent_a, 4);
        wild_contents(&lent_a);
        fit(&lent_a);
    }
}

// Fresh tables, or those of a run, a few entries overwritten; then updates and checks by turns on what comes.
static void group_overwritten(void)
{
    shown_history = NULL;
    for (size_t i = 0; i < rounds(40000) && !failed; i++) {
        Lent *l = &lent_a;
        progress(i, rounds(40000));
        wild_size(l, 4);
        lent_fresh(l);
        for (size_t k = below(30); k > 0; k--) lent_update(l, wild_update(l));
        wild_overwrite(l, below(4));
        for (size_t k = 0; k < 3 && !failed; k++) fit(l), lent_update(l, wild_update(l));
    }
}

static void group_lengths(void)
{
    shown_history = NULL;
    for (size_t i = 0; i < rounds(200000) && !failed; i++) {
        progress(i, rounds(200000));
        if (one_in(8)) wild_told(&lent_a);
        else wild_lengths(&lent_a);
        one_in(4) && lent_enough(&lent_a, ALL_TABLES) ? lent_fresh(&lent_a) : wild_contents(&lent_a);
        wild_values(&lent_a);
        fit(&lent_a);
    }
}

// ---- all groups

static const Group groups[] = {
    {"tables that fit: by definition and by every short history", group_definition},
    {"one state: every table of small entries", group_one_state},
    {"two states: every table of small entries whose lists fit", group_two_states},
    {"after each update of every short list", group_lists},
    {"random runs with checks in between", group_interrupted},
    {"random runs up to 2,048 states and 8,192 steps", group_large_runs},
    {"every damage of one entry, after every short list", group_every_damage},
    {"every damage of one entry, random runs", group_every_damage_later},
    {"keys above 31, in the list and behind it", group_keys},
    {"every bit of the visited marks, up to 50 states and around multiples of 16", group_visited},
    {"random damages, up to 12 states", group_damage_small},
    {"random damages, up to 2,048 states", group_damage_large},
    {"tables written for a history, mixed with another's", group_written},
    {"two equal steps beside two that are nearly so, by every pair of keys", group_copies_of_two},
    {"two equal steps, at every two places of short lists", group_copies_small},
    {"two equal steps near and far, in lists of up to 8,192", group_copies_large},
    {"refusals: n, limit, steps and lengths", group_refusals},
    {"tables of random contents", group_contents},
    {"tables of a run, some entries overwritten", group_overwritten},
    {"tables of random lengths", group_lengths},
};

static void show_counts(void)
{
    printf("%lu calls of update and table check; answered yes: %lu, no: %lu, refused 1: %lu, 2: %lu, 3: %lu, 4: %lu\n", calls_made,
           answers[1], answers[0], refusals[1], refusals[2], refusals[3], refusals[4]);
    printf("damaged tables that still fit: %lu, that fit no more: %lu\n", still_fit, fit_no_more);
}

int main(int argc, char **argv)
{
    static const Suite suite = {groups, sizeof groups / sizeof *groups, check_names, CHECKS, show_run, show_counts};
    lent_make(&lent_a), lent_make(&lent_b);
    return suite_run(&suite, argc, argv);
}
