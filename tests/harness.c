// The update's suite: the engine behind include/radvoinis.h against the naive reference.
#include "../include/radvoinis.h"
#include "groups.h"
#include "lent.h"
#include "random.h"
#include "reference.h"
#include "runs.h"
#include "wild.h"
#include <stdio.h>
#include <stdlib.h>
#include <string.h>

// ---- checks

typedef enum {
    CHECK_NUMBER,
    CHECK_NOTHING,
    CHECK_AGAIN,
    CHECK_REPEAT,
    CHECK_VALUE,
    CHECK_MARKS,
    CHECK_STEPS,
    CHECK_KEYS,
    CHECK_RISING,
    CHECK_KEPT,
    CHECK_NEWS,
    CHECK_STATUS,
    CHECK_STAYS,
    CHECK_SUCCESSOR,
    CHECK_LISTS,
    CHECK_VISITED,
    CHECK_QUESTION,
    CHECK_LENGTH,
    CHECK_PRUNED,
    CHECK_LEFT_OUT,
    CHECK_EXAMPLE,
    CHECK_REFERENCE,
    CHECKS
} Check;

static const char *const check_names[CHECKS] = {
    "accepted, or refused with the reference's number",
    "nothing changed on a refusal",
    "nothing changed and no news on a close of a closed state",
    "a step that is listed: its states named, nothing else changed, no news; in a run nothing at all changed",
    "state value",
    "marks",
    "step list",
    "the key of a step at its place, all other keys kept",
    "news rising and below n",
    "entries past the needed ones, behind the news and around the tables kept",
    "news as the reference has it",
    "statuses as the reference has them",
    "verdicts stay",
    "successors lead to an open state",
    "lists of steps in the work tables",
    "no state left visited",
    "status question",
    "news length",
    "pruned run: accepted, same news, same statuses",
    "pruned run: no news of what was left out",
    "marked examples",
    "the reference's two ways agree",
};

static unsigned long refusals[15], closed_again, left_out_again, made_live, made_dead, longest_chain;
static unsigned long repeats, repeats_when_full, left_out_repeats, new_to_the_pruned;

// ---- one call, on tables with any contents

static int rising_below(const uint16_t *news, size_t count, size_t n)
{
    for (size_t i = 0; i < count; i++)
        if (news[i] >= n || (i > 0 && news[i - 1] >= news[i])) return 0;
    return 1;
}

// The bits that an update sets in the mark of a state.
static uint8_t mark_bits(Update u, size_t s)
{
    uint8_t bits = 0;
    if (s == u.first) bits |= u.kind == 'E' ? NAMED : u.kind == 'T' ? NAMED | TERMINAL : NAMED | CLOSED;
    if (u.kind == 'E' && s == u.second) bits |= NAMED;
    return bits;
}

// A step that is equal to a listed one names its states like any other, and that is all, whatever the tables hold.
static void check_repeat(Lent *l, Update u, size_t news)
{
    Table *marks = &l->table[MARKS], *status = &l->table[STATUS];
    size_t states[] = {u.first, u.second};
    for (size_t i = 0; i < 2; i++) {
        table_expect(marks, states[i], table_was(marks, states[i]) | NAMED);
        if (table_was(status, states[i]) == UNSEEN) table_expect(status, states[i], OPEN);
    }
    check(CHECK_REPEAT, news == 0 && lent_unchanged(l));
}

// What holds of an accepted update, but for a close of a closed state and a step that is listed, whatever the tables held: marks, step list
// and state value, the news' form, and what is kept.
static void check_accepted(Lent *l, Update u, size_t news)
{
    static const Name searched[] = {STATUS, SUCCESSOR, IN_HEAD, OUT_HEAD, QUEUE, VISITED, IN_NEXT, OUT_NEXT};
    Table *marks = &l->table[MARKS], *from = &l->table[FROM], *to = &l->table[TO], *key = &l->table[KEY], *list = &l->table[NEWS];
    size_t p = l->steps_before[1], is_step = u.kind == 'E';
    l->steps_before[1] += is_step;
    check(CHECK_VALUE, memcmp(l->steps, l->steps_before, sizeof l->steps) == 0);
    l->steps_before[1] = p;
    table_expect(marks, u.first, table_was(marks, u.first) | mark_bits(u, u.first));
    if (is_step) table_expect(marks, u.second, table_was(marks, u.second) | mark_bits(u, u.second));
    check(CHECK_MARKS, table_same(marks));
    if (is_step) table_expect(from, p, u.first), table_expect(to, p, u.second);
    check(CHECK_STEPS, table_same(from) && table_same(to));
    if (is_step) table_expect(key, p, u.key);
    check(CHECK_KEYS, table_same(key));
    if (!check(CHECK_RISING, news <= l->n && rising_below(words(l, NEWS), news, l->n))) return;
    table_expect_free(list, 0, news);
    int kept = table_same(list);
    for (size_t i = 0; i < sizeof searched / sizeof *searched; i++) {
        Table *t = &l->table[searched[i]];
        table_expect_free(t, 0, lent_needed(l, searched[i]));
        kept &= table_same(t);
    }
    check(CHECK_KEPT, kept);
}

static int is_listed(const Lent *l, Update u) { return reference_listed(l->steps[1], words(l, FROM), words(l, TO), bytes(l, KEY), u); }

static int number_of(const Lent *l, Update u)
{
    int number = reference_lent(l->n, l->limit, l->steps[1], lent_enough(l, ALL_TABLES));
    return number ? number : reference_sent(l->n, l->limit, l->steps[1], bytes(l, MARKS), is_listed(l, u), u);
}

// One call, held to its number and to what holds on any tables. Answers whether it was rightly accepted, with the number of its news.
static int call(Lent *l, Update u, size_t *news)
{
    int number = number_of(l, u), again = !number && reference_again(bytes(l, MARKS), u), repeat = !number && is_listed(l, u);
    shown_lent = l, shown_update = u;
    lent_keep(l);
    uint32_t answer = lent_update(l, u);
    if (number) {
        refusals[number]++;
        check(CHECK_NUMBER, answer == RADVOINIS_REFUSED + (uint32_t)number);
        check(CHECK_NOTHING, lent_unchanged(l));
        return 0;
    }
    if (!check(CHECK_NUMBER, answer < RADVOINIS_REFUSED)) return 0;
    repeats += (unsigned)repeat, repeats_when_full += repeat && l->steps[1] == l->limit;
    if (again) closed_again++, check(CHECK_AGAIN, answer == 0 && lent_unchanged(l));
    else if (repeat) check_repeat(l, u, answer);
    else check_accepted(l, u, answer);
    *news = answer;
    return !failed;
}

// ---- one call of a run from fresh tables

// Small runs by the definitions; large ones by the quick search, held to the definitions now and then.
static void classify(const History *h, uint8_t *status)
{
    uint8_t again[MOST_STATES];
    if (h->n <= 12) {
        reference_statuses(h, status);
        return;
    }
    reference_statuses_quick(h, status);
    if (!one_in(h->n <= 128 ? 64 : h->n * 8)) return;
    reference_statuses(h, again);
    check(CHECK_REFERENCE, memcmp(again, status, h->n) == 0);
}

static int verdicts_stay(size_t n, const uint8_t *before, const uint8_t *after)
{
    for (size_t s = 0; s < n; s++)
        if ((before[s] == LIVE || before[s] == DEAD) && after[s] != before[s]) return 0;
    return 1;
}

static int same_news(const Lent *l, size_t news, const uint8_t *before, const uint8_t *after)
{
    uint16_t want[MOST_STATES];
    size_t count = reference_news(l->n, before, after, want);
    for (size_t i = 0; i < count; i++) after[want[i]] == LIVE ? made_live++ : made_dead++;
    return news == count && memcmp(want, words(l, NEWS), 2 * count) == 0;
}

static int questions_agree(const Lent *l, const uint8_t *status)
{
    size_t turns = l->n <= 4 ? l->n : 4;
    for (size_t i = 0; i < turns; i++) {
        size_t s = turns == l->n ? i : below(l->n);
        if (radvoinis_state_status(l->n, l->limit, l->steps[1], bytes(l, STATUS), l->table[STATUS].told, s) != status[s]) return 0;
    }
    return 1;
}

// The tables after an accepted update of a run, against the history.
static void check_run(Run *r, size_t news)
{
    const Lent *l = r->lent;
    uint8_t now[MOST_STATES];
    classify(&r->history, now);
    reference_marks(&r->history, r->marks);
    check(CHECK_STAYS, verdicts_stay(l->n, r->status, now));
    check(CHECK_STATUS, memcmp(now, bytes(l, STATUS), l->n) == 0);
    check(CHECK_NEWS, same_news(l, news, r->status, now));
    check(CHECK_MARKS, memcmp(r->marks, bytes(l, MARKS), l->n) == 0);
    check(CHECK_STEPS, same_steps(l, &r->history));
    if (failed) return;
    Tables tables = lent_tables(l);
    size_t chain = fits_successors(&tables);
    if (chain > longest_chain) longest_chain = chain;
    check(CHECK_SUCCESSOR, chain > 0);
    check(CHECK_LISTS, fits_lists(&tables));
    check(CHECK_VISITED, fits_visited(&tables));
    check(CHECK_QUESTION, questions_agree(l, now));
    check(CHECK_LENGTH, radvoinis_news_len(words(l, NEWS), l->table[NEWS].told, news) == news);
    memcpy(r->status, now, l->n);
}

// Sends an update and holds the engine to the history. Answers whether it was accepted, with the number of its news.
static int run_send(Run *r, Update u, size_t *news)
{
    const Lent *l = r->lent;
    shown_history = &r->history;
    int repeat = history_lists(&r->history, u), number = reference_sent(l->n, l->limit, r->history.steps, r->marks, repeat, u);
    int accepted = call(r->lent, u, news);
    check(CHECK_NUMBER, accepted == !number);
    if (!accepted || failed) return 0;
    if (repeat) check(CHECK_REPEAT, memcmp(r->status, bytes(l, STATUS), l->n) == 0 && memcmp(r->marks, bytes(l, MARKS), l->n) == 0);
    history_add(&r->history, u);
    check_run(r, *news);
    return !failed;
}

static void run_sent(Run *r, Update u)
{
    size_t news;
    run_send(r, u, &news);
}

static Lent lent_a, lent_b;
static Run full = {.lent = &lent_a, .send = run_sent}, thin = {.lent = &lent_b};

// ---- the marked examples of document 01, their answers as it gives them; closes of closed states, keys and steps that come again, by
// document 02, which changes the eleventh

typedef struct {
    const char *updates;    // a step by another key than 0 has it behind a colon
    size_t limit;
    int refused;
    const char *news;
    int verdict;
    const char *statuses;
} Example;

static const Example examples[] = {
    {"C0", 4, 0, "0", DEAD, NULL},
    {"E00 C0", 4, 0, "0", DEAD, NULL},
    {"E01 E10 C0", 4, 0, "", 0, "210"},
    {"E01 E10 C0 C1", 4, 0, "01", DEAD, NULL},
    {"E01 E10 E12 C0 C1", 4, 0, "", 0, "221"},
    {"E01 E10 E12 C0 C1 C2", 4, 0, "012", DEAD, NULL},
    {"E01 E10 E12 C0 C1 T2", 4, 0, "012", LIVE, NULL},
    {"T0", 4, 0, "0", LIVE, NULL},
    {"T0 C0", 4, 0, "", 0, "300"},
    {"C1 E01", 4, 0, "", 0, "140"},
    {"C1 E01 C0", 4, 0, "0", DEAD, NULL},
    {"C0 E05", 4, 5, "", 0, NULL},
    {"E01 E01", 1, 0, "", 0, "110"},
    {"E01 E01 E10", 1, 9, "", 0, NULL},
    {"E01 E01 E01:1", 1, 9, "", 0, NULL},
    {"E01 E01 T0", 1, 0, "0", LIVE, NULL},
    {"T0 E01 E12 C1 C2", 4, 0, "12", DEAD, NULL},
    {"T0 E12 C1 C2", 4, 0, "12", DEAD, NULL},
    {"C0 C0", 4, 0, "", 0, "400"},
    {"T0 C0 C0", 4, 0, "", 0, "300"},
    {"E01 C0 C0", 4, 0, "", 0, "210"},
    {"E01 E10 C0 C1 C0", 4, 0, "", 0, "440"},
    {"E01:31", 4, 0, "", 0, "110"},
    {"E01:32", 4, 14, "", 0, NULL},
    {"E05:32", 4, 5, "", 0, NULL},
    {"C0 E01:32", 4, 14, "", 0, NULL},
    {"C0 E01:31", 4, 6, "", 0, NULL},
    {"E01:7 E01:32", 1, 14, "", 0, NULL},
    {"E01:7 E01:8", 1, 9, "", 0, NULL},
    {"E01:7 E01:8 E01:9", 2, 9, "", 0, NULL},
    {"E01:7 E01:8 C0 C1", 2, 0, "01", DEAD, NULL},
    {"E01:7 E01:8 C0 T1", 2, 0, "01", LIVE, NULL},
    {"E01:7 E01:8 E01:7", 2, 0, "", 0, "110"},
    {"E01:7 E01:8 E01:8", 2, 0, "", 0, "110"},
    {"E01 E01 E01 E12", 2, 0, "", 0, "111"},
    {"E01 E01 E12 E02", 2, 9, "", 0, NULL},
    {"E01 E01 E12 E01:32", 2, 14, "", 0, NULL},
    {"E01 C0 E01", 1, 6, "", 0, NULL},
    {"E01 C0 E01", 4, 6, "", 0, NULL},
    {"E01 C1 E01", 1, 0, "", 0, "140"},
    {"E01 T1 E01", 1, 0, "", 0, "330"},
    {"E01 E10 E01 C0 C1", 2, 0, "01", DEAD, NULL},
    {"E00:31 E00:31 C0", 1, 0, "0", DEAD, NULL},
    {"T0 E01 E01 E12 C1 C2", 2, 0, "12", DEAD, NULL},
    {"T0 E01 E12 C1 C2", 2, 0, "12", DEAD, NULL},
};

static int example_ends(const Example *x, uint32_t answer)
{
    const Lent *l = &lent_a;
    if (x->refused) return answer == RADVOINIS_REFUSED + (uint32_t)x->refused;
    if (answer != strlen(x->news)) return 0;
    for (size_t i = 0; i < answer; i++) {
        size_t s = (size_t)(x->news[i] - '0');
        if (words(l, NEWS)[i] != s || bytes(l, STATUS)[s] != x->verdict) return 0;
    }
    for (size_t s = 0; x->statuses && s < 3; s++)
        if (bytes(l, STATUS)[s] != x->statuses[s] - '0') return 0;
    return 1;
}

static void group_examples(void)
{
    for (size_t i = 0; i < sizeof examples / sizeof *examples; i++) {
        const Example *x = &examples[i];
        uint32_t answer = 0;
        lent_size(&lent_a, 3, x->limit, 0);
        lent_fresh(&lent_a);
        for (const char *c = x->updates; *c; c += *c == ' ') {
            Update u = {(uint8_t)*c++, (size_t)(*c - '0'), 0, 0};
            c++;
            if (u.kind == 'E') u.second = (size_t)(*c++ - '0');
            if (*c == ':') {
                char *end;
                u.key = strtoul(c + 1, &end, 10);
                c = end;
            }
            shown_lent = &lent_a, shown_update = u;
            answer = lent_update(&lent_a, u);
        }
        check(CHECK_EXAMPLE, example_ends(x, answer));
    }
}

// ---- every short list

static void group_lists_2(void) { every_list(&full, 2, 2, 5, 3); }
static void group_lists_2_long(void) { every_list(&full, 2, 3, by_scale(6, 7, 8), 2); }
static void group_lists_3(void) { every_list(&full, 3, 2, 4, 4); }
static void group_lists_3_long(void) { every_list(&full, 3, 4, by_scale(5, 6, 6), 3); }
static void group_lists_keyed(void) { every_keyed_list(&full, 2, 2, by_scale(3, 4, 5), 2); }

// ---- the reference against itself: dead by reach and by continuations; state by state and by search

static void continuations(History *h, size_t depth)
{
    uint8_t status[MOST_STATES], marks[MOST_STATES];
    reference_statuses(h, status);
    for (size_t s = 0; s < h->n; s++)
        if (status[s] != UNSEEN) check(CHECK_REFERENCE, (status[s] == DEAD) == !reference_can_live(h, s, 2));
    if (depth == 0) return;
    reference_marks(h, marks);
    for (size_t i = 0; i < updates_over(h->n) && !failed; i++) {
        Update u = nth_update(h->n, i);
        if (!reference_legal(marks, u)) continue;
        history_add(h, u);
        continuations(h, depth - 1);
        history_drop(h);
    }
}

static void group_continuations(void)
{
    History h = {0};
    shown_lent = NULL;
    history_start(&h, 2, 8);
    continuations(&h, 4);
    history_start(&h, 3, 8);
    continuations(&h, 3);
    history_end(&h);
}

static void group_references(void)
{
    uint8_t naive[MOST_STATES], quick[MOST_STATES];
    History h = {0};
    for (size_t i = 0; i < rounds(4000) && !failed; i++) {
        size_t n = 1 + below(one_in(50) ? 300 : 24), closes = 1 + below(4), marks = below(3);
        history_start(&h, n, MOST_STEPS);
        for (size_t k = below(4 * n); k > 0; k--) {
            size_t kind = below(5 + closes + marks);
            history_add(&h, (Update){kind < 5 ? 'E' : kind < 5 + closes ? 'C' : 'T', below(n), below(n), some_key()});
        }
        reference_statuses(&h, naive);
        reference_statuses_quick(&h, quick);
        check(CHECK_REFERENCE, memcmp(naive, quick, n) == 0);
    }
    history_end(&h);
}

// ---- random runs

static void group_runs_small(void)
{
    for (size_t i = 0; i < rounds(20000) && !failed; i++) {
        progress(i, rounds(20000));
        mixed_run(&full, 1 + below(12), 1 + below(24), 10 + below(50));
    }
}

static void group_runs_medium(void)
{
    for (size_t i = 0; i < rounds(400) && !failed; i++) {
        progress(i, rounds(400));
        mixed_run(&full, 13 + below(116), 20 + below(400), 500);
    }
}

static void group_runs_large(void)
{
    for (size_t i = 0; i < by_scale(1, 2, 2); i++) full_list_run(&full, 3 * i);
    for (size_t i = 0; i < rounds(10) && !failed; i++) {
        size_t n = i % 2 ? 2048 - below(3) : 129 + below(1900), limit = i % 3 ? 8192 - below(3) : 1 + below(8192);
        progress(i, rounds(10));
        mixed_run(&full, n, limit, i % 2 ? 14000 : 4000);
    }
}

static void group_chains(void)
{
    for (size_t i = 0; i < rounds(400) && !failed; i++) {
        progress(i, rounds(400));
        if (i % 40 == 0) chain_run(&full, 2048 - below(2), i / 40 % 3, i % 80 ? 50 : 0, i % 80 ? 500 : 0);
        else chain_run(&full, 2 + below(one_in(4) ? 200 : 40), below(3), 2 * below(4), one_in(2) ? 10 : 0);
    }
}

static void group_graphs(void)
{
    for (size_t i = 0; i < rounds(300) && !failed; i++) {
        size_t n = i % 60 == 0 ? 2048 - below(1000) : 2 + below(one_in(4) ? 200 : 30);
        progress(i, rounds(300));
        graph_run(&full, n, one_in(4) ? 1 + below(2 * n) : 4 * n);
    }
}

// ---- pruned runs

static int same_where_named(void)
{
    for (size_t s = 0; s < full.lent->n; s++)
        if ((thin.marks[s] & NAMED) && bytes(full.lent, STATUS)[s] != bytes(thin.lent, STATUS)[s]) return 0;
    return 1;
}

// Sends an update to the full run and, where that accepts it and it is not left out, to the pruned one.
static void send_both(Update u, int leave)
{
    size_t news, pruned;
    int live = u.first < full.lent->n && full.status[u.first] == LIVE, again = live && reference_again(full.marks, u);
    int repeat = history_lists(&full.history, u);
    if (!run_send(&full, u, &news)) return;
    if (live && leave) {
        left_out_again += (unsigned)again, left_out_repeats += (unsigned)repeat;
        check(CHECK_LEFT_OUT, news == 0);
        return;
    }
    new_to_the_pruned += repeat && !history_lists(&thin.history, u);
    int accepted = run_send(&thin, u, &pruned);
    check(CHECK_PRUNED, accepted && news == pruned && memcmp(words(full.lent, NEWS), words(thin.lent, NEWS), 2 * news) == 0);
    check(CHECK_PRUNED, same_where_named());
}

static void start_both(size_t n, size_t limit)
{
    run_start(&full, n, limit);
    run_start_beside(&thin, &full);
}

// Every list over n states with every choice of what is left out.
static void every_pruned(size_t n, size_t depth, int first)
{
    SavedRun here, there;
    if (depth == 0) return;
    run_save(&full, &here), run_save(&thin, &there);
    for (size_t i = 0; i < updates_over(n) && !failed; i++) {
        Update u = nth_update(n, i);
        int choices = full.status[u.first] == LIVE ? 2 : 1;
        if (first) progress(i, updates_over(n));
        for (int leave = 0; leave < choices; leave++) {
            send_both(u, leave);
            every_pruned(n, depth - 1, 0);
            run_restore(&full, &here), run_restore(&thin, &there);
        }
    }
}

static void group_pruned_every(void)
{
    start_both(2, 3);
    every_pruned(2, by_scale(5, 6, 7), 1);
    start_both(3, 4);
    every_pruned(3, by_scale(4, 5, 5), 1);
}

static void pruned_run(size_t n, size_t limit, size_t updates)
{
    size_t steps = 1 + below(8), terminals = 1 + below(3), closes = 1 + below(5), leave = below(5), near = one_in(2) ? 1 + below(4) : 0;
    size_t again = below(4);
    start_both(n, limit);
    for (size_t i = 0; i < updates && !failed; i++) {
        size_t kind = below(steps + terminals + closes);
        Update u = {kind < steps ? 'E' : kind < steps + terminals ? 'T' : 'C', below(n + one_in(16)), 0, 0};
        if (u.kind == 'T' && n > 24 && !one_in(n / 12)) u.kind = 'E';
        u.second = target(n, u.first, near), u.key = one_in(32) ? far_key() : key_for(u.kind);
        if (u.kind == 'E' && full.history.steps > 0 && again && one_in(2 * again)) u = full.history.listed[below(full.history.steps)];
        send_both(u, leave == 4 || below(4) < leave);
    }
    Update last = {'C', below(n), 0, far_key()};
    for (size_t i = 0; i < 3 && !failed; i++) send_both(last, leave == 4 || below(4) < leave);
}

static void group_pruned_random(void)
{
    for (size_t i = 0; i < rounds(2000) && !failed; i++) {
        progress(i, rounds(2000));
        if (i % 500 == 499) pruned_run(300 + below(1749), 8192 - below(6000), 3000);
        else if (i % 20 == 19) pruned_run(13 + below(80), 1 + below(400), 300);
        else pruned_run(1 + below(12), 1 + below(24), 50);
    }
}

// ---- visited marks in full entries, and in entries that are not full

static void group_around_full_entries(void)
{
    for (size_t i = 0; i < rounds(400) && !failed; i++) {
        size_t n = around_full_entries(i), limit = n + below(3 * n);
        progress(i, rounds(400));
        if (i % 4 == 3) pruned_run(n, limit, 3 * n);
        else large_run(&full, i / 4, n, limit);
    }
}

// ---- tables with any contents and of any length

static void wild_calls(Lent *l, size_t calls)
{
    size_t news;
    shown_history = NULL;
    while (calls-- > 0 && !failed) call(l, wild_update(l), &news);
}

static void group_contents(void)
{
    for (size_t i = 0; i < rounds(200000) && !failed; i++) {
        progress(i, rounds(200000));
        wild_size(&lent_a, 4);
        wild_contents(&lent_a);
        wild_calls(&lent_a, 6);
    }
}

// Tables as a run leaves them, but for a few entries.
static void group_overwritten(void)
{
    for (size_t i = 0; i < rounds(20000) && !failed; i++) {
        Lent *l = &lent_a;
        progress(i, rounds(20000));
        wild_size(l, 4);
        lent_fresh(l);
        for (size_t k = below(30); k > 0; k--) lent_update(l, wild_update(l));
        wild_overwrite(l, 1 + below(4));
        wild_calls(l, 6);
    }
}

static void group_lengths(void)
{
    for (size_t i = 0; i < rounds(200000) && !failed; i++) {
        progress(i, rounds(200000));
        wild_lengths(&lent_a);
        wild_contents(&lent_a);
        wild_values(&lent_a);
        wild_calls(&lent_a, 4);
    }
}

static void group_told(void)
{
    for (size_t i = 0; i < rounds(20000) && !failed; i++) {
        progress(i, rounds(20000));
        wild_told(&lent_a);
        one_in(2) ? lent_fresh(&lent_a) : wild_contents(&lent_a);
        wild_calls(&lent_a, 12);
    }
}

// ---- steps that are listed, and such that are not

// A step that differs from u in one, two or all of from, to and key; in one bit, or anyhow.
static Update unlike(Update u)
{
    size_t which = 1 + below(7);
    if (which & 1) u.first ^= one_in(2) ? 1u << below(16) : 1 + below(65535);
    if (which & 2) u.second ^= one_in(2) ? 1u << below(16) : 1 + below(65535);
    if (which & 4) u.key ^= one_in(2) ? 1u << below(8) : 1 + below(255);
    return u;
}

// Every entry of the list, and those behind it, as far as the tables go: steps that are not u. With `ends`, most have its two ends.
static void fill_unlike(Lent *l, Update u, size_t ends)
{
    for (size_t p = 0; p < l->limit; p++) {
        Update other = unlike(u);
        if (ends && !one_in(3)) other = (Update){'E', u.first, u.second, (u.key + 1 + below(255)) % 256};
        lent_list(l, p, other);
    }
}

// The lists of steps: of any contents; each entry a place, whatever stands there; or none.
static void fill_lists(Lent *l, size_t how)
{
    for (size_t s = 0; s < l->n && how < 2; s++) words(l, OUT_HEAD)[s] = (uint16_t)(how ? below(l->steps[1] + 2) : 0);
    for (size_t p = 0; p < l->limit && how < 2; p++) words(l, OUT_NEXT)[p] = (uint16_t)(how ? below(p + 2) : 0);
}

// Calls on a list of so many steps, full or not: u is at one place, or at two, in the list or behind it.
static void call_listed(size_t steps, size_t place)
{
    static const size_t more[] = {0, 0, 1, 300};
    Lent *l = &lent_a;
    size_t n = 1 + below(one_in(2) ? 4 : MOST_STATES), room = steps + more[below(4)], limit = room < MOST_STEPS ? room : MOST_STEPS, news;
    Update u = {'E', below(n), below(n), some_key()};
    lent_size(l, n, limit, 4);
    wild_contents(l);
    l->steps[1] = steps;
    fill_unlike(l, u, one_in(2));
    fill_lists(l, below(3));
    if (!one_in(16)) table_set(&l->table[MARKS], u.first, table_get(&l->table[MARKS], u.first) & ~(size_t)CLOSED);
    if (one_in(8)) table_set(&l->table[STATUS], one_in(2) ? u.first : u.second, UNSEEN);
    if (place < limit) lent_list(l, place, u);
    if (one_in(4)) lent_list(l, below(limit), u);
    call(l, u, &news);
    if (!failed && one_in(2)) call(l, u, &news);    // what was new is listed now, or refused again
    if (!failed && one_in(2)) u.key = (u.key + 16) % (MOST_KEY + 1), call(l, u, &news);
}

// Lists of every length around the powers of two, and an equal step at the first places, at the last ones, around every 256th, right behind
// the list, and anywhere.
static void group_listed(void)
{
    static const size_t lengths[] = {1,   2,   3,   7,   8,   9,   15,  16,  17,  31,  32,   33,   63,   64,   65,   127,  128,  129,  254,  255,
                                     256, 257, 258, 300, 511, 512, 513, 767, 768, 769, 1024, 1025, 2048, 4095, 4096, 4097, 8190, 8191, 8192};
    enum { LENGTHS = sizeof lengths / sizeof *lengths };
    shown_history = NULL;
    for (size_t round = 0; round < by_scale(1, 2, 10); round++)
        for (size_t i = 0; i < LENGTHS && !failed; i++) {
            size_t steps = lengths[i];
            progress(i, LENGTHS);
            for (size_t k = 0; k < 6 && !failed; k++) {
                call_listed(steps, k), call_listed(steps, steps + 2 - k);
                call_listed(steps, below(steps));
            }
            for (size_t at = 256; at <= steps + 1 && !failed; at += at < 1024 ? 256 : 256 * (1 + below(8)))
                for (size_t k = 0; k < 4 && !failed; k++) call_listed(steps, at - 2 + k);
        }
}

// Every place of lists of up to 40 steps, and the two behind.
static void group_listed_short(void)
{
    shown_history = NULL;
    for (size_t round = 0; round < rounds(20); round++)
        for (size_t steps = 1; steps <= 40 && !failed; steps++)
            for (size_t place = 0; place <= steps + 1 && !failed; place++) call_listed(steps, place);
}

// More steps out of one state than a look along its own would meet, all of them again, in some order; then others, and all once more when
// the list is full.
static void group_repeated_runs(void)
{
    for (size_t i = 0; i < rounds(200) && !failed; i++) {
        size_t n = 1 + below(3), all = n * n * (MOST_KEY + 1), limit = 1 + below(one_in(2) ? all : 40);
        progress(i, rounds(200));
        run_start(&full, n, limit);
        for (size_t k = 0; k < 3 * limit && !failed; k++) {
            if (full.history.steps > 0 && one_in(2)) run_sent(&full, full.history.listed[below(full.history.steps)]);
            else run_sent(&full, (Update){'E', below(n), below(n), below(MOST_KEY + 1)});
            if (one_in(3 * limit)) run_sent(&full, (Update){one_in(2) ? 'C' : 'T', below(n), 0, 0});
        }
        for (size_t p = 0; p < full.history.steps && !failed; p++) run_sent(&full, full.history.listed[p]);
    }
}

// ---- numbers up to the largest

static void call_some(Lent *l)
{
    size_t news;
    call(l, (Update){"ETC"[below(3)], below(8), below(8), below(MOST_KEY + 4)}, &news);
}

static void group_values(void)
{
    shown_history = NULL;
    each_value(&lent_a, 8, 8, call_some);
    each_value(&lent_a, 2048, 8192, call_some);
}

// Every pair of state numbers among the edges; the second of a terminal mark or a close means nothing.
static void group_states(void)
{
    static const size_t sizes[] = {1, 2, 8, 256, 2047, 2048};
    Lent *l = &lent_a;
    size_t news;
    shown_history = NULL;
    for (size_t i = 0; i < 6 * 3 * EDGES * EDGES && !failed; i++) {
        progress(i, 6 * 3 * EDGES * EDGES);
        if (i % 50 == 0) lent_size(l, sizes[i / (3 * EDGES * EDGES)], one_in(2) ? 64 : 1, 0), lent_fresh(l);
        call(l, (Update){"ETC"[i / (EDGES * EDGES) % 3], edges[i / EDGES % EDGES], edges[i % EDGES], edges[below(EDGES)]}, &news);
    }
}

// Keys around 0 and the powers of two, by each kind, from an open state and a closed one, to a state in range and out of it, with a place
// free and with none: 5, 14, 6, 9 in this order. To a terminal mark and a close the key means nothing.
static void group_keys(void)
{
    static const size_t around[] = {0, 0xff80, 0xffff80, 0x7fffff80, 0xffffff80, 0xffffffff80, SIZE_MAX / 2 - 127, SIZE_MAX - 319};
    enum { KEYS = 320, CASES = 3 * 8, ALL = sizeof around / sizeof *around * KEYS * CASES };
    Lent *l = &lent_a;
    size_t news;
    shown_history = NULL;
    lent_size(l, 3, 2, 4);
    for (size_t i = 0; i < ALL && !failed; i++) {
        size_t key = around[i / CASES / KEYS] + i / CASES % KEYS;
        progress(i, ALL);
        lent_fresh(l);
        table_set(&l->table[MARKS], 1, i & 1 ? NAMED : NAMED | CLOSED);
        l->steps[1] = i & 2 ? 1 : 2;
        call(l, (Update){"ETC"[i / 8 % 3], 1, i & 4 ? 2 : 3, key}, &news);
    }
}

// Every kind byte. What is none of the three gets a malformed line's number, behind 1 to 4 and before 5.
static void group_kinds(void)
{
    Lent *l = &lent_a;
    size_t news;
    shown_history = NULL;
    for (size_t i = 0; i < 256 * 64 && !failed; i++) {
        Update u = {(uint8_t)(i % 256), below(4), below(4), below(MOST_KEY + 4)};
        wild_lengths(l);
        wild_contents(l);
        wild_values(l);
        if (one_in(4)) l->n = edges[below(EDGES)];
        if (one_in(4)) l->limit = edges[below(EDGES)];
        if (one_in(4)) u.first = edges[below(EDGES)];
        call(l, u, &news);
    }
}

// Every mark and every status byte of the first state, with a place free and with none: a number turns on the mark's bit, never on the
// status, so that what is sent from a state called dead and not closed goes on to the tests behind. Of closes the same bit says which
// change nothing. A step is at the first place, at the second, which is listed or not, or at none.
static void group_first_state(void)
{
    Lent *l = &lent_a;
    size_t news;
    shown_history = NULL;
    lent_size(l, 3, 2, 0);
    for (size_t i = 0; i < 256 * 256 * 3 * 2 && !failed; i++) {
        progress(i, 256 * 256 * 3 * 2);
        lent_fresh(l);
        table_set(&l->table[MARKS], 1, i % 256), table_set(&l->table[STATUS], 1, i / 256 % 256);
        l->steps[1] = 1 + i / (256 * 256 * 3);
        Update u = {"ETC"[i / (256 * 256) % 3], 1, below(3), one_in(8) ? far_key() : some_key()};
        if (one_in(2)) lent_list(l, below(2), u);
        call(l, u, &news);
    }
}

// ---- the status question and the news length

static void ask(size_t n, size_t limit, size_t steps, size_t told, size_t state)
{
    int number = reference_lent(n, limit, steps, told >= n);
    if (!number && state >= n) number = 5;
    uint32_t want = number ? RADVOINIS_REFUSED + (uint32_t)number : bytes(&lent_a, STATUS)[state];
    check(CHECK_QUESTION, radvoinis_state_status(n, limit, steps, bytes(&lent_a, STATUS), told, state) == want);
}

static void group_question(void)
{
    shown_lent = NULL;
    lent_size(&lent_a, MOST_STATES, 1, 0);
    lent_place(&lent_a, STATUS, MOST_STATES, PAGE_BEHIND);
    lent_keep(&lent_a);
    for (size_t i = 0; i < EDGES * EDGES * EDGES && !failed; i++) {
        size_t n = edges[i / EDGES / EDGES], told[] = {0, n - 1, n, n + 1, MOST_STATES, SIZE_MAX};
        for (size_t k = 0; k < 6; k++) ask(n, edges[below(EDGES)], edges[below(EDGES)], told[k], edges[below(EDGES)]);
        ask(n, edges[i / EDGES % EDGES], edges[i % EDGES], told[below(6)], below(MOST_STATES));
        ask(1 + below(MOST_STATES), 1 + below(MOST_STEPS), below(2), MOST_STATES, below(MOST_STATES));
    }
    check(CHECK_NOTHING, lent_unchanged(&lent_a));
}

static void group_news_length(void)
{
    shown_lent = NULL;
    for (size_t length = 0; length < 300 && !failed; length++) {
        lent_size(&lent_a, 1, 1, 0);
        lent_place(&lent_a, NEWS, length, PAGE_BEHIND);
        lent_keep(&lent_a);
        for (size_t count = 0; count < 310; count++)
            check(CHECK_LENGTH, radvoinis_news_len(words(&lent_a, NEWS), length, count) == (count <= length ? count : 0));
        for (size_t i = 0; i < EDGES; i++)
            check(CHECK_LENGTH, radvoinis_news_len(words(&lent_a, NEWS), length, edges[i]) == (edges[i] <= length ? edges[i] : 0));
        check(CHECK_NOTHING, lent_unchanged(&lent_a));
    }
}

// ---- all groups

static const Group groups[] = {
    {"the marked examples", group_examples},
    {"reference: dead by reach and by continuations", group_continuations},
    {"reference: state by state and by search", group_references},
    {"every list of up to 5 updates, 2 states, limit 2, a state out of range", group_lists_2},
    {"every longer list, 2 states, limit 3", group_lists_2_long},
    {"every list of up to 4 updates, 3 states, limit 2, a state out of range", group_lists_3},
    {"every longer list, 3 states, limit 4", group_lists_3_long},
    {"every list of up to 4 updates, 2 states, limit 2, keys 0, 31, 32 and 256", group_lists_keyed},
    {"random runs, up to 12 states", group_runs_small},
    {"random runs, up to 128 states", group_runs_medium},
    {"random runs, up to 2,048 states and 8,192 steps", group_runs_large},
    {"rings and lines: long chains of successors", group_chains},
    {"random graphs, read state by state", group_graphs},
    {"pruned runs, every short list and every choice", group_pruned_every},
    {"pruned runs, random", group_pruned_random},
    {"runs and pruned runs, 16 states and multiples of it, one less and one more", group_around_full_entries},
    {"steps that come again, many out of one state", group_repeated_runs},
    {"listed and not: at the edges of lists of up to 8,192 steps, work tables of any contents", group_listed},
    {"listed and not: every place of short lists, work tables of any contents", group_listed_short},
    {"tables of random contents", group_contents},
    {"tables of a run, some entries overwritten", group_overwritten},
    {"tables of random lengths", group_lengths},
    {"tables told longer than they are", group_told},
    {"n, limit and steps up to the largest number", group_values},
    {"state numbers up to the largest number", group_states},
    {"keys up to the largest number", group_keys},
    {"every kind byte", group_kinds},
    {"every mark and status byte of the first state", group_first_state},
    {"the status question", group_question},
    {"the news length", group_news_length},
};

static void show_counts(void)
{
    printf("%lu calls of the engine's update; %lu states made live, %lu made dead; longest chain of successors %lu\n", calls_made,
           made_live, made_dead, longest_chain - 1);
    printf("refusals:");
    for (int i = 1; i <= 6; i++) printf(" %d: %lu,", i, refusals[i]);
    printf(" 9: %lu, 11: %lu, 14: %lu\n", refusals[9], refusals[11], refusals[14]);
    printf("closes of closed states: %lu; left out of pruned runs: %lu\n", closed_again, left_out_again);
    printf("repeated steps: %lu, of them where the list was full: %lu; left out of pruned runs: %lu, new to them: %lu\n", repeats,
           repeats_when_full, left_out_repeats, new_to_the_pruned);
}

int main(int argc, char **argv)
{
    static const Suite suite = {groups, sizeof groups / sizeof *groups, check_names, CHECKS, show_run, show_counts};
    lent_make(&lent_a), lent_make(&lent_b);
    return suite_run(&suite, argc, argv);
}
