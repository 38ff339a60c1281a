// The lent tables.
#include "lent.h"
#include "../include/radvoinis.h"
#include "groups.h"
#include "random.h"
#include <stdlib.h>
#include <string.h>

enum { MOST_ENTRIES = MOST_STEPS + 64 };

static int by_step(Name k) { return k == FROM || k == TO || k == KEY || k == IN_NEXT || k == OUT_NEXT; }

size_t lent_width(Name k) { return k == STATUS || k == MARKS || k == KEY ? 1 : 2; }

void lent_make(Lent *l)
{
    *l = (Lent){0};
    for (Name k = 0; k < TABLES; k++) table_make(&l->table[k], lent_width(k), MOST_ENTRIES);
}

void lent_place(Lent *l, Name k, size_t length, Side side) { table_place(&l->table[k], length, side); }

size_t lent_needed(const Lent *l, Name k)
{
    if (k == VISITED) return l->n / 16 + (l->n % 16 > 0);
    return by_step(k) ? l->limit : l->n;
}

uint16_t lent_spare_bits(const Lent *l) { return l->n % 16 ? (uint16_t)(0xffffu << l->n % 16) : 0; }

void lent_size(Lent *l, size_t n, size_t limit, size_t extra)
{
    l->n = n, l->limit = limit;
    for (Name k = 0; k < TABLES; k++) lent_place(l, k, lent_needed(l, k) + below(extra + 1), (Side)below(2));
}

void lent_fresh(Lent *l)
{
    static const Name zero[] = {STATUS, MARKS, IN_HEAD, OUT_HEAD, QUEUE, VISITED, IN_NEXT, OUT_NEXT};
    for (size_t i = 0; i < sizeof zero / sizeof *zero; i++) {
        Name k = zero[i];
        memset(l->table[k].at, 0, lent_needed(l, k) * l->table[k].width);
    }
    memset(l->table[SUCCESSOR].at, 255, l->n * 2);
    l->steps[0] = (size_t)random_word(), l->steps[1] = 0, l->steps[2] = (size_t)random_word();
}

void lent_list(Lent *l, size_t p, Update u)
{
    table_set(&l->table[FROM], p, u.first), table_set(&l->table[TO], p, u.second), table_set(&l->table[KEY], p, u.key);
}

Tables lent_tables(const Lent *l)
{
    return (Tables){
        .n = l->n,
        .steps = l->steps[1],
        .status = bytes(l, STATUS),
        .marks = bytes(l, MARKS),
        .from = words(l, FROM),
        .to = words(l, TO),
        .key = bytes(l, KEY),
        .successor = words(l, SUCCESSOR),
        .in_head = words(l, IN_HEAD),
        .out_head = words(l, OUT_HEAD),
        .visited = words(l, VISITED),
        .in_next = words(l, IN_NEXT),
        .out_next = words(l, OUT_NEXT),
    };
}

int lent_enough(const Lent *l, unsigned set)
{
    for (Name k = 0; k < TABLES; k++)
        if ((set >> k & 1) && l->table[k].told < lent_needed(l, k)) return 0;
    return 1;
}

void lent_keep(Lent *l)
{
    for (Name k = 0; k < TABLES; k++) table_keep(&l->table[k]);
    memcpy(l->steps_before, l->steps, sizeof l->steps);
}

int lent_unchanged(const Lent *l)
{
    for (Name k = 0; k < TABLES; k++)
        if (!table_same(&l->table[k])) return 0;
    return memcmp(l->steps_before, l->steps, sizeof l->steps) == 0;
}

void lent_save(const Lent *l, Saved *s)
{
    size_t at = 0;
    for (Name k = 0; k < TABLES; k++) {
        if (at + l->table[k].zone_bytes > SAVED_BYTES) abort();
        memcpy(s->zones + at, l->table[k].zone, l->table[k].zone_bytes);
        at += l->table[k].zone_bytes;
    }
    memcpy(s->steps, l->steps, sizeof l->steps);
}

void lent_restore(Lent *l, const Saved *s)
{
    size_t at = 0;
    for (Name k = 0; k < TABLES; k++) {
        memcpy(l->table[k].zone, s->zones + at, l->table[k].zone_bytes);
        at += l->table[k].zone_bytes;
    }
    memcpy(l->steps, s->steps, sizeof l->steps);
}

uint32_t lent_update(Lent *l, Update u)
{
    const Table *t = l->table;
    call_begin();
    uint32_t answer = radvoinis_update(
        l->n, l->limit, &l->steps[1], u.kind, u.first, u.second, u.key, bytes(l, STATUS), t[STATUS].told, bytes(l, MARKS),
        t[MARKS].told, words(l, FROM), t[FROM].told, words(l, TO), t[TO].told, bytes(l, KEY), t[KEY].told, words(l, SUCCESSOR),
        t[SUCCESSOR].told, words(l, NEWS), t[NEWS].told, words(l, IN_HEAD), t[IN_HEAD].told, words(l, OUT_HEAD), t[OUT_HEAD].told,
        words(l, QUEUE), t[QUEUE].told, words(l, VISITED), t[VISITED].told, words(l, IN_NEXT), t[IN_NEXT].told, words(l, OUT_NEXT),
        t[OUT_NEXT].told);
    call_end();
    return answer;
}
