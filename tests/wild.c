// Tables of random contents and lengths.
#include "wild.h"
#include "groups.h"
#include "random.h"
#include "runs.h"

const size_t edges[EDGES] = {
    0, 1, 2, 3, 7, 8, 9, 255, 256, 2047, 2048, 2049, 4096, 8191, 8192, 8193, 65535, 65536, 65537, 65544, 0x7fffffff, 0x80000000,
    0xffffffff, 0x100000000, 0x100000001, 0x100000008, SIZE_MAX / 2, SIZE_MAX / 2 + 1, SIZE_MAX - 1, SIZE_MAX,
};

void wild_size(Lent *l, size_t extra)
{
    if (one_in(500)) lent_size(l, 1 + below(MOST_STATES), 1 + below(MOST_STEPS), extra);
    else lent_size(l, 1 + below(one_in(3) ? 40 : 8), 1 + below(one_in(3) ? 80 : 12), extra);
}

void wild_lengths(Lent *l)
{
    size_t n = 1 + below(one_in(2) ? 12 : 50), limit = 1 + below(24), few = one_in(2) ? 1 : 3;
    lent_size(l, n, limit, 4);
    for (size_t i = below(few + 1); i > 0; i--) {
        Name k = (Name)below(TABLES);
        size_t needed = lent_needed(l, k);
        lent_place(l, k, one_in(4) ? 0 : one_in(2) ? needed - 1 : below(needed), (Side)below(2));
    }
}

void wild_values(Lent *l)
{
    if (one_in(8)) l->steps[1] = l->limit + below(3);
    if (one_in(16)) l->n = one_in(2) ? 0 : MOST_STATES + 1 + below(9);
    if (one_in(16)) l->limit = one_in(2) ? 0 : MOST_STEPS + 1 + below(9);
}

void wild_told(Lent *l)
{
    static const size_t more[] = {1, 8, 4096, SIZE_MAX / 2, SIZE_MAX};
    lent_size(l, 1 + below(20), 1 + below(30), 0);
    for (Name k = 0; k < TABLES; k++) {
        size_t needed = lent_needed(l, k), x = more[below(5)];
        lent_place(l, k, needed, PAGE_BEHIND);
        l->table[k].told = x > SIZE_MAX / 4 ? x : needed + x;
    }
}

size_t wild_entry(const Lent *l, Name k)
{
    static const size_t special[] = {0, 1, 2, 3, 4, 7, 8, 255, 65535};
    size_t how = below(5);
    if (how == 0) return (size_t)random_word();
    if (how == 1) return below(l->n + 2);
    if (how == 2) return below(l->limit + 3);
    if (k == KEY) return below(MOST_KEY + 3);
    return lent_width(k) == 1 ? below(8) : special[below(9)];
}

void wild_contents(Lent *l)
{
    for (Name k = 0; k < TABLES; k++) {
        size_t how = below(4), same = wild_entry(l, k);
        for (size_t i = 0; i < l->table[k].length && how > 0; i++) table_set(&l->table[k], i, how == 1 ? same : wild_entry(l, k));
    }
    l->steps[0] = (size_t)random_word(), l->steps[1] = below(l->limit + 1), l->steps[2] = (size_t)random_word();
}

// One of the listed steps, or the same but for one of from, to and key, where the tables have it.
static Update listed_step(const Lent *l, Update u)
{
    size_t p = below(l->steps[1]), other = below(6), n = l->n ? l->n : 1;
    if (p >= l->table[FROM].length || p >= l->table[TO].length || p >= l->table[KEY].length) return u;
    u = (Update){'E', table_get(&l->table[FROM], p), table_get(&l->table[TO], p), table_get(&l->table[KEY], p)};
    if (other == 0) u.first = below(n);
    if (other == 1) u.second = below(n);
    if (other == 2) u.key = some_key();
    return u;
}

Update wild_update(const Lent *l)
{
    size_t n = l->n ? l->n : 1;
    Update u = {"EEECCT"[below(6)], below(n), below(n), some_key()};
    if (u.kind == 'E' && l->steps[1] > 0 && one_in(3)) return listed_step(l, u);
    if (one_in(20)) u.key = far_key();
    if (one_in(20)) u.first = l->n + below(3);
    if (one_in(20)) u.second = l->n + below(70000);
    return u;
}

void wild_overwrite(Lent *l, size_t entries)
{
    while (entries-- > 0) {
        int listed = l->steps[1] > 0 && one_in(2);
        Name k = listed ? (Name)(FROM + below(2)) : (Name)below(TABLES);
        table_set(&l->table[k], below(listed ? l->steps[1] : lent_needed(l, k)), wild_entry(l, k));
    }
}

void each_short(Lent *l, size_t n, size_t limit, void (*call)(Lent *l))
{
    for (size_t i = 0; i < TABLES * 4 && !failed; i++) {
        Name k = (Name)(i / 4);
        lent_size(l, n, limit, 2);
        lent_fresh(l);
        lent_place(l, k, i % 2 ? 0 : lent_needed(l, k) - 1, (Side)below(2));
        if (i % 4 > 1) l->steps[1] = limit + 1 + below(3);
        call(l);
    }
}

void each_value(Lent *l, size_t n, size_t limit, void (*call)(Lent *l))
{
    for (size_t i = 0; i < EDGES * EDGES * EDGES && !failed; i++) {
        progress(i, EDGES * EDGES * EDGES);
        if (i % 97 == 0) lent_size(l, n, limit, 0), lent_fresh(l);
        l->n = edges[i / EDGES / EDGES], l->limit = edges[i / EDGES % EDGES], l->steps[1] = edges[i % EDGES];
        call(l);
    }
}

void each_refusal(Lent *l, void (*shortened)(Lent *l), void (*valued)(Lent *l))
{
    static const size_t sizes[][2] = {{1, 1}, {2, 3}, {7, 5}, {15, 2}, {16, 2}, {17, 2}, {32, 9}, {33, 9}, {2032, 9}, {2033, 9}, {2047, 8191}, {2048, 8192}};
    shown_history = NULL;
    for (size_t i = 0; i < sizeof sizes / sizeof *sizes; i++) each_short(l, sizes[i][0], sizes[i][1], shortened);
    each_value(l, 8, 8, valued);
    each_value(l, 2048, 8192, valued);
}
