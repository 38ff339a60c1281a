// The memory of a lent table and its guards.
#include "table.h"
#include "random.h"
#include <stdlib.h>
#include <string.h>
#include <sys/mman.h>

enum { PAGE = 4096, GUARD = 32 };

void table_make(Table *t, size_t width, size_t most)
{
    size_t size = (width * most + GUARD + PAGE - 1) / PAGE * PAGE;
    unsigned char *pages = mmap(NULL, size + 2 * PAGE, PROT_NONE, MAP_PRIVATE | MAP_ANONYMOUS, -1, 0);
    if (pages == MAP_FAILED || mprotect(pages + PAGE, size, PROT_READ | PROT_WRITE)) abort();
    *t = (Table){.area = pages + PAGE, .area_bytes = size, .width = width, .before = malloc(size)};
    if (!t->before) abort();
}

static void fill(unsigned char *at, size_t count)
{
    for (size_t i = 0; i < count; i += 8) {
        uint64_t x = random_word();
        memcpy(at + i, &x, count - i < 8 ? count - i : 8);
    }
}

void table_place(Table *t, size_t length, Side side)
{
    size_t size = length * t->width;
    if (size + GUARD > t->area_bytes) abort();
    t->length = t->told = length;
    t->at = side == PAGE_BEHIND ? t->area + t->area_bytes - size : t->area;
    t->zone = side == PAGE_BEHIND ? t->at - GUARD : t->at;
    t->zone_bytes = size + GUARD;
    fill(t->zone, t->zone_bytes);
}

static size_t get(const unsigned char *at, size_t width, size_t i)
{
    return width == 1 ? at[i] : ((const uint16_t *)(const void *)at)[i];
}

static void put(unsigned char *at, size_t width, size_t i, size_t x)
{
    if (width == 1) at[i] = (uint8_t)x;
    else ((uint16_t *)(void *)at)[i] = (uint16_t)x;
}

static unsigned char *copy_of(const Table *t) { return t->before + (t->at - t->zone); }

size_t table_get(const Table *t, size_t i) { return get(t->at, t->width, i); }

void table_set(Table *t, size_t i, size_t x) { put(t->at, t->width, i, x); }

size_t table_was(const Table *t, size_t i) { return get(copy_of(t), t->width, i); }

void table_keep(Table *t) { memcpy(t->before, t->zone, t->zone_bytes); }

void table_expect(Table *t, size_t i, size_t x) { put(copy_of(t), t->width, i, x); }

void table_expect_free(Table *t, size_t from, size_t entries)
{
    memcpy(copy_of(t) + from * t->width, t->at + from * t->width, entries * t->width);
}

int table_same(const Table *t) { return memcmp(t->before, t->zone, t->zone_bytes) == 0; }
