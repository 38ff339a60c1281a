// The memory of one lent table, made to show what is touched: on one side of the table a page that nobody may read or write, on the
// other guard bytes, and beside it all a copy of what was there before the call.
#ifndef TABLE_H
#define TABLE_H

#include <stddef.h>
#include <stdint.h>

// On which side of the table the page is.
typedef enum { PAGE_BEHIND, PAGE_BEFORE } Side;

typedef struct {
    unsigned char *area;      // mapped memory between two pages
    size_t area_bytes;
    unsigned char *at;        // the table
    size_t width;             // bytes of an entry
    size_t length, told;      // entries that are there, and as many as the call is told
    unsigned char *zone;      // the table with its guard bytes
    size_t zone_bytes;
    unsigned char *before;    // the zone as it was, or as it is expected
} Table;

// Memory for a table of at most so many entries.
void table_make(Table *t, size_t width, size_t most);

// Gives the table its length and place, and random contents.
void table_place(Table *t, size_t length, Side side);

// An entry, of one byte or two; and the same in the copy.
size_t table_get(const Table *t, size_t i);
void table_set(Table *t, size_t i, size_t x);
size_t table_was(const Table *t, size_t i);

// Copies the zone, to be compared after the call.
void table_keep(Table *t);

// In the copy, what an entry is expected to be; and entries from a place on, where the call may write what it will.
void table_expect(Table *t, size_t i, size_t x);
void table_expect_free(Table *t, size_t from, size_t entries);

// Whether the table and its guard bytes are as expected.
int table_same(const Table *t);

#endif
