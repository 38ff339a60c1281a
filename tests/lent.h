// The tables that a call is lent, each in memory that shows what is touched.
#ifndef LENT_H
#define LENT_H

#include "fitting.h"
#include "table.h"

typedef enum { STATUS, MARKS, FROM, TO, KEY, SUCCESSOR, NEWS, IN_HEAD, OUT_HEAD, QUEUE, VISITED, IN_NEXT, OUT_NEXT, TABLES } Name;

typedef struct {
    Table table[TABLES];
    size_t n, limit;
    size_t steps[3];          // the number of steps stands in the middle
    size_t steps_before[3];
} Lent;

void lent_make(Lent *l);

// Gives a table its length and place, and random contents.
void lent_place(Lent *l, Name k, size_t length, Side side);

// Places all tables for n states and a step limit, each with up to `extra` entries more than needed.
void lent_size(Lent *l, size_t n, size_t limit, size_t extra);

// Fresh tables: the needed entries as document 01 has them, random contents elsewhere.
void lent_fresh(Lent *l);

static inline uint8_t *bytes(const Lent *l, Name k) { return l->table[k].at; }
static inline uint16_t *words(const Lent *l, Name k) { return (uint16_t *)(void *)l->table[k].at; }

// Puts a step at a place of the step list, or behind it; the number of steps stays.
void lent_list(Lent *l, size_t p, Update u);

// The tables to be read, where they are long enough.
Tables lent_tables(const Lent *l);

// The bytes of a table's entry; and the entries that it must have: one for each state, or one for each step of the limit; of visited marks,
// a bit for each state.
size_t lent_width(Name k);
size_t lent_needed(const Lent *l, Name k);

// The bits of the last needed entry of visited that are no state's.
uint16_t lent_spare_bits(const Lent *l);

// Whether the tables that a call is lent are long enough; a set of tables has the bit 1 << k for table k.
enum { ALL_TABLES = (1 << TABLES) - 1 };
int lent_enough(const Lent *l, unsigned set);

// Copies all zones and the number of steps, to be compared after the call; and whether all is as it was, or as it was expected.
void lent_keep(Lent *l);
int lent_unchanged(const Lent *l);

// The zones of small tables as one block, to come back to.
enum { SAVED_BYTES = 2048 };
typedef struct {
    unsigned char zones[SAVED_BYTES];
    size_t steps[3];
} Saved;
void lent_save(const Lent *l, Saved *s);
void lent_restore(Lent *l, const Saved *s);

// The engine's update on the tables.
uint32_t lent_update(Lent *l, Update u);

#endif
