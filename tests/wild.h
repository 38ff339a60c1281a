// Tables of random contents and lengths, and the numbers at the edges.
#ifndef WILD_H
#define WILD_H

#include "lent.h"

// Numbers at and around the bounds, up to the largest.
extern const size_t edges[];
enum { EDGES = 30 };

// Mostly small tables, now and then as large as they get, with up to `extra` entries more than needed.
void wild_size(Lent *l, size_t extra);

// Small tables, some of them too short, or empty, or longer than needed.
void wild_lengths(Lent *l);

// Now and then, an n, a limit or a number of steps that is refused.
void wild_values(Lent *l);

// Small tables that are just long enough, of which the call is told more entries than there are.
void wild_told(Lent *l);

// An entry for a table: anything, a state, a place, or one of the numbers that mean something.
size_t wild_entry(const Lent *l, Name k);
void wild_contents(Lent *l);

// An update that is mostly in range, steps and closes more often than terminal marks; some steps are listed, or nearly so.
Update wild_update(const Lent *l);

// Calls on fresh tables each of which in turn is too short by one or empty, with a number of steps within the limit and above it.
void each_short(Lent *l, size_t n, size_t limit, void (*call)(Lent *l));

// Calls with every n, limit and number of steps among the edges, on tables that are long enough for this n and limit.
void each_value(Lent *l, size_t n, size_t limit, void (*call)(Lent *l));

// Both, for small tables and for the largest.
void each_refusal(Lent *l, void (*shortened)(Lent *l), void (*valued)(Lent *l));

// Overwrites so many entries at random among those needed, ends of listed steps more often than others.
void wild_overwrite(Lent *l, size_t entries);

#endif
