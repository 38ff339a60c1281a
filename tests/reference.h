// The naive reference: what documents 01 and 02 say of updates, worked out afresh from the accepted history. It knows nothing of the
// engine.
#ifndef REFERENCE_H
#define REFERENCE_H

#include <stddef.h>
#include <stdint.h>

enum { UNSEEN = 0, OPEN = 1, UNKNOWN = 2, LIVE = 3, DEAD = 4 };
enum { NAMED = 1, TERMINAL = 2, CLOSED = 4 };
enum { MOST_STATES = 2048, MOST_STEPS = 8192, NO_SUCCESSOR = 65535, MOST_KEY = 31 };

// 'E' a step from first to second by a key, 'T' a terminal mark on first, 'C' a close of first.
typedef struct {
    uint8_t kind;
    size_t first, second, key;
} Update;

// The updates that a run over n states accepted, repeats among them; and its list of steps: each that is equal to none before it in from,
// to and key, in their order.
typedef struct {
    size_t n, limit, count, steps, room;
    Update *accepted, *listed;
} History;

void history_start(History *h, size_t n, size_t limit);
int history_lists(const History *h, Update u);        // whether it is a step that is equal to a listed one
void history_add(History *h, Update u);
void history_add_unlike(History *h, Update u);        // the same where it is known to be equal to none
void history_cut(History *h, size_t count, size_t steps);    // what it was when it had so many
void history_drop(History *h);                        // the last update
void history_end(History *h);

// The marks and the statuses of all n states. The second form takes time in proportion to states and updates.
void reference_marks(const History *h, uint8_t *marks);
void reference_statuses(const History *h, uint8_t *status);
void reference_statuses_quick(const History *h, uint8_t *status);

// Whether some legal continuation of at most `updates` updates makes s live.
int reference_can_live(History *h, size_t s, int updates);

// The states that became live or dead between two tables of statuses, in rising order; answers their number.
size_t reference_news(size_t n, const uint8_t *before, const uint8_t *after, uint16_t *news);

// Whether an update is a step that is equal in from, to and key to one of so many that are listed, in tables of any contents.
int reference_listed(size_t steps, const uint16_t *from, const uint16_t *to, const uint8_t *key, Update u);

// The number of the first test that applies, or 0: 1 to 4 of what is lent; 5, 14, 6 and 9, in this order, of what is sent, read off tables
// of any contents. What is none of the three kinds is no update, and gets a malformed line's 11 before 5.
int reference_lent(size_t n, size_t limit, size_t steps, int long_enough);
int reference_sent(size_t n, size_t limit, size_t steps, const uint8_t *marks, int listed, Update u);

// By the marks before it: whether an update in range may follow in a legal history, and whether it is a close of a closed state.
int reference_legal(const uint8_t *marks, Update u);
int reference_again(const uint8_t *marks, Update u);

#endif
