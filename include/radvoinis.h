/* The verdict engine for C and C++: link libradvoinis.a. radvoinis(3) is the manual page; docs/PROMISES.md says what each call promises.

   An explorer lays out tables once (radvoinis_tables_fresh), sends each update as it comes (radvoinis_step or radvoinis_step_by_key,
   radvoinis_terminal, radvoinis_close), and is told after each one how many states it settled: their numbers stand in the front of
   `news`, their verdicts in `status`. These short calls are thin C over the raw calls below, which are proved: each promises its
   answer and what it leaves in every table, on tables with any contents.

   What a caller must see to, since no call can:
   - Pointers. Each table is readable, and writable where it is not const, over the length that is lent with it (in a radvoinis_tables:
     limit entries for from, to, key, in_next and out_next, n/16, rounded up, for visited, n for the others). No pointer is NULL, also
     where its length is 0 (the memory handed to radvoinis_tables_fresh may be). Tables of 16-bit entries, and the size_t of *steps and
     *at, are aligned as their type asks; bytes may stand anywhere.
   - Tables do not overlap: no two of one call, and none with *steps, *at or the buffer. Two that are const may.
   - n and limit of a radvoinis_tables stay what they were when it was laid out.
   Everything else is tested: any numbers, lengths and table contents get an answer or the number of a refusal, a refused call changes
   nothing, and every call ends.

   Calls are reentrant. They keep nothing between them: no heap, no global, no lock. Threads may call at the same time on different
   tables, and on the same ones where every such call takes them as const.

   Stack: radvoinis_status takes 44 KiB, since its tables are local; every other call less than 1 KiB.

   Cost: a step is looked for among a few out of its source and, where it is none of them, in the whole list, many entries at a time:
   a repeat is mostly found at once, a new step reads the list. Beyond that a step or a terminal mark that makes nothing live takes
   constant time; one that does walks the steps into each state that it makes live, once, and looks over the numbers between the least
   and the greatest of them, sixteen at a time where it makes none of them live. A close looks at the steps out of its state, and at no
   more than 17 states along each; where it meets no open state there, it searches the unknown states whose way out led through it,
   with their steps, at the very most all states and steps. Tens of nanoseconds an update, and for a new step behind thousands of
   others some hundreds: bench/RESULTS.md. */
#ifndef RADVOINIS_H
#define RADVOINIS_H

#include <stddef.h>
#include <stdint.h>

#ifdef __cplusplus
extern "C" {
#endif

#define RADVOINIS_VERSION "1.0.0"
#define RADVOINIS_VERSION_MAJOR 1
#define RADVOINIS_VERSION_MINOR 0
#define RADVOINIS_VERSION_PATCH 0

/* States are numbered from 0 to n - 1, with n from 1 to this; the step limit is from 1 to that. */
#define RADVOINIS_MAX_STATES 2048u
#define RADVOINIS_MAX_STEPS 8192u

/* Each step has a key, from 0 to this. Two steps that differ only in key are two steps; a key changes no verdict. A step that is equal in
   from, to and key to a listed one is a repeat: it is accepted, and takes no place in the list. */
#define RADVOINIS_MAX_KEY 31u

/* A refusal answers this plus its number. */
#define RADVOINIS_REFUSED 65536u

/* radvoinis_status answers a refusal by this plus its number. */
#define RADVOINIS_LINE_REFUSED 16u

/* The numbers of the refusals. A call answers the first that applies, in this order: that of the tests, not of the numbers. */
enum radvoinis_refusal {
    RADVOINIS_BAD_STATES = 1,      /* n is 0 or above 2,048 */
    RADVOINIS_BAD_LIMIT = 2,       /* the step limit is 0 or above 8,192 */
    RADVOINIS_SHORT_TABLE = 3,     /* a lent table is too short */
    RADVOINIS_EXCESS_STEPS = 4,    /* the number of steps is above the limit */
    RADVOINIS_BAD_COUNT = 17,      /* behind a record's line "states", no line with a count from 1 to 2,048 */
    RADVOINIS_OUT_OF_RANGE = 5,    /* a state is n or more; of a record, its count or more, which is 2,048 where it has none */
    RADVOINIS_BAD_KEY = 14,        /* the key of a step is above 31 */
    RADVOINIS_CLOSED_SOURCE = 6,   /* a step or a terminal mark from a closed state */
    RADVOINIS_LIST_FULL = 9,       /* a step that is not listed where the list is full */
    RADVOINIS_BAD_NAMES = 10,      /* a record's first line, or the one behind its count, is not "kind from to" or "kind from to key" */
    RADVOINIS_MALFORMED = 11,      /* a line of a record is no update; a kind that is none of E, T and C */
    RADVOINIS_TOO_MANY_LINES = 12, /* a record has more than 65,535 lines */
    RADVOINIS_SHORT_BUFFER = 13    /* the record does not fit the buffer */
};

/* The bytes of the status table. */
enum radvoinis_status_byte {
    RADVOINIS_UNSEEN = 0,
    RADVOINIS_OPEN = 1,
    RADVOINIS_UNKNOWN = 2,
    RADVOINIS_LIVE = 3,
    RADVOINIS_DEAD = 4
};

/* The bits of the marks table. */
enum radvoinis_mark {
    RADVOINIS_NAMED = 1,
    RADVOINIS_TERMINAL = 2,
    RADVOINIS_CLOSED = 4
};

/* The successor entry of a state that has none. */
#define RADVOINIS_NO_SUCCESSOR 65535u

/* ---- The short calls */

/* A run's state value and its tables (docs/ARCHITECTURE.md), laid out by radvoinis_tables_fresh in memory of the caller's. The
   caller may read all of it; between two calls nobody else writes it. A copy speaks of the same tables, with a number of steps of
   its own: send every update by one of the two. */
typedef struct radvoinis_tables {
    size_t n;     /* the number of states */
    size_t limit; /* the step limit */
    size_t steps; /* the number of listed steps */
    uint8_t *status;     /* n: an enum radvoinis_status_byte each */
    uint8_t *marks;      /* n: the sum of an enum radvoinis_mark's bits each */
    uint16_t *from;      /* limit: the listed steps, of which the first `steps` count; no two of these are equal */
    uint16_t *to;        /* limit */
    uint8_t *key;        /* limit: 0 to 31 each */
    uint16_t *successor; /* n: for an unknown state, a step by which an open one is reached */
    uint16_t *news;      /* n: the states that the last update settled, rising, in its front */
    uint16_t *in_head;   /* n; this and what follows is the engine's own */
    uint16_t *out_head;  /* n */
    uint16_t *queue;     /* n */
    uint16_t *visited;   /* n/16, rounded up: a bit for each state */
    uint16_t *in_next;   /* limit */
    uint16_t *out_next;  /* limit */
} radvoinis_tables;

/* The bytes that the tables for n states and a step limit take, or 0 where n or limit is out of bounds. */
size_t radvoinis_tables_size(uint32_t n, uint32_t limit);

/* Lays out the tables in `size` bytes of memory, at any address, and makes them fresh: no state is named, no step is listed. Answers 0; or
   RADVOINIS_REFUSED plus 1 (n), 2 (limit) or 3 (the memory is NULL or smaller than radvoinis_tables_size says), and changes
   nothing. The memory is the caller's, and is needed as long as the tables are. */
uint32_t radvoinis_tables_fresh(radvoinis_tables *t, void *memory, size_t size, uint32_t n, uint32_t limit);

/* The updates: a step from state to state, by key 0 or by a key that is sent, a terminal mark, a close. Each answers the number of its
   news, which stand in the front of t->news, or RADVOINIS_REFUSED plus the number of its refusal (1 to 6, 9, 14), and then changes
   nothing. A step that is listed already, by the same key, answers 0 and takes no place, also where the list is full; a close of a
   closed state answers 0. Where the tables fit, neither changes anything. */
uint32_t radvoinis_step(radvoinis_tables *t, uint32_t from, uint32_t to);
uint32_t radvoinis_step_by_key(radvoinis_tables *t, uint32_t from, uint32_t to, uint32_t key);
uint32_t radvoinis_terminal(radvoinis_tables *t, uint32_t state);
uint32_t radvoinis_close(radvoinis_tables *t, uint32_t state);

/* The state's status, an enum radvoinis_status_byte; or RADVOINIS_REFUSED plus the number of the refusal (1 to 5). */
uint32_t radvoinis_status_of(const radvoinis_tables *t, uint32_t state);

/* The table check: 1 where the tables fit, 0 where they do not; see radvoinis_audit. */
uint32_t radvoinis_check(radvoinis_tables *t);

/* The record writer: fills the len bytes of buf from the index *at on, with t->n as the count of states; see radvoinis_write. */
uint32_t radvoinis_save(const radvoinis_tables *t, uint8_t *buf, size_t len, size_t *at);

/* ---- The call on a record's bytes */

/* The status of a state after a record: 0 to 4, or RADVOINIS_LINE_REFUSED plus a number. A record may begin with the line "states" and a
   line with the count of its states, 1 to 2,048; without them it is of 2,048 states. Then comes its names line; where that is "kind from
   to", its steps have key 0. At most 2,048 steps are listed. Answered is the first of these: 33 (17) where "states" stands without
   such a count behind it, whatever state is asked; 21 (5) for a state at or above the count, whatever the lines behind it are; then the
   first refused line (5, 6, 9 to 12, 14), if there is one; then the status. */
uint8_t radvoinis_status(const uint8_t *record, size_t record_len, uint32_t state);

/* ---- The raw calls: each table a pointer and a length, wherever the caller keeps it. */

/* One update on the caller's tables: kind is 'E' (a step from first to second by the key by_key), 'T' (a terminal mark on first) or
   'C' (a close of first); second and by_key are a step's alone. Answers the number of its news, which stand in the front of the news
   list, and brings *steps up to date; or RADVOINIS_REFUSED plus the number of its refusal (1 to 6, 9, 14; 11 for any other kind,
   tested behind 1 to 4), and changes nothing. A close of a closed state answers 0 and changes nothing either, whatever the tables hold.
   A step that is equal to one of the *steps listed answers 0, also where the list is full, and names its two states: where the tables
   fit, they are named, and nothing changes.
   Needed lengths: n for status, marks, successor, news, in_head, out_head, queue; n/16, rounded up, for visited; limit for from, to,
   key, in_next, out_next. Fresh tables are all zero, with 65,535 in every successor entry; *steps is 0. */
uint32_t radvoinis_update(size_t n, size_t limit, size_t *steps, uint8_t kind, size_t first, size_t second, size_t by_key,
                          uint8_t *status, size_t status_len, uint8_t *marks, size_t marks_len,
                          uint16_t *from, size_t from_len, uint16_t *to, size_t to_len, uint8_t *key, size_t key_len,
                          uint16_t *successor, size_t successor_len, uint16_t *news, size_t news_len,
                          uint16_t *in_head, size_t in_head_len, uint16_t *out_head, size_t out_head_len,
                          uint16_t *queue, size_t queue_len, uint16_t *visited, size_t visited_len,
                          uint16_t *in_next, size_t in_next_len, uint16_t *out_next, size_t out_next_len);

/* The status question: the state's byte, or RADVOINIS_REFUSED plus the number of the refusal (1 to 5). */
uint32_t radvoinis_state_status(size_t n, size_t limit, size_t steps, const uint8_t *status, size_t status_len, size_t state);

/* The length of the news part: count, or 0 where count is above the list's length. */
size_t radvoinis_news_len(const uint16_t *news, size_t news_len, size_t count);

/* The table check: 1 where the tables fit (some legal history gives them, so that no two listed steps are equal, and the work tables
   fit), 0 where they do not; or RADVOINIS_REFUSED plus the number of the refusal (1 to 4), and changes nothing. It writes the needed
   entries of queue and visited alone; after a 1 no state is marked visited. */
uint32_t radvoinis_audit(size_t n, size_t limit, size_t steps,
                         const uint8_t *status, size_t status_len, const uint8_t *marks, size_t marks_len,
                         const uint16_t *from, size_t from_len, const uint16_t *to, size_t to_len, const uint8_t *key, size_t key_len,
                         const uint16_t *successor, size_t successor_len,
                         const uint16_t *in_head, size_t in_head_len, const uint16_t *out_head, size_t out_head_len,
                         uint16_t *queue, size_t queue_len, uint16_t *visited, size_t visited_len,
                         const uint16_t *in_next, size_t in_next_len, const uint16_t *out_next, size_t out_next_len);

/* The record writer: fills buf from the index *at on. The record begins with the lines "states", n in decimal and "kind from to key",
   which take 25 bytes and the digits of n; in all it takes at most 29 + 22 * n + 18 * steps. Read back, it gives the same n. Answers 0 and
   brings *at to the index after the last byte; or RADVOINIS_REFUSED plus the number of the refusal (1 to 4, 13), and changes nothing. */
uint32_t radvoinis_write(size_t n, size_t limit, size_t steps, const uint8_t *marks, size_t marks_len,
                         const uint16_t *from, size_t from_len, const uint16_t *to, size_t to_len, const uint8_t *key, size_t key_len,
                         uint8_t *buf, size_t buf_len, size_t *at);

#ifdef __cplusplus
}
#endif

#endif
