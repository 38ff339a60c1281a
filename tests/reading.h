// A record read and listed by the words of documents 01 and 02. It knows nothing of the reader.
#ifndef READING_H
#define READING_H

#include "reference.h"
#include <stdio.h>

// What a record gives: the accepted updates, less those that repeat one, over as many states as it counts, with their marks and statuses,
// which are 0 from there on; the number of the first refusal, or 0; the number of its lines, which of them is the names line, 1 or 3, and
// whether they have keys.
typedef struct {
    History history;
    uint8_t marks[MOST_STATES], status[MOST_STATES];
    int refused;
    size_t lines, names;
    int keyed;
} Reading;

// Reads a record, and writes its listing where there is a place for it.
void reading_read(Reading *r, size_t limit, const uint8_t *record, size_t length, FILE *listing);

// The same line by line; a line without its newline. The second answers whether reading goes on.
void reading_start(Reading *r, size_t limit, FILE *listing);
int reading_line(Reading *r, const uint8_t *line, size_t length, FILE *listing);
void reading_end(Reading *r, FILE *listing);

// What the explorer is answered for a state.
uint8_t reading_answer(const Reading *r, uint32_t state);

#endif
