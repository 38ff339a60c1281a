// A record written by the words of documents 01 and 02. It knows nothing of the writer.
#ifndef WRITING_H
#define WRITING_H

#include "reference.h"

// The longest record: a head with a count of four digits, two marks for each state, all steps with ends of five digits and keys of three,
// which no tables that fit have.
enum { HEAD_MOST = 25 + 4, RECORD_MOST = HEAD_MOST + 2 * 11 * MOST_STATES + 18 * MOST_STEPS };

// Writes the record of tables with any contents; answers its length.
size_t writing_write(size_t n, size_t steps, const uint8_t *marks, const uint16_t *from, const uint16_t *to, const uint8_t *key,
                     char *record);

#endif
