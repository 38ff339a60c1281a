// The picture of a record that was read, by its format (docs/DECISIONS.md, "What a picture draws"). It knows nothing of the drawing
// program.
#ifndef DRAWING_H
#define DRAWING_H

#include "reading.h"

// Writes the picture; `bold` says of each step of the list whether it is drawn bold.
void drawing_write(const Reading *r, const uint8_t *bold, FILE *picture);

// Which steps are bold in a picture: nothing but its lines' ends is looked at.
void drawing_bold(const Reading *r, const uint8_t *picture, size_t length, uint8_t *bold);

// Whether the bold steps are a choice of successors: 1 + how many the longest way to an open state has, or 0.
size_t drawing_leads(const Reading *r, const uint8_t *bold);

#endif
