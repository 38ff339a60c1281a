// The listing of every small history, by the words of document 02, #114, alone.
#ifndef ENUMERATING_H
#define ENUMERATING_H

#include <stdio.h>

// "every legal history of at most three updates over two states"
enum { SMALL_STATES = 2, MOST_UPDATES = 3 };

void enumerating_write(FILE *out);

#endif
