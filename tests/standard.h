// Standard input and output of the naive programs.
#ifndef STANDARD_H
#define STANDARD_H

#include "reading.h"

// Whether there are arguments: then the usage is written, with what stands behind the program's name in it, and that is all.
int standard_usage(const char *program, const char *behind, int argc, char **argv);

// Reads the record on standard input line by line, and writes its listing where there is a place for it.
void standard_read(const char *program, Reading *r, FILE *listing);

// Writes out what is left.
void standard_end(const char *program);

#endif
