// How a program ends: by itself where reading stops, where its input cannot be read, and where its output cannot be written; and where it
// has arguments, of which it takes none.
#ifndef ENDING_H
#define ENDING_H

#include "program.h"

// The checks of every run, the first ones of a program's suite.
enum { CHECK_ENDED, CHECK_SAID, CHECK_USAGE, CHECK_UNREAD, ENDING_CHECKS };
#define ENDING_CHECK_NAMES \
    "the program ends by itself", "standard error: nothing, or the line that says what failed", \
        "the usage: on standard output for --help alone, on standard error for other arguments", "no input is read: with arguments, and by a program that takes none"

// What each program says of such an input, where it reads one, or output.
extern const char *const cannot_read[], *const cannot_write[];

// Holds a run to its end, and to what it says.
void hold_end(Output output, const char *said);

// Series on the record in hand: what a run wrote is handed over, to be held to the naive program.
void stopped_inputs(Program p, void (*hold)(Output output));    // which nobody closes
void failing_inputs(Program p, void (*hold)(Output output));
void failing_outputs(Program p);

// Every kind of argument, on inputs that would be drawn or listed, that nobody closes, and that cannot be read.
void arguments_given(Program p);

#endif
