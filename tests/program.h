// Runs a program and takes what it writes. LISTING, DRAW and HISTORIES in the environment name others than those of target/bin.
#ifndef PROGRAM_H
#define PROGRAM_H

#include <stddef.h>
#include <stdint.h>

typedef enum { LISTING, DRAW, HISTORIES } Program;

// What comes on standard input: bytes that stand in a file; that come through a pipe; through a pipe that stays open until the program
// has ended, for which it has a few seconds; through a socket that fails behind them. A folder, and nothing at all, cannot be read.
typedef enum { FROM_FILE, FROM_PIPE, FROM_HELD_PIPE, FROM_FAILING_SOCKET, FROM_FOLDER, FROM_NOTHING } Source;

// Where standard output goes. A full device, and nothing at all, cannot be written to.
typedef enum { TO_MEMORY, TO_FULL_DEVICE, TO_NOTHING } Target;

typedef struct {
    int ended;               // whether it ended by itself with exit status 0
    const uint8_t *bytes;    // what it wrote to memory, until the next run
    size_t length;
    const char *said;        // what it wrote to standard error
    size_t taken;            // how many bytes it read, where they stand in a file
} Output;

Output program_run_between(Program p, Source from, const uint8_t *input, size_t length, size_t piece, Target to);

// The same with arguments, NULL behind the last.
Output program_run_with(Program p, const char *const *arguments, Source from, const uint8_t *input, size_t length, size_t piece, Target to);
enum { MOST_ARGUMENTS = 3 };

// From a file; or through a pipe in pieces of at most so many bytes, each by a read of its own.
enum { PIECE_MOST = 4096 };
Output program_run(Program p, const uint8_t *input, size_t length, size_t piece);

#endif
