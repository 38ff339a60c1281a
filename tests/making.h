// Records in the making: the record in hand, and series of records, valid, damaged, and of the shapes at the edges.
#ifndef MAKING_H
#define MAKING_H

#include "reference.h"

enum { LONGEST = 10 * 1000 * 1000, RECORD_ROOM = LONGEST + 1000000, MOST_LINES = 65535 };

extern uint8_t record[RECORD_ROOM];
extern size_t record_length;

// The two forms of a record, their names lines with the newline, and that of the record in hand.
typedef enum { WITHOUT_KEYS, WITH_KEYS, FORMS } Form;
extern const char *const names_line[FORMS];
extern Form form;
Form some_form(void);

// A count for a record over so many states: mostly no less, now and then any; or 0, for a record that says none.
size_t some_count(size_t states);

// Starts the record in hand with its names line; the second with a line `states` and a count before it, where there is one; the third in
// either form, with some count. Its head is what stands there then: so many bytes and lines.
void start_record(Form f);
void start_counted(Form f, size_t count);
void start_some(size_t states);
extern size_t head_length, head_lines;

// Adds bytes, a text, one byte many times, an update's line.
void add_bytes(const void *bytes, size_t count);
__attribute__((format(printf, 1, 2))) void add(const char *format, ...);
void add_run(uint8_t byte, size_t count);
void add_update(Update u);

// Adds lines that are written without keys as the record in hand has them: with keys a step gets one more field, which is a key, and every
// other line but an empty one a dash.
void add_lines(const char *lines);

// Makes the record in hand one of so many lines, those of its head among them, in either form, with a count where it is not 0, of which
// the last is the one given, written without a key, with its newline or without.
typedef enum { TERMINALS, BLANK, MALFORMED, MIXED } Shape;
void lines_record(size_t count, size_t lines, Shape shape, const char *last, size_t newline);

// Shows the record in hand, where a check fails.
void show_record(void);

// Series: each record is handed over with the most bytes of the pieces in which it is to come, 0 for a file. They end where a check has
// failed.
void valid_records(size_t count, void (*hold)(size_t piece));
void full_records(size_t count, void (*hold)(size_t piece));       // up to the step limit and past it
void repeated_records(size_t count, void (*hold)(size_t piece));   // steps that come again, up to the most lines
void damaged_records(size_t count, void (*hold)(size_t piece));
void damaged_heads(size_t count, void (*hold)(size_t piece));      // damaged up to their names lines alone
void noisy_records(size_t count, void (*hold)(size_t piece));      // lines of random bytes
void awkward_records(void (*hold)(size_t piece));                  // lines at the edges of the grammar, and of the other form
void beginnings(void (*hold)(size_t piece));                       // the empty record among them, and names lines that are not exact
void other_heads(void (*hold)(size_t piece));                      // lines of the head missing, twice, late, long, and what is no count
void each_count(size_t step, void (*hold)(size_t piece));          // each count up to 2,100, by such steps, and greater ones
void each_mix(void (*hold)(size_t piece));                         // states of each mix of statuses, up to 2,048
void many_lines(size_t count, void (*hold)(size_t piece));         // 65,534 to 65,537
void long_lines(void (*hold)(size_t piece));                       // of up to ten million bytes
void records_in_pieces(size_t count, void (*hold)(size_t piece));
void heads_in_pieces(void (*hold)(size_t piece));                  // of every length
void cut_lines(void (*hold)(size_t piece));                        // across the cuts of large reads

#endif
