// What the parts of the benchmark share: the page that they write, to the terminal and to a file, the clock of a thread and the median.
#ifndef PAGE_H
#define PAGE_H

#include <stddef.h>

// Opens the file, in fopen's mode; without a name the page goes to the terminal alone. Ends the program where it cannot.
void open_page(const char *name, const char *mode);

__attribute__((format(printf, 1, 2))) void out(const char *format, ...);

// A line of the page that says whether a goal is met.
void goal(const char *what, double value, int met);

// Says on a terminal what is being measured.
void progress(const char *what, const char *how);

// Nanoseconds of this thread, so that others on the machine count little.
double thread_time(void);

// The median of k times, which are sorted.
double median(double *times, size_t k);

// 0 where all of the page was written.
int close_page(void);

#endif
