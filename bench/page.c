// The page of the benchmark, the clock and the median.
#include "page.h"
#include <stdarg.h>
#include <stdio.h>
#include <stdlib.h>
#include <time.h>
#include <unistd.h>

static FILE *file;

void open_page(const char *name, const char *mode)
{
    file = fopen(name ? name : "/dev/null", mode);
    if (file) return;
    perror(name);
    exit(2);
}

void out(const char *format, ...)
{
    va_list args;
    va_start(args, format);
    vprintf(format, args);
    va_end(args);
    va_start(args, format);
    vfprintf(file, format, args);
    va_end(args);
}

void goal(const char *what, double value, int met) { out("- %s: %.2f, %s\n", what, value, met ? "met" : "MISSED"); }

void progress(const char *what, const char *how)
{
    if (isatty(2)) fprintf(stderr, "\r%-70s\r%s %s", "", what, how);
}

double thread_time(void)
{
    struct timespec t;
    clock_gettime(CLOCK_THREAD_CPUTIME_ID, &t);
    return (double)t.tv_sec * 1e9 + (double)t.tv_nsec;
}

static int compare(const void *a, const void *b)
{
    double x = *(const double *)a, y = *(const double *)b;
    return (x > y) - (x < y);
}

double median(double *times, size_t k)
{
    qsort(times, k, sizeof *times, compare);
    return times[k / 2];
}

int close_page(void) { return fclose(file) != 0; }
