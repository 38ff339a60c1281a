// The writer, by the words of document 01: "names line, T lines by rising state, steps in list order, C lines by rising state, each line
// ended by a newline"; and of document 02: "the writer uses the new line", in which T and C lines have "-" for a key, and it "always puts"
// a line `states` and a line with the count, "with its n".
#include "writing.h"
#include <stdio.h>

// A line for each state with the mark.
static size_t write_marked(size_t n, const uint8_t *marks, uint8_t mark, char kind, char *record)
{
    size_t length = 0;
    for (size_t s = 0; s < n; s++)
        if (marks[s] & mark) length += (size_t)sprintf(record + length, "%c %zu - -\n", kind, s);
    return length;
}

size_t writing_write(size_t n, size_t steps, const uint8_t *marks, const uint16_t *from, const uint16_t *to, const uint8_t *key,
                     char *record)
{
    size_t length = (size_t)sprintf(record, "states\n%zu\nkind from to key\n", n);
    length += write_marked(n, marks, TERMINAL, 'T', record + length);
    for (size_t p = 0; p < steps; p++)
        length += (size_t)sprintf(record + length, "E %u %u %u\n", (unsigned)from[p], (unsigned)to[p], (unsigned)key[p]);
    length += write_marked(n, marks, CLOSED, 'C', record + length);
    return length;
}
