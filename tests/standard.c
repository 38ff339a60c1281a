// Standard input and output: what fails is said on standard error. A read error counts as the end of the input.
#include "standard.h"
#include <stdlib.h>
#include <string.h>

int standard_usage(const char *program, const char *behind, int argc, char **argv)
{
    if (argc < 2) return 0;
    int asked = argc == 2 && strcmp(argv[1], "--help") == 0;
    fprintf(asked ? stdout : stderr, "usage: %s%s\n", program, behind);
    if (asked) standard_end(program);
    return 1;
}

void standard_read(const char *program, Reading *r, FILE *listing)
{
    char *line = NULL;
    size_t room = 0;
    ssize_t got;
    int more = 1;
    reading_start(r, 2048, listing);
    while (more && !ferror(stdout) && (got = getline(&line, &room, stdin)) > 0) {
        size_t length = (size_t)got - (line[got - 1] == '\n');
        more = reading_line(r, (const uint8_t *)line, length, listing);
    }
    if (ferror(stdin)) fprintf(stderr, "%s: cannot read standard input\n", program);
    reading_end(r, listing);
    free(line);
}

void standard_end(const char *program)
{
    if (fflush(stdout) || ferror(stdout)) fprintf(stderr, "%s: cannot write standard output\n", program);
}
