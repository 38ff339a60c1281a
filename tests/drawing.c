// The picture by its format: a line for each state that has a status from 1 to 4, with a double border where it is terminal, then every
// listed step in order, labelled with its key, bold where it is its source's successor.
#include "drawing.h"
#include "fitting.h"
#include <string.h>

static const char opening[] = "digraph verdicts {\n  rankdir=LR;\n  node [style=filled];\n";
static const char bold_end[] = ", style=bold];";

enum { OPENING_LINES = 3 };

static void write_state(size_t s, uint8_t status, uint8_t marks, FILE *picture)
{
    static const char *const words[] = {"unseen", "open", "unknown", "live", "dead"};
    static const char *const colours[] = {"", "#ffffff", "#ffe08a", "#a8dba0", "#f0a8a0"};
    const char *border = marks & TERMINAL ? ", peripheries=2" : "";
    if (status != UNSEEN) fprintf(picture, "  %zu [label=\"%zu %s\", fillcolor=\"%s\"%s];\n", s, s, words[status], colours[status], border);
}

void drawing_write(const Reading *r, const uint8_t *bold, FILE *picture)
{
    fprintf(picture, "%s", opening);
    for (size_t s = 0; s < MOST_STATES; s++) write_state(s, r->status[s], r->marks[s], picture);
    for (size_t p = 0; p < r->history.steps; p++) {
        Update u = r->history.listed[p];
        fprintf(picture, "  %zu -> %zu [label=\"%zu\"%s\n", u.first, u.second, u.key, bold[p] ? bold_end : "];");
    }
    fprintf(picture, "}\n");
}

static size_t states_drawn(const Reading *r)
{
    size_t count = 0;
    for (size_t s = 0; s < MOST_STATES; s++) count += r->status[s] != UNSEEN;
    return count;
}

void drawing_bold(const Reading *r, const uint8_t *picture, size_t length, uint8_t *bold)
{
    const uint8_t *at = picture, *end = picture + length;
    size_t before = OPENING_LINES + states_drawn(r), most = strlen(bold_end);
    for (size_t line = 0; line < before + r->history.steps; line++) {
        const uint8_t *newline = memchr(at, '\n', (size_t)(end - at));
        size_t bytes = (size_t)((newline ? newline : end) - at);
        if (line >= before) bold[line - before] = bytes >= most && memcmp(at + bytes - most, bold_end, most) == 0;
        at += bytes + (newline != NULL);
    }
}

size_t drawing_leads(const Reading *r, const uint8_t *bold)
{
    uint16_t from[MOST_STEPS], to[MOST_STEPS], successor[MOST_STATES];
    memset(successor, 255, sizeof successor);
    for (size_t p = 0; p < r->history.steps; p++) {
        Update u = r->history.listed[p];
        if (bold[p] && successor[u.first] != NO_SUCCESSOR) return 0;
        if (bold[p]) successor[u.first] = (uint16_t)p;
        from[p] = (uint16_t)u.first, to[p] = (uint16_t)u.second;
    }
    Tables t = {.n = r->history.n, .steps = r->history.steps, .status = r->status, .from = from, .to = to, .successor = successor};
    return fits_successors(&t);
}
