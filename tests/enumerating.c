// The listing of every small history: each is made from the one before it by one update more.
#include "enumerating.h"
#include "reference.h"

// "its record lines as in #101, joined by commas, a colon, and the two final status digits"
static void write_history(const History *h, FILE *out)
{
    uint8_t status[SMALL_STATES];
    reference_statuses(h, status);
    for (size_t i = 0; i < h->count; i++) {
        Update u = h->accepted[i];
        if (i > 0) fputc(',', out);
        if (u.kind == 'E') fprintf(out, "E %zu %zu %zu", u.first, u.second, u.key);
        else fprintf(out, "%c %zu - -", u.kind, u.first);
    }
    fprintf(out, ":%d%d\n", status[0], status[1]);
}

// Writes the legal histories with so many updates more, and answers their number. "steps before terminal marks before closes, lower from
// first, lower to next"
static size_t write_longer(History *h, size_t more, FILE *out)
{
    uint8_t marks[SMALL_STATES];
    size_t count = 0;
    if (more == 0) return write_history(h, out), 1;
    reference_marks(h, marks);
    for (const char *kind = "ETC"; *kind; kind++)
        for (size_t first = 0; first < SMALL_STATES; first++)
            for (size_t second = 0; second < (*kind == 'E' ? SMALL_STATES : 1); second++) {
                Update u = {(uint8_t)*kind, first, second, 0};
                if (!reference_legal(marks, u)) continue;
                history_add(h, u);
                count += write_longer(h, more - 1, out);
                history_drop(h);
            }
    return count;
}

void enumerating_write(FILE *out)
{
    History h = {0};
    size_t count = 0;
    history_start(&h, SMALL_STATES, MOST_UPDATES);
    for (size_t updates = 0; updates <= MOST_UPDATES; updates++) count += write_longer(&h, updates, out);    // "shorter ones first"
    fprintf(out, "%zu\n", count);
    history_end(&h);
}
