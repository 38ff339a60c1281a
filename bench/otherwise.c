// The four totals in the two ways of counting that come to mind first.
#include "counts.h"

void counter_totals(size_t n, const uint8_t *status, size_t status_len, size_t *open, size_t *unknown, size_t *live, size_t *dead)
{
    size_t counts[256] = {0};
    for (size_t s = 0; s < n && s < status_len; s++) counts[status[s]]++;
    *open = counts[1], *unknown = counts[2], *live = counts[3], *dead = counts[4];
}

void branch_totals(size_t n, const uint8_t *status, size_t status_len, size_t *open, size_t *unknown, size_t *live, size_t *dead)
{
    *open = *unknown = *live = *dead = 0;
    for (size_t s = 0; s < n && s < status_len; s++)
        switch (status[s]) {
        case 1: ++*open; break;
        case 2: ++*unknown; break;
        case 3: ++*live; break;
        case 4: ++*dead; break;
        }
}
