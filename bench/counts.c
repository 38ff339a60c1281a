// The four totals in plain C, as crates/totals counts them: by blocks whose counts fit in a byte.
#include "counts.h"

enum { OPEN = 1, UNKNOWN = 2, LIVE = 3, DEAD = 4, BLOCK = 128 };

void baseline_totals(size_t n, const uint8_t *status, size_t status_len, size_t *open, size_t *unknown, size_t *live, size_t *dead)
{
    size_t all = n <= status_len ? n : status_len;
    *open = *unknown = *live = *dead = 0;
    for (size_t start = 0, end; start < all; start = end) {
        uint8_t o = 0, u = 0, l = 0, d = 0;
        end = all - start < BLOCK ? all : start + BLOCK;
        for (size_t s = start; s < end; s++) {
            uint8_t k = status[s];
            o = (uint8_t)(o + (k == OPEN)), u = (uint8_t)(u + (k == UNKNOWN)), l = (uint8_t)(l + (k == LIVE)), d = (uint8_t)(d + (k == DEAD));
        }
        *open += o, *unknown += u, *live += l, *dead += d;
    }
}
