// The calls beside the update in plain C, over the naive definitions: what tests/faults.sh plants its faults in.
#include "../include/radvoinis.h"
#include "fitting.h"
#include "reading.h"
#include "writing.h"
#include <stdlib.h>
#include <string.h>

uint32_t radvoinis_state_status(size_t n, size_t limit, size_t steps, const uint8_t *status, size_t status_len, size_t state)
{
    int number = reference_lent(n, limit, steps, status_len >= n);
    if (number) return RADVOINIS_REFUSED + (uint32_t)number;
    if (state >= n) return RADVOINIS_REFUSED + 5;
    return status[state];
}

size_t radvoinis_news_len(const uint16_t *news, size_t news_len, size_t count)
{
    (void)news;
    return count <= news_len ? count : 0;
}

uint32_t radvoinis_audit(size_t n, size_t limit, size_t steps, const uint8_t *status, size_t status_len, const uint8_t *marks,
                         size_t marks_len, const uint16_t *from, size_t from_len, const uint16_t *to, size_t to_len, const uint8_t *key,
                         size_t key_len, const uint16_t *successor, size_t successor_len, const uint16_t *in_head, size_t in_head_len,
                         const uint16_t *out_head, size_t out_head_len, uint16_t *queue, size_t queue_len, uint16_t *visited,
                         size_t visited_len, const uint16_t *in_next, size_t in_next_len, const uint16_t *out_next, size_t out_next_len)
{
    int by_state = status_len >= n && marks_len >= n && successor_len >= n && in_head_len >= n && out_head_len >= n && queue_len >= n &&
                   visited_len >= n / 16 + (n % 16 > 0);
    int by_step = from_len >= limit && to_len >= limit && key_len >= limit && in_next_len >= limit && out_next_len >= limit;
    int number = reference_lent(n, limit, steps, by_state && by_step);
    if (number) return RADVOINIS_REFUSED + (uint32_t)number;
    Tables t = {n, steps, status, marks, key, from, to, successor, in_head, out_head, visited, in_next, out_next};
    uint32_t yes = (uint32_t)fits(&t);
    for (size_t s = 0; s < n; s++) queue[s] = (uint16_t)s;
    for (size_t i = 0; i < (n + 15) / 16; i++) visited[i] = yes ? 0 : 0xffff;
    return yes;
}

uint32_t radvoinis_write(size_t n, size_t limit, size_t steps, const uint8_t *marks, size_t marks_len, const uint16_t *from,
                         size_t from_len, const uint16_t *to, size_t to_len, const uint8_t *key, size_t key_len, uint8_t *buf,
                         size_t buf_len, size_t *at)
{
    static char record[RECORD_MOST + 1];
    int number = reference_lent(n, limit, steps, marks_len >= n && from_len >= limit && to_len >= limit && key_len >= limit);
    if (number) return RADVOINIS_REFUSED + (uint32_t)number;
    size_t length = writing_write(n, steps, marks, from, to, key, record);
    if (*at > buf_len || buf_len - *at < length) return RADVOINIS_REFUSED + 13;
    memcpy(buf + *at, record, length);
    *at += length;
    return 0;
}

// The naive reader takes its time, so a record that comes again is not read again.
uint8_t radvoinis_status(const uint8_t *record, size_t record_len, uint32_t state)
{
    static Reading reading;
    static uint8_t *last;
    static size_t last_len;
    if (!last || last_len != record_len || memcmp(last, record, record_len) != 0) {
        last = realloc(last, record_len + 1), last_len = record_len;
        if (!last) abort();
        memcpy(last, record, record_len);
        reading_read(&reading, 2048, record, record_len, NULL);
    }
    return reading_answer(&reading, state);
}
