// The reader and the listing, by the words of documents 01 and 02.
#include "reading.h"
#include <string.h>

static const char states[] = "states", plain_names[] = "kind from to", keyed_names[] = "kind from to key";

// ---- a line

// The update of a line, or kind 0 for a malformed one. A line is an update where it is, byte for byte, that update written out: so
// there are no leading zeros, and no other bytes. After the names line without keys every step has key 0.
static Update update_of(const uint8_t *line, size_t length, int keyed)
{
    char text[17] = {0}, written[64];
    unsigned long first = 0, second = 0, key = 0;
    if (length == 0 || length > 16) return (Update){0};
    memcpy(text, line, length);
    sscanf(text + 1, " %10lu %10lu %10lu", &first, &second, &key);
    if (first > 65535 || second > 65535 || key > 65535) return (Update){0};
    if (!keyed) key = 0;
    if (text[0] == 'E') sprintf(written, "E %lu %lu", first, second);
    else if (text[0] == 'T' || text[0] == 'C') sprintf(written, "%c %lu -", text[0], first);
    else return (Update){0};
    if (keyed && text[0] == 'E') sprintf(written + strlen(written), " %lu", key);
    else if (keyed) strcat(written, " -");
    if (strlen(written) != length || memcmp(written, line, length) != 0) return (Update){0};
    return (Update){(uint8_t)text[0], first, second, key};
}

static int is_line(const char *right, const uint8_t *line, size_t length)
{
    return length == strlen(right) && memcmp(line, right, length) == 0;
}

// The count of a line, 1 to 2,048, or 0 for one that is none: a line is a count where it is, byte for byte, that count written out.
static size_t count_of(const uint8_t *line, size_t length)
{
    char text[5] = {0}, written[32];
    unsigned long count = 0;
    if (length > 4) return 0;
    memcpy(text, line, length);
    sscanf(text, "%4lu", &count);
    if (count == 0 || count > MOST_STATES) return 0;
    sprintf(written, "%lu", count);
    return is_line(written, line, length) ? count : 0;
}

// ---- what comes of it

static void print_news(FILE *listing, size_t number, const uint16_t *news, size_t count, const uint8_t *status)
{
    for (size_t i = 0; listing && i < count; i++)
        fprintf(listing, "%zu %s %u\n", number, status[news[i]] == LIVE ? "live" : "dead", (unsigned)news[i]);
}

static void accept(Reading *r, size_t number, Update u, FILE *listing)
{
    uint8_t before[MOST_STATES];
    uint16_t news[MOST_STATES];
    if (u.kind == 'T' && (r->marks[u.first] & TERMINAL)) return;    // a mark that is there changes nothing when it comes again,
    if (reference_again(r->marks, u)) return;                       // nor does a close,
    if (history_lists(&r->history, u)) return;                      // nor a step
    memcpy(before, r->status, MOST_STATES);
    history_add(&r->history, u);
    reference_marks(&r->history, r->marks);
    reference_statuses_quick(&r->history, r->status);
    print_news(listing, number, news, reference_news(MOST_STATES, before, r->status, news), r->status);
}

static void refuse(Reading *r, size_t number, int refusal, FILE *listing)
{
    if (!r->refused) r->refused = refusal;
    if (listing) fprintf(listing, "%zu refused %d\n", number, refusal);
}

static void print_totals(FILE *listing, size_t n, const uint8_t *status)
{
    static const char *const words[] = {"unseen", "open", "unknown", "live", "dead"};
    size_t totals[5] = {0};
    for (size_t s = 0; s < n; s++) totals[status[s]]++;
    for (int i = OPEN; i <= DEAD; i++) fprintf(listing, "end %s %zu\n", words[i], totals[i]);
}

// ---- the head

// "A record may now begin with a line `states` and a line with the count, and then the names line". "A record without it means 2,048."
static int read_states(Reading *r)
{
    r->names = 3;
    return 1;
}

// A second line that is no such number "gets 17 as line 2, before the names line, and reading stops".
static int read_count(Reading *r, const uint8_t *line, size_t length, FILE *listing)
{
    size_t count = count_of(line, length);
    if (!count) refuse(r, 2, 17, listing);
    else r->history.n = count;
    return count > 0;
}

static int read_names(Reading *r, const uint8_t *line, size_t length, FILE *listing)
{
    r->keyed = is_line(keyed_names, line, length);
    int exact = r->keyed || is_line(plain_names, line, length);
    if (!exact) refuse(r, r->lines, 10, listing);
    return exact;
}

// The line of the head that a record ends without: its first, which is "its names line", its count, or the names line behind a count.
static void refuse_missing(Reading *r, FILE *listing)
{
    if (r->refused || r->lines >= r->names) return;
    refuse(r, r->lines + 1, r->lines == 1 ? 17 : 10, listing);
}

// ---- the record

void reading_start(Reading *r, size_t limit, FILE *listing)
{
    history_start(&r->history, MOST_STATES, limit);
    memset(r->marks, 0, MOST_STATES), memset(r->status, 0, MOST_STATES);
    r->refused = 0, r->lines = 0, r->names = 1, r->keyed = 0;
    if (listing) fprintf(listing, "line verdict number\n");
}

int reading_line(Reading *r, const uint8_t *line, size_t length, FILE *listing)
{
    size_t number = ++r->lines;
    if (number == 1 && is_line(states, line, length)) return read_states(r);
    if (number == 2 && r->names == 3) return read_count(r, line, length, listing);
    if (number == r->names) return read_names(r, line, length, listing);
    if (number == 65536) {
        refuse(r, number, 12, listing);
        return 0;
    }
    Update u = update_of(line, length, r->keyed);
    const History *h = &r->history;
    int refusal = reference_sent(h->n, h->limit, h->steps, r->marks, history_lists(h, u), u);
    refusal ? refuse(r, number, refusal, listing) : accept(r, number, u, listing);
    return 1;
}

void reading_end(Reading *r, FILE *listing)
{
    refuse_missing(r, listing);
    if (listing) print_totals(listing, r->history.n, r->status);
}

void reading_read(Reading *r, size_t limit, const uint8_t *record, size_t length, FILE *listing)
{
    size_t at = 0;
    int more = 1;
    reading_start(r, limit, listing);
    while (more && at < length) {
        const uint8_t *end = memchr(record + at, '\n', length - at);
        size_t line = end ? (size_t)(end - record) - at : length - at;
        more = reading_line(r, record + at, line, listing);
        at += line + 1;
    }
    reading_end(r, listing);
}

// "The C call tests the count first, then a state at or above it answers 21, then come the other lines." "A refusal answers 16 plus its
// number."
uint8_t reading_answer(const Reading *r, uint32_t state)
{
    if (r->refused == 17) return 16 + 17;
    if (state >= r->history.n) return 16 + 5;
    return r->refused ? (uint8_t)(16 + r->refused) : r->status[state];
}
