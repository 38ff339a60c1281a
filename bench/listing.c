// The listing program in plain C: the proved program's way from bytes to bytes (crates/record, reader, totals, report, listing) over the
// plain engine. Reads a record on standard input, and prints its listing.
#include "counts.h"
#include "engines.h"
#include <stdio.h>
#include <stdlib.h>
#include <string.h>
#include <unistd.h>

enum { LIMIT = 2048, MOST_BYTES = 16, MOST_LINES = 65535, MOST_VALUE = 65535 };
enum { BAD_NAMES = 10, MALFORMED = 11, TOO_MANY = 12, BAD_COUNT = 17 };

// The room in the output buffer below which it is written out: a line's text and the totals take less.
enum { ROOM = 40960 };

static uint8_t input[65536], output[131072];

// ---- the tables

static uint8_t status[MAX_STATES], marks[MAX_STATES], key[LIMIT];
static uint16_t from[LIMIT], to[LIMIT], successor[MAX_STATES], news[MAX_STATES];
static uint16_t in_head[MAX_STATES], out_head[MAX_STATES], queue[MAX_STATES], visited[MAX_VISITED];
static uint16_t in_next[LIMIT], out_next[LIMIT];
static size_t states = MAX_STATES, steps;

static uint32_t update(uint8_t kind, size_t first, size_t second, size_t by_key)
{
    return baseline_update(states, LIMIT, &steps, kind, first, second, by_key, status, MAX_STATES, marks, MAX_STATES, from, LIMIT,
                           to, LIMIT, key, LIMIT, successor, MAX_STATES, news, MAX_STATES, in_head, MAX_STATES, out_head, MAX_STATES,
                           queue, MAX_STATES, visited, MAX_VISITED, in_next, LIMIT, out_next, LIMIT);
}

// ---- lines

// The first 16 bytes of a line, and how many it has: 17 says that there are more than 16.
typedef struct {
    uint8_t bytes[MOST_BYTES];
    size_t len;
} Line;

// What a line is by its place: line 1, the count behind `states`, the names line behind a count, a further line.
typedef enum { FIRST, COUNT, NAMES, FURTHER } Phase;

// Where reading stands in the record: the line so far, its number from 1, what it is, whether lines have keys, and whether reading has
// stopped.
typedef struct {
    Line line;
    size_t number;
    Phase phase;
    int keyed, stopped;
} Splitter;

// Adds the bytes of s from an index on, up to a newline or the end, and answers where that is.
static size_t fill(Line *line, const uint8_t *s, size_t len, size_t at)
{
    size_t filled = line->len;
    for (; at < len && s[at] != '\n'; at++) {
        if (filled < MOST_BYTES) line->bytes[filled++] = s[at];
        else filled = MOST_BYTES + 1;
    }
    line->len = filled;
    return at;
}

static int is_text(const Line *line, const char *s) { return line->len == strlen(s) && !memcmp(line->bytes, s, strlen(s)); }

// ---- the grammar of a line: each takes what it asks for at *at, and moves it on; or answers 0

static int take(const Line *line, size_t *at, uint8_t b) { return *at < line->len && line->bytes[(*at)++] == b; }

static int take_value(const Line *line, size_t *at, size_t *value)
{
    size_t i = *at, digit;
    if (i >= line->len || (digit = (size_t)line->bytes[i] - '0') > 9) return 0;
    *value = digit;
    i++;
    if (digit > 0)
        for (; i < line->len && (digit = (size_t)line->bytes[i] - '0') <= 9; i++) {
            *value = *value * 10 + digit;
            if (*value > MOST_VALUE) return 0;
        }
    *at = i;
    return 1;
}

// The number of the line's news, or REFUSED plus the number of its refusal.
static uint32_t apply(const Line *line, int keyed)
{
    size_t at = 1, first, second, by_key = 0;
    if (line->len == 0 || line->len > MOST_BYTES) return REFUSED + MALFORMED;
    if (!take(line, &at, ' ') || !take_value(line, &at, &first) || !take(line, &at, ' ')) return REFUSED + MALFORMED;
    uint8_t kind = line->bytes[0];
    switch (kind) {
    case 'E':
        if (!take_value(line, &at, &second)) return REFUSED + MALFORMED;
        if (keyed && (!take(line, &at, ' ') || !take_value(line, &at, &by_key))) return REFUSED + MALFORMED;
        if (at < line->len) return REFUSED + MALFORMED;
        return update(kind, first, second, by_key);
    case 'T':
    case 'C':
        if (!take(line, &at, '-')) return REFUSED + MALFORMED;
        if (keyed && (!take(line, &at, ' ') || !take(line, &at, '-'))) return REFUSED + MALFORMED;
        if (at < line->len) return REFUSED + MALFORMED;
        return update(kind, first, 0, 0);
    default: return REFUSED + MALFORMED;
    }
}

static uint32_t named(Splitter *s)
{
    s->phase = FURTHER;
    s->keyed = is_text(&s->line, "kind from to key");
    return s->keyed || is_text(&s->line, "kind from to") ? 0 : REFUSED + BAD_NAMES;
}

static uint32_t begun(Splitter *s)
{
    if (!is_text(&s->line, "states")) return named(s);
    s->phase = COUNT;
    return 0;
}

static uint32_t counted(Splitter *s)
{
    size_t at = 0, count;
    s->phase = NAMES;
    if (s->line.len > MOST_BYTES || !take_value(&s->line, &at, &count) || at < s->line.len) return REFUSED + BAD_COUNT;
    if (count == 0 || count > MAX_STATES) return REFUSED + BAD_COUNT;
    states = count;
    return 0;
}

static uint32_t further(const Splitter *s) { return s->number > MOST_LINES ? REFUSED + TOO_MANY : apply(&s->line, s->keyed); }

// Whether reading ends there.
static int is_last(uint32_t answer)
{
    return answer == REFUSED + BAD_NAMES || answer == REFUSED + BAD_COUNT || answer == REFUSED + TOO_MANY;
}

// The line has ended: what comes of it, where nothing counts as no news.
static uint32_t ended(Splitter *s)
{
    if (s->stopped) return 0;
    uint32_t answer = 0;
    switch (s->phase) {
    case FIRST: answer = begun(s); break;
    case COUNT: answer = counted(s); break;
    case NAMES: answer = named(s); break;
    case FURTHER: answer = further(s); break;
    }
    s->stopped = is_last(answer);
    s->line.len = 0;
    s->number++;
    return answer;
}

// Whether a line is left at the end of the input: one without its newline, or one of the head that is missing.
static int pending(const Splitter *s) { return !s->stopped && (s->line.len > 0 || s->phase != FURTHER); }

// ---- text, each written at a place of the output; answers the place after it

static size_t put_number(size_t at, size_t value)
{
    if (value >= 10) at = put_number(at, value / 10);
    output[at] = (uint8_t)('0' + value % 10);
    return at + 1;
}

static inline size_t put_ending(size_t at, const char *word, size_t number)
{
    size_t len = strlen(word);
    memcpy(output + at, word, len);
    at = put_number(at + len, number);
    output[at] = '\n';
    return at + 1;
}

static inline size_t put_row(size_t at, size_t line, const char *word, size_t number)
{
    return put_ending(put_number(at, line), word, number);
}

static size_t put_verdict(size_t at, size_t line, size_t state)
{
    if (status[state] == LIVE) return put_row(at, line, " live ", state);
    return put_row(at, line, " dead ", state);
}

static size_t put_answer(size_t at, size_t line, uint32_t answer)
{
    if (answer >= REFUSED) return put_row(at, line, " refused ", answer - REFUSED);
    for (size_t i = 0; i < answer; i++) at = put_verdict(at, line, news[i]);
    return at;
}

static size_t put_totals(size_t at)
{
    size_t open, unknown, live, dead;
    baseline_totals(states, status, MAX_STATES, &open, &unknown, &live, &dead);
    at = put_ending(at, "end open ", open);
    at = put_ending(at, "end unknown ", unknown);
    at = put_ending(at, "end live ", live);
    return put_ending(at, "end dead ", dead);
}

// ---- the program

static void write_out(size_t len)
{
    for (size_t done = 0; done < len;) {
        ssize_t put = write(STDOUT_FILENO, output + done, len - done);
        if (put <= 0) {
            fprintf(stderr, "radvoinis-listing: cannot write standard output\n");
            exit(0);
        }
        done += (size_t)put;
    }
}

static size_t with_room(size_t end)
{
    if (sizeof output - end >= ROOM) return end;
    write_out(end);
    return 0;
}

static size_t list_piece(Splitter *s, size_t len, size_t end)
{
    for (size_t at = 0; at < len && !s->stopped; at++) {
        at = fill(&s->line, input, len, at);
        if (at == len) break;
        size_t line = s->number;
        uint32_t answer = ended(s);
        end = put_answer(with_room(end), line, answer);
    }
    return end;
}

int main(void)
{
    Splitter s = {.number = 1};
    ssize_t got = 0;
    memset(successor, 255, sizeof successor);
    memcpy(output, "line verdict number\n", 20);
    size_t end = 20;
    while (!s.stopped && (got = read(STDIN_FILENO, input, sizeof input)) > 0) end = list_piece(&s, (size_t)got, end);
    if (got < 0) fprintf(stderr, "radvoinis-listing: cannot read standard input\n");
    end = with_room(end);
    while (pending(&s)) {
        size_t line = s.number;
        uint32_t answer = ended(&s);
        end = put_answer(end, line, answer);
    }
    write_out(put_totals(end));
    return 0;
}
