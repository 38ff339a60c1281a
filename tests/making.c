// Records in the making.
#include "making.h"
#include "groups.h"
#include "program.h"
#include "random.h"
#include "runs.h"
#include <stdarg.h>
#include <stdio.h>
#include <stdlib.h>
#include <string.h>

// ---- the record in hand

uint8_t record[RECORD_ROOM];
size_t record_length;

void add_bytes(const void *bytes, size_t count)
{
    if (record_length + count > RECORD_ROOM) abort();
    memcpy(record + record_length, bytes, count);
    record_length += count;
}

void add(const char *format, ...)
{
    va_list arguments;
    va_start(arguments, format);
    record_length += (size_t)vsnprintf((char *)record + record_length, RECORD_ROOM - record_length, format, arguments);
    va_end(arguments);
    if (record_length >= RECORD_ROOM) abort();
}

void add_run(uint8_t byte, size_t count)
{
    if (record_length + count > RECORD_ROOM) abort();
    memset(record + record_length, byte, count);
    record_length += count;
}

const char *const names_line[FORMS] = {"kind from to\n", "kind from to key\n"};
Form form;

Form some_form(void) { return one_in(3) ? WITHOUT_KEYS : WITH_KEYS; }

size_t some_count(size_t states)
{
    if (one_in(2)) return 0;
    if (one_in(8)) return 1 + below(MOST_STATES);
    return one_in(3) ? MOST_STATES : states + below(one_in(2) ? 1 : MOST_STATES + 1 - states);
}

size_t head_length, head_lines;

void start_counted(Form f, size_t count)
{
    form = f;
    record_length = 0;
    if (count) add("states\n%zu\n", count);
    add("%s", names_line[f]);
    head_length = record_length, head_lines = count ? 3 : 1;
}

void start_record(Form f) { start_counted(f, 0); }

void start_some(size_t states) { start_counted(some_form(), some_count(states)); }

void add_update(Update u)
{
    if (u.kind == 'E') add("E %zu %zu", u.first, u.second);
    else add("%c %zu -", u.kind, u.first);
    if (form == WITH_KEYS && u.kind == 'E') add(" %zu", u.key);
    else if (form == WITH_KEYS) add(" -");
    add("\n");
}

void add_lines(const char *lines)
{
    while (*lines) {
        size_t bytes = strcspn(lines, "\n");
        add_bytes(lines, bytes);
        if (form == WITH_KEYS && *lines == 'E') add(" %zu", some_key());
        else if (form == WITH_KEYS && bytes > 0) add(" -");
        if (lines[bytes]) add("\n"), bytes++;
        lines += bytes;
    }
}

void show_record(void)
{
    printf("  record of %zu bytes:", record_length);
    for (size_t i = 0; i < record_length && i < 400; i++)
        record[i] >= ' ' && record[i] < 127 && record[i] != '\\' ? printf("%c", record[i]) : printf("\\%02x", record[i]);
    printf("%s\n", record_length > 400 ? "..." : "");
}

// ---- valid records

// Updates over so many states. A careful explorer sends nothing that is refused.
static void add_explored(size_t lines, size_t states, int careful)
{
    static History h;
    size_t far = careful ? 0 : below(3);
    random_history(&h, states, 2048, lines, careful);
    for (size_t i = 0; i < h.count; i++) {
        Update u = h.accepted[i];
        if (far && one_in(40)) *(one_in(2) ? &u.first : &u.second) = one_in(2) ? 2046 + below(4) : below(one_in(2) ? states + 4 : 65536);
        if (far && one_in(40)) u.key = one_in(2) ? MOST_KEY - 1 + below(4) : below(65540);
        add_update(u);
    }
}

static void random_record(void)
{
    size_t lines = one_in(20) ? below(3000) : below(one_in(3) ? 200 : 30), careful = one_in(2);
    size_t states = one_in(4) ? 2048 : 1 + below(1 + lines / 2);
    start_some(states);
    add_explored(lines, states, (int)careful);
    if (one_in(3)) record_length--;
}

void valid_records(size_t count, void (*hold)(size_t piece))
{
    for (size_t i = 0; i < count && !failed; i++) {
        progress(i, count);
        random_record();
        hold(0);
    }
}

// As many steps as the limit, and more, of which the last has a key above 31; then a verdict for all states at once.
void full_records(size_t count, void (*hold)(size_t piece))
{
    for (size_t i = 0; i < 5 && !failed; i++) {
        size_t steps = i < 4 ? 2047 + i : 2049;
        start_counted(i < 4 ? WITH_KEYS : WITHOUT_KEYS, i % 2 ? 2048 : 0);
        for (size_t p = 0; p < steps; p++) add_update((Update){'E', p % 2048, (p + (p < 2048 ? 1 : 2)) % 2048, some_key()});
        add_update((Update){'E', 0, 1, MOST_KEY + 1});
        for (size_t s = 0; s < 2047; s++) add_update((Update){'C', s, 0, 0});
        add_update((Update){one_in(2) ? 'C' : 'T', 2047, 0, 0});
        hold(0);
    }
    for (size_t i = 0; i < count && !failed; i++) {
        start_counted(some_form(), one_in(2) ? 2048 - below(2) : 0);
        add_explored(1000 + below(8000), 2048, one_in(2));
        hold(0);
    }
}

// ---- steps that come again

// 2,048 steps: a ring of all states; or a crowd of them between eight, by all keys.
typedef enum { RING, CROWD } Steps;

static Update nth_step(Steps shape, size_t p)
{
    if (shape == RING) return (Update){'E', p, (p + 1) % 2048, p % (MOST_KEY + 1)};
    return (Update){'E', p / 32 % 8, p / 256, p % 32};
}

// So many lines with these steps, each in its turn and others again between them; then, or not, lines that are refused, beside such that are
// not; then a verdict for all states at once.
static void add_repeated(Steps shape, size_t lines, int refused)
{
    Update out_of_7 = nth_step(shape, shape == RING ? 7 : 7 * 32);
    for (size_t left = lines, listed = 0; left > 0; left--) {
        int next = listed < 2048 && (listed == 0 || left <= 2048 - listed || one_in(2));
        add_update(nth_step(shape, next ? listed++ : below(listed)));
    }
    if (refused) {
        add_update((Update){'E', 7, 9, 7}), add_update(out_of_7);    // the list is full
        add_update((Update){'E', 7, 8, MOST_KEY + 1});
        add_update((Update){'C', 7, 0, 0}), add_update(out_of_7), add_update(nth_step(shape, 6));
    }
    for (size_t s = 0; s < 2047; s++) add_update((Update){'C', s, 0, 0});
    if (shape == RING) add_update(nth_step(shape, 2047));
    add_update((Update){one_in(2) ? 'C' : 'T', 2047, 0, 0});
}

// Few states and keys, so that most steps have come before.
static void add_presses(size_t lines, size_t states, size_t keys)
{
    for (size_t i = 0; i < lines; i++) {
        Update u = {one_in(12) ? "TC"[below(2)] : 'E', below(states), below(states), below(keys)};
        if (one_in(30)) u.key += MOST_KEY;
        if (u.kind != 'T' || one_in(3)) add_update(u);
    }
}

void repeated_records(size_t count, void (*hold)(size_t piece))
{
    static const struct {
        Steps shape;
        size_t lines;
    } long_ones[] = {{RING, 2049}, {CROWD, 8193}, {CROWD, 2049}, {RING, 0}};    // 0 for as many as a record may have
    for (size_t i = 0; i < 4 * (sizeof long_ones / sizeof *long_ones) && !failed; i += by_scale(5, 1, 1)) {
        start_counted((Form)(i % 2), i / 2 % 2 ? 2048 : 0);
        size_t lines = long_ones[i / 4].lines, most = MOST_LINES - 2055 - head_lines;
        add_repeated(long_ones[i / 4].shape, lines ? lines : most, (i / 2 + i / 4) % 2);
        hold(0);
    }
    for (size_t i = 0; i < count && !failed; i++) {
        size_t states = 1 + below(one_in(4) ? 60 : 4);
        progress(i, count);
        start_some(states);
        add_presses(below(one_in(8) ? 3000 : 80), states, 1 + below(one_in(2) ? 3 : MOST_KEY + 1));
        hold(0);
    }
}

// ---- damaged records

static uint8_t some_byte(void)
{
    static const char special[] = "\n\n\n\r \t00123456789--ETCetc+.,x";
    return one_in(4) ? (uint8_t)random_word() : (uint8_t)special[below(sizeof special)];    // its NUL too
}

static void insert_byte(size_t at, uint8_t byte)
{
    add_bytes("", 1);
    memmove(record + at + 1, record + at, record_length - 1 - at);
    record[at] = byte;
}

static void remove_bytes(size_t at, size_t count)
{
    memmove(record + at, record + at + count, record_length - at - count);
    record_length -= count;
}

// From a place to the end of its line, the newline not counted.
static size_t to_line_end(size_t at)
{
    const uint8_t *end = memchr(record + at, '\n', record_length - at);
    return end ? (size_t)(end - record) - at : record_length - at;
}

static void insert_zeros(size_t at)
{
    for (size_t i = 1 + below(12); i > 0; i--) insert_byte(at, '0');
}

// One damage between two places, or from the first to the end.
static void damage(size_t first, size_t end)
{
    if (end > record_length) end = record_length;
    if (end <= first) return;
    size_t at = first + below(end - first), left = record_length - at, how = below(9);
    if (how < 3) record[at] = some_byte();
    else if (how == 3) insert_byte(at, some_byte());
    else if (how == 4) remove_bytes(at, 1);
    else if (how == 5) remove_bytes(at, to_line_end(at));
    else if (how == 6) remove_bytes(at, below(left < 20 ? left : 20));
    else if (how == 7) insert_zeros(at);
    else record_length = one_in(4) ? at : record_length - 1;
}

void damaged_records(size_t count, void (*hold)(size_t piece))
{
    for (size_t i = 0; i < count && !failed; i++) {
        progress(i, count);
        random_record();
        for (size_t k = 1 + below(one_in(4) ? 20 : 3); k > 0; k--) damage(i % 8 ? head_length : 0, record_length);
        hold(0);
    }
}

// Lines of the head, exchanged: any of them where it should be, or in the place of another.
static void add_head_line(size_t count)
{
    size_t which = below(4);
    if (which == 0) add("states\n");
    else if (which == 1) add("%zu\n", count);
    else add("%s", names_line[form]);
}

// A head with up to three damages; or lines of one in any order, any number of times.
void damaged_heads(size_t count, void (*hold)(size_t piece))
{
    for (size_t i = 0; i < count && !failed; i++) {
        size_t states = 1 + below(one_in(4) ? 2048 : 12);
        progress(i, count);
        start_counted(some_form(), states);
        if (one_in(4))
            for (record_length = 0; record_length < 12 || one_in(2);) add_head_line(states);
        size_t end = record_length;
        add_explored(below(12), states, 1);
        for (size_t k = one_in(8) ? 0 : 1 + below(3); k > 0; k--) damage(0, end);
        if (record_length > 0 && one_in(4)) record_length--;
        hold(0);
    }
}

void noisy_records(size_t count, void (*hold)(size_t piece))
{
    for (size_t i = 0; i < count && !failed; i++) {
        progress(i, count);
        start_some(5);
        if (one_in(10)) record_length = below(record_length + 1);
        for (size_t k = below(4000); k > 0; k--) {
            uint8_t byte = some_byte();
            if (one_in(4)) add_update((Update){"ETC"[below(3)], below(5), below(5), below(MOST_KEY + 3)});
            add_bytes(&byte, 1);
        }
        hold(0);
    }
}

// ---- lines at the edges

static const char *const awkward[] = {    // without keys
    "", " ", "\r", "-", "E", "T", "C", "0", "E ", "E 0", "E 0 ", "T 0", "T 0 ", "E 0 1\r", "T 0 -\r", "E 0\r1", "\rE 0 1", "E  0 1",
    "E 0  1", " E 0 1", "E 0 1 ", "E 0 1 2", "E\t0 1", "E 0\t1", "T  0 -", "T 0  -", "T 0 - ", " T 0 -", "T 0 --", "T 0 0", "C 0 0",
    "T - -", "C - 0", "E 0 -", "E - 0", "E - -", "e 0 1", "t 0 -", "c 0 -", "X 0 1", "X 0 -", "EE 0 1", "E0 1", "T0 -", "E 01", "E 00 1",
    "E 0 01", "T 00 -", "C 01 -", "E 0 00", "T 007 -", "E +0 1", "E -0 1", "E 0 +1", "E 0x0 1", "E 0 1.", "E 0, 1", "E 1e1 0", "E a b",
    "E 2047 2047", "E 2048 0", "E 0 2048", "T 2048 -", "C 2048 -", "T 2047 -", "C 2047 -", "E 65535 65535", "E 65535 0", "E 0 65535",
    "T 65535 -", "C 65535 -", "E 65536 0", "E 0 65536", "T 65536 -", "C 65536 -", "E 65537 1", "E 65540 1", "E 99999 1", "E 1 99999",
    "E 70000 70000", "T 100000 -", "E 131072 1", "T 4294967296 -", "E 4294967296 1", "E 1 4294967297", "T 18446744073", "E 655350 1",
    "E 1 655350", "E 000 1", "E 65535 65535 ", "E 65535 65535  ", "E 65535 65535   ", "E 65535 65535    ", "E 00065535 65535",
    "E 000065535 65535", "T 0 -            ", "T 0 -           ", "T 0 -          ", "0123456789abcde", "0123456789abcdef",
    "0123456789abcdefg", "kind from to", "kind from to ", "KIND FROM TO", "E 1 2E 1 2", "T 1 -T 1 -", "E 0 1#", "\xef\xbb\xbf" "E 0 1",
    "E 0 1\xc2\xa0", "E\xc2\xa0" "0 1", "\x7f", "\xff", "E \xff 1", "E 0 \x80", "D 0 -", "F 0 1", "B 0 -", "S 0 -", "U 0 -", "E 0 /",
    "E 0 :", "E / 0", "E : 0", "T 0 ,", "T 0 .", "T 0 _", "T 1 - E 1 2", "end open 0", "5 dead 0", "EOF", "\x1a", "\x04",
};

static const char *const keyed_awkward[] = {    // state 2 is closed before
    "E 0 1 0", "E 0 1 7", "E 0 1 31", "E 0 1 32", "E 0 1 33", "E 0 1 99", "E 0 1 255", "E 0 1 256", "E 0 1 287", "E 0 1 311",
    "E 0 1 65535", "E 0 1 65536", "E 0 1 65567", "E 0 1 99999", "E 0 1 4294967296", "E 0 1 4294967303", "E 0 1 00", "E 0 1 07",
    "E 0 1 031", "E 0 1 0032", "E 0 1 000000031", "E 0 1 -", "E 0 1 -7", "E 0 1 +7", "E 0 1 0x7", "E 0 1 7.", "E 0 1 7x", "E 0 1 x",
    "E 0 1 /", "E 0 1 :", "E 0 1 ", "E 0 1 7 ", "E 0 1 7\r", "E 0 1  7", "E 0 1\t7", "E 0  1 7", "E 0 1 7 8", "E 0 1 7 -", "E 0 1,7",
    "E 0 1 7\xc2\xa0", "E 0 - 7", "E - 1 7", "E 0 - -", "E 00 1 7", "E 0 01 7", "E 2 1 31", "E 2 1 32", "E 2 2048 32", "E 2048 0 31",
    "E 2048 0 32", "E 0 2048 65535", "E 0 2048 65536", "E 2047 2047 31", "E 65535 65535 9", "E 65535 65535 31", "E 65535 65535 32",
    "E 65535 65535 99", "E 65535 65535 031", "E 65535 65535 255", "E 65535 65535 311", "E 65535 65535 31 ", "E 65535 6553 255",
    "E 655 655 65535", "E 6553 655 65535", "E 6553 6553 65535", "E 65536 0 7", "E 0 65536 7", "e 0 1 7", "X 0 1 7", "EE 0 1 7", "T 0 - -",
    "C 0 - -", "T 2 - -", "T 0 - 0", "C 0 - 7", "T 0 0 -", "C 0 7 -", "T 0 0 0", "C 0 7 31", "T 0 - --", "T 0 -- -", "T 0 - ", "T 0 - - ",
    "T 0 - -\r", "T 0 -  -", "T 0  - -", "T 0 -\t-", "T 0 - - -", "T 0 - - 7", "T 0 --", "T - - -", "C - - -", "T 00 - -", "C 2047 - -",
    "C 2048 - -", "T 65535 - -", "C 65536 - -", "T 0 - _", "T 0 - 0x", "t 0 - -", "T 65535 - -     ", "T 65535 - -      ",
    "kind from to key", "kind from to key ",
};

enum { AWKWARD = sizeof awkward / sizeof *awkward, KEYED_AWKWARD = sizeof keyed_awkward / sizeof *keyed_awkward };

// A line of one of the lists; with keys, those of the first list come as they are and with the field that they lack.
static void add_awkward(size_t i)
{
    if (i < AWKWARD) add("%s", awkward[i]);
    else if (i < AWKWARD + KEYED_AWKWARD) add("%s", keyed_awkward[i - AWKWARD]);
    else add_lines(awkward[i - AWKWARD - KEYED_AWKWARD]);
}

static size_t awkward_lines(void) { return AWKWARD + KEYED_AWKWARD + (form == WITH_KEYS ? AWKWARD : 0); }

// Each line alone, ended by a newline or not; then all of them in one record.
static void awkward_in(Form f, void (*hold)(size_t piece))
{
    form = f;
    for (size_t i = 0; i < 2 * awkward_lines() && !failed; i++) {
        progress(i, 2 * awkward_lines());
        start_record(f);
        add_lines("E 0 1\nC 2 -\n");
        add_awkward(i / 2);
        if (i % 2) add("\n"), add_lines("T 1 -\n");
        hold(0);
    }
    for (size_t last = 0; last < 4; last++) {
        start_counted(f, last < 2 ? 0 : last == 2 ? 2048 : 100);
        add_lines("C 2 -\n");
        for (size_t i = 0; i < awkward_lines(); i++) add_awkward(i), add("\n"), add_update((Update){'E', i, i + 1, some_key()});
        record_length -= last % 2;
        hold(0);
    }
}

void awkward_records(void (*hold)(size_t piece))
{
    for (Form f = 0; f < FORMS; f++) awkward_in(f, hold);
}

// ---- the names line

static const char *const other_beginnings[] = {
    "\n", "\n\n", "\nkind from to\n", "kind from to\r\nT 0 -\n", "kind from to \n", " kind from to\n", "Kind from to\n", "kind  from to\n",
    "kind from t\n", "kind from too\n", "kind from to kind\n", "kind from to kind\nT 0 -\n", "kind\nfrom\nto\n", "T 0 -\n",
    "T 0 -\nkind from to\n", "from to kind\n", "kind,from,to\n", "\xef\xbb\xbfkind from to\n", "kind from to\n\n", "kind from to\n\n\n",
    "kind from to\nkind from to\n", "kind from to\r", "kind from to\n\r",
    "kind from to key \nT 0 - -\n", "kind from to key\r\nT 0 - -\n", " kind from to key\nT 0 - -\n", "kind from to keys\nT 0 - -\n",
    "kind from to ke\nT 0 - -\n", "kind from to k\nT 0 - -\n", "kind from to  key\nT 0 - -\n", "kind from to\tkey\nT 0 - -\n",
    "kind from tokey\nT 0 - -\n", "kind from key\nT 0 -\n", "kind from key to\nT 0 - -\n", "kind from to Key\nT 0 - -\n",
    "kind from to key key\nT 0 - - -\n", "kind from to -\nT 0 - -\n", "kind from to 31\nT 0 - -\n", "kind,from,to,key\nT 0 - -\n",
    "kind from to key\nkind from to key\n", "kind from to key\nkind from to\nT 0 -\n", "kind from to\nkind from to key\nT 0 - -\n",
    "kind from to\n key\nT 0 -\n", "key\nkind from to\n", "kind from to key\n\n", "kind from to key\n\r", "KIND FROM TO KEY\n",
    "E 0 1 7\nkind from to key\n",
};

enum { OTHER_BEGINNINGS = sizeof other_beginnings / sizeof *other_beginnings };

// A record, and every beginning of it.
static void hold_beginnings(void (*hold)(size_t piece))
{
    for (; record_length > 0 && !failed; record_length--) hold(record_length % 2);
}

// Texts that are no heads, or not the usual ones; with every beginning of each that is shorter by so many bytes, twice as many, and so on.
static void hold_texts(const char *const *texts, size_t count, size_t by, void (*hold)(size_t piece))
{
    for (size_t i = 0; i < count && !failed; i++) {
        progress(i, count);
        record_length = 0;
        add("%s", texts[i]);
        for (; record_length > 0 && !failed; record_length -= record_length < by ? record_length : by) hold(0);
    }
}

void beginnings(void (*hold)(size_t piece))
{
    for (Form f = 0; f < FORMS; f++) {
        start_record(f);
        add_lines("T 0 -\nE 1 0\nC 1 -\n");
        hold_beginnings(hold);
        start_counted(f, 2);
        add_lines("T 0 -\nE 1 0\nE 0 2\nC 1 -\n");
        hold_beginnings(hold);
    }
    hold(0), hold(1);
    hold_texts(other_beginnings, OTHER_BEGINNINGS, 1, hold);
    for (size_t i = 0; i < 4 * 20 && !failed; i++) {
        start_counted((Form)(i % 2), i / 2 % 2 ? 2 : 0);
        add_lines("E 0 1\nT 1 -\n");
        record[i / 4] = 0;
        hold(0);
    }
}

// ---- a count before the names line

static const char *const heads[] = {
    "states\n9\nkind from to\nT 8 -\nT 9 -\n", "states\n9\nkind from to key\nT 8 - -\nT 9 - -\nE 8 9 31\nE 9 8 32\n",
    "states\n2048\nkind from to\nT 2047 -\nT 2048 -\n", "states\n1\nkind from to key\nE 0 0 7\nE 0 1 7\nC 0 - -\n",
    "states\nkind from to\nT 0 -\n", "states\nkind from to\n9\nT 0 -\n", "states\nT 0 -\n", "states\n\nkind from to\nT 0 -\n",
    "states\n\n9\nkind from to\n", "\nstates\n9\nkind from to\n", "states\n9\n\nkind from to\n", "states\n9\nT 0 -\n",
    "states\n9\nT 0 -\nkind from to\n", "states\n9\n9\nkind from to\n", "states\n9\n10\nkind from to\n",
    "states\nstates\n9\nkind from to\n", "states\nstates\nkind from to\n", "states\n9\nstates\n9\nkind from to\n",
    "states\n9\nstates\nkind from to\n", "states\n9\nkind from to\nstates\n5\nT 5 -\nT 9 -\n",
    "states\n9\nkind from to key\nstates\n5\nT 5 - -\nT 9 - -\n", "states\n9\nkind from to\nkind from to\nT 0 -\n",
    "states\n9\nkind from to\nkind from to key\nT 0 - -\nT 1 -\n", "states\n9\nkind from to key\nkind from to\nT 0 -\nT 1 - -\n",
    "kind from to\nstates\n9\nT 8 -\nT 9 -\n", "kind from to key\nstates\n9\nT 8 - -\nT 9 - -\n",
    "kind from to\nT 8 -\nstates\n9\nT 9 -\n", "kind from to\n9\nT 9 -\n", "9\nkind from to\nT 0 -\n", "9\nstates\nkind from to\n",
    "states\r\n9\r\nkind from to\r\nT 0 -\r\n", "states\r\n9\nkind from to\n", "states\n9\r\nkind from to\n",
    "states\n9\nkind from to\r\nT 0 -\n", "states\r9\rkind from to\r", "states\n\r\nkind from to\n", "\rstates\n9\nkind from to\n",
    "states\n\r9\nkind from to\n", "states\n9\n\rkind from to\n", "states \n9\nkind from to\n", " states\n9\nkind from to\n",
    "States\n9\nkind from to\n", "STATES\n9\nkind from to\n", "state\n9\nkind from to\n", "statess\n9\nkind from to\n",
    "tates\n9\nkind from to\n", "states:\n9\nkind from to\n", "states 9\nkind from to\n", "states9\nkind from to\n",
    "states,9\nkind from to\n", "states 9 kind from to\n", "states\t\n9\nkind from to\n", "\xef\xbb\xbfstates\n9\nkind from to\n",
    "states\n\xef\xbb\xbf" "9\nkind from to\n", "states\n9 kind from to\n", "states\n9\nkind from to \nT 0 -\n",
    "states\n9\nkind from to ke\nT 0 - -\n", "states\n9\nkind from\nT 0 -\n", "states\n9\nKind from to\nT 0 -\n",
    "states\n9\nE 0 1\n", "kind from to states\n9\n", "states kind from to\n", "n\n9\nkind from to\n", "states\nnine\nkind from to\n",
    "9\n", "9 states\nkind from to\n", "states states\n9\nkind from to\n",
};

// What is no count, but for the first ones.
static const char *const counts[] = {
    "1", "9", "10", "99", "100", "999", "1000", "1999", "2000", "2047", "2048", "2049", "2050", "2147", "2148", "2058", "3048", "9999",
    "10000", "20480", "20470", "32768", "65535", "65536", "65537", "65545", "67583", "67584", "131073", "2147483648", "2147483657",
    "4294967295", "4294967296", "4294967297", "4294967305", "4294969344", "9223372036854775807", "9223372036854775817",
    "18446744073709551615", "18446744073709551616", "18446744073709551617", "18446744073709551625", "18446744073709553664",
    "340282366920938463463374607431768211465", "0", "00", "000", "0000", "01", "09", "001", "009", "0009", "00009", "02048", "002048",
    "0000000000000009", "00000000000000009", "000000000000000009", "0000000000002048", "9000000000000000", "90000000000000000", "+9", "-9",
    "-0", "+0", "-1", "+2048", "--9", "- 9", " 9", "  9", "9 ", "9  ", " 9 ", "9               ", "9                ", "\t9", "9\t", "9\r",
    "\r9", "9\v", "9\f", "9 9", "9 -", "9 - -", "- -", "9,", "9.", "9.0", "0.9", ".9", "9e0", "1e3", "1E3", "0x9", "0b1", "9x", "x9", "9u",
    "9L", "2,048", "2.048", "2 048", "2'048", "2_048", "20 48", "x", "", " ", "-", "*", "#9", "\"9\"", "(9)", "9\xc2\xa0", "\xc2\xa0" "9",
    "\xd9\xa9", "\xef\xbc\x99", "\xc2\xb9", "IX", "nine", "NaN", "inf", "/", ":", "9/", "9:", "/9", ":9", "1/1", "\x7f", "\xff", "\xb9",
    "states", "states 9", "kind from to", "kind from to key", "T 9 -", "E 0 9", "n", "all", "end open 9", "2048 states", "9\x1a", "9\x04",
};

enum { HEADS = sizeof heads / sizeof *heads, COUNTS = sizeof counts / sizeof *counts };

// A line that is to be the count, and lines around it.
static void hold_count(Form f, const char *count, size_t bytes, size_t near, void (*hold)(size_t piece))
{
    size_t last = near ? near - 1 : 0;
    form = f;
    record_length = 0;
    add("states\n"), add_bytes(count, bytes), add("\n%s", names_line[f]);
    add_update((Update){'E', last, last, some_key()}), add_update((Update){'E', last, near, some_key()});
    add_update((Update){'T', near, 0, 0}), add_update((Update){'C', last, 0, 0}), add_update((Update){'C', near + 1, 0, 0});
    hold(0);
}

void each_count(size_t step, void (*hold)(size_t piece))
{
    char text[16];
    for (size_t count = 0; count <= 2100 && !failed; count += step) {
        progress(count, 2100);
        hold_count((Form)(count / step % 2), text, (size_t)sprintf(text, "%zu", count), count, hold);
    }
    for (size_t count = 2040; count <= 2056 && !failed; count++)    // and all of these
        hold_count((Form)(count % 2), text, (size_t)sprintf(text, "%zu", count), count, hold);
}

// A record of n states, each at random of one of the statuses whose bits are in the mix. The last state is open where another is unknown.
static void mixed_record(size_t n, unsigned mix)
{
    start_counted(some_form(), n);
    add_update((Update){'E', n - 1, n - 1, some_key()});
    for (size_t s = 0; s < n - 1; s++) {
        size_t status = below(5);
        while (!(mix >> status & 1)) status = (status + 1) % 5;
        if (status == OPEN) add_update((Update){'E', s, s, some_key()});
        if (status == UNKNOWN) add_update((Update){'E', s, n - 1, some_key()});
        if (status == LIVE) add_update((Update){'T', s, 0, 0});
        if (status == UNKNOWN || status == DEAD) add_update((Update){'C', s, 0, 0});
    }
    if (mix == 1 << LIVE) add_update((Update){'T', n - 1, 0, 0});
    if (mix == 1 << DEAD) add_update((Update){'C', n - 1, 0, 0});
}

void each_mix(void (*hold)(size_t piece))
{
    static const size_t counts[] = {1, 2, 15, 16, 17, 127, 128, 129, 130, 255, 256, 257, 258, 511, 512, 513, 1000, 1024, 2047, 2048};
    for (size_t i = 0; i < 31 * 20 && !failed; i++) {
        progress(i, 31 * 20);
        mixed_record(counts[i / 31], (unsigned)(i % 31 + 1));
        hold(0);
    }
}

// Bytes behind the word or the count, or in the place of one, up to many more than a line may have.
static void long_heads(void (*hold)(size_t piece))
{
    static const char *const before[] = {"states", "", "states\n", "states\n9", "states\n1", "states\n9\nkind from to", "states\n9\n"};
    static const uint8_t of[] = {'0', ' ', 's', '1', 0, '\r', 255};
    size_t lengths[24 + 4] = {255, 256, 65536, LONGEST};
    for (size_t i = 0; i < 24; i++) lengths[4 + i] = i + 1;
    for (size_t i = 0; i < 7 * 28 && !failed; i++) {
        size_t bytes = lengths[i / 7];
        for (size_t k = 0; k < by_scale(1, bytes > 65536 ? 1 : 7, 7) && !failed; k++) {
            progress(i, 7 * 28);
            record_length = 0, form = WITHOUT_KEYS;
            add("%s", before[i % 7]), add_run(of[(i + k) % 7], bytes), add("\n9\nkind from to\nT 8 -\n");
            hold(0);
        }
    }
}

// Texts; then each count that is none, with lines behind it, at the end of the record, and with its newline there.
void other_heads(void (*hold)(size_t piece))
{
    hold_texts(heads, HEADS, by_scale(7, 1, 1), hold);
    for (size_t i = 0; i < COUNTS && !failed; i++) {
        progress(i, COUNTS);
        hold_count((Form)(i % 2), counts[i], strlen(counts[i]), 9, hold);
        record_length = 0;
        add("states\n%s\n", counts[i]);
        hold(0), record_length--, hold(0);
    }
    long_heads(hold);
}

// ---- many lines, and long ones

static void add_shape(Shape shape)
{
    if (shape == TERMINALS) add_lines("T 7 -\n");
    else if (shape == BLANK) add("\n");
    else if (shape == MALFORMED) add("E 1 2 \n");
    else if (one_in(3)) add_awkward(below(awkward_lines())), add("\n");
    else add_explored(1, 1 + below(2048), 0);
}

void lines_record(size_t count, size_t lines, Shape shape, const char *last, size_t newline)
{
    start_counted(some_form(), count);
    for (size_t i = head_lines + 1; i < lines; i++) add_shape(shape);
    add_lines(last);
    if (newline) add("\n");
}

void many_lines(size_t count, void (*hold)(size_t piece))
{
    static const char *const last[] = {"T 0 -", "", "E 1 2 ", "T 1 -x 2 3 4 5 6 7 8 9"};
    size_t marks = by_scale(24, 32, 32);
    for (size_t i = 0; i < marks + count && !failed; i++) {
        size_t lines = MOST_LINES - 1 + i % 4;
        progress(i, marks + count);
        if (i < marks) lines_record(i / 16 ? 8 : 0, lines, TERMINALS, last[i / 4 % 4], i / 4 % 4 == 1 || one_in(2));
        else lines_record(some_count(8), lines, (Shape)(1 + i / 4 % 3), last[below(4)], one_in(2));
        hold(0);
    }
}

// Bytes without a newline: as the names line, or as a later line, with and without lines behind it.
void long_lines(void (*hold)(size_t piece))
{
    static const uint8_t of[] = {'0', ' ', 0, '\r', 'E', 255};
    for (size_t i = 0; i < 12 && !failed; i++) {
        progress(i, 12);
        start_some(4);
        if (i < 3) record_length = 0;
        if (i >= 3) add_lines("E 0 1\n");
        if (i >= 6) add_lines("T 1 -\n");
        if (i >= 8) add(form == WITH_KEYS ? "E 65535 65535 31" : "E 65535 65535");
        add_run(of[i % 6], i % 3 == 0 ? LONGEST : 65536 * i);
        if (i % 2) add("\n"), add_lines("E 2 3\nC 2 -\nC 3 -\nC 3 -");
        hold(0);
    }
    for (size_t i = 2; i < 2 * 80 && !failed; i++) {
        size_t bytes = i / 2;
        start_counted((Form)(i % 2), one_in(2) ? 3 : 0);
        add("E 0 "), add_run('0', bytes), add("\n"), add_lines("T 0 -\n"), add_run('1', bytes), add("\n");
        add("E 1 2 "), add_run('3', bytes), add("\n"), add_run(' ', bytes);
        hold(0);
    }
}

// ---- records that come in pieces

void records_in_pieces(size_t count, void (*hold)(size_t piece))
{
    for (size_t i = 0; i < count && !failed; i++) {
        size_t pieces[] = {1, 2, 3, 1 + below(20), 15, 16, 17, 1 + below(100), 1 + below(PIECE_MOST), PIECE_MOST};
        progress(i, count);
        random_record();
        for (size_t k = below(4); k > 0; k--) damage(0, record_length);
        size_t piece = pieces[below(10)], least = record_length / 200;
        hold(piece > least ? piece : 1 + least);
    }
}

// Heads with lines behind them, that end early, and that are refused, each cut by every length.
void heads_in_pieces(void (*hold)(size_t piece))
{
    static const char *const texts[] = {
        "states\n9\nkind from to\nT 8 -\nT 9 -", "states\n2048\nkind from to key\nE 2047 0 31\nE 2048 0 31\nC 0 - -\nC 2047 - -\n",
        "states\n12\nkind from to keys\nT 0 - -\n", "states\n2049\nkind from to\nT 0 -\n", "states\n12 \nkind from to\nT 0 -\n",
        "states\n12\n", "states\n12", "states\n", "states", "states \n12\nkind from to\n", "states\n12\nstates\n12\nkind from to\n",
        "kind from to\nstates\n12\nT 11 -\nT 12 -\n",
    };
    for (size_t i = 0; i < sizeof texts / sizeof *texts && !failed; i++) {
        record_length = 0;
        add("%s", texts[i]);
        for (size_t piece = 1; piece <= record_length && !failed; piece += by_scale(3, 1, 1)) hold(piece);
    }
}

// Lines across the places where a program that reads by 65,536 bytes would cut, by every distance.
void cut_lines(void (*hold)(size_t piece))
{
    for (size_t i = 0; i < 2 * 75 && !failed; i++) {
        start_counted((Form)(i % 2), i / 2 % 2 ? 346 : 0);
        for (size_t cut = 65536; cut < 4 * 65536; cut += 65536) {
            add_run('x', cut - record_length - 70 + i / 2);
            add("\n"), add_update((Update){'E', cut / 65536, 345, some_key()});
            add_lines("T 345 -\nE 0 12\nC 12 -\nX\nE 7 12\n\nC 345 -\nC 7 -\n");
        }
        hold(0);
    }
}
