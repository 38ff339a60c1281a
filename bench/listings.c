// The benchmark's second part: the proved listing program and the same in plain C (bench/listing.c), each run as a process on records of
// several kinds. `listings PROVED PLAIN FOLDER [PAGE]`: keeps the records in the folder, and adds a section to the page.
#include "../tests/random.h"
#include "engines.h"
#include "page.h"
#include <fcntl.h>
#include <stdio.h>
#include <stdlib.h>
#include <string.h>
#include <sys/wait.h>
#include <time.h>
#include <unistd.h>

enum { RUNS = 201, LINES = 65535, MOST_BYTES = 1 << 23 };

uint64_t random_state;

// ---- records

static char text[MOST_BYTES];
static size_t bytes, lines;

static void line(const char *s)
{
    bytes += (size_t)snprintf(text + bytes, sizeof text - bytes, "%s\n", s);
    lines++;
}

// Whether the lines of the record at hand have keys.
static int keyed;

static void step_by(size_t u, size_t v, size_t key)
{
    char s[48];
    int end = snprintf(s, sizeof s, "E %zu %zu", u, v);
    if (keyed) snprintf(s + end, sizeof s - (size_t)end, " %zu", key);
    line(s);
}

static void step(size_t u, size_t v) { step_by(u, v, lines % (MAX_KEY + 1)); }

static void mark(char kind, size_t u)
{
    char s[32];
    snprintf(s, sizeof s, keyed ? "%c %zu - -" : "%c %zu -", kind, u);
    line(s);
}

static void begin(int with_keys)
{
    keyed = with_keys;
    line(keyed ? "kind from to key" : "kind from to");
}

static void names(void) { begin(1); }

// A head with a count of states, as the writer puts it.
static void counted(const char *count) { line("states"), line(count), names(); }

static void names_alone(void) { names(); }

// Steps between any states until their limit, few marks and closes among them.
static void random_updates(void)
{
    while (lines < LINES) {
        size_t u = below(MAX_STATES), chance = below(100);
        if (chance < 2) mark('T', u);
        else if (chance < 10) mark('C', u);
        else step(u, below(MAX_STATES));
    }
}

static void random_steps(void) { names(), random_updates(); }
static void random_without_keys(void) { begin(0), random_updates(); }

static void random_marks(void)
{
    for (names(); lines < LINES;) mark(one_in(2) ? 'T' : 'C', below(MAX_STATES));
}

// Each of 512 states with four steps, some with a mark, and its close; then the same again, refused.
static void explored(void)
{
    names();
    for (size_t s = 0; lines + 6 <= LINES; s = (s + 1) % 512) {
        for (int i = 0; i < 4; i++) step(s, below(512));
        if (one_in(50)) mark('T', s);
        mark('C', s);
    }
    while (lines < LINES) mark('C', 0);
}

// A ring of all states, each with its step and its close; then the same again, refused.
static void ring(int backwards)
{
    names();
    for (size_t i = 0; lines + 2 <= LINES; i = (i + 1) % MAX_STATES) {
        size_t s = backwards ? MAX_STATES - 1 - i : i;
        step(s, (s + 1) % MAX_STATES);
        mark('C', s);
    }
}

static void ring_forwards(void) { ring(0); }
static void ring_backwards(void) { ring(1); }

// Each state is marked or closed, and so has its verdict at once.
static void news_each(void)
{
    names();
    for (size_t s = 0; s < MAX_STATES; s++) mark(s % 2 ? 'T' : 'C', s);
}

static void marked_again(void)
{
    for (names(); lines < LINES;) mark('T', lines % MAX_STATES);
}

static void too_large(void)
{
    for (names(); lines < LINES;) step(MAX_STATES + below(65536 - MAX_STATES), below(MAX_STATES));
}

static void key_too_large(void)
{
    for (names(); lines < LINES;) step_by(below(MAX_STATES), below(MAX_STATES), MAX_KEY + 1 + below(99 - MAX_KEY));
}

static void malformed(void)
{
    static const char *const forms[] = {"", "E 1 2", "E 01 2 3", "E 1 2 3\r", "X 1 2 3", "E 65536 1 3", "T 3 - 4", "C 3 - -x", "E  1 2 3",
                                        "kind from to key", "E 1 2 3 ", "E 1234567890 12345 3", "T - - -", "e 1 2 3", "C 1024 1024 -",
                                        "E 1024 2 -"};
    for (names(); lines < LINES;) line(forms[below(sizeof forms / sizeof *forms)]);
}

static void long_lines(void)
{
    for (names(); lines < LINES;) line("E 1024 1024, and then more bytes than a line of a record may have");
}

static void wrong_names(void)
{
    line("kind, from, to, key");
    keyed = 1;
    while (lines < LINES) step(below(MAX_STATES), below(MAX_STATES));
}

static void too_many(void)
{
    for (names(); lines < 2 * LINES;) step(below(MAX_STATES), below(MAX_STATES));
}

// As many different steps as are listed, all of them again and again.
static void steps_again(void)
{
    for (names(); lines < LINES;) step_by(lines % MAX_STATES, (lines + 1) % MAX_STATES, lines % MAX_STATES % (MAX_KEY + 1));
}

// A model of nine states: each with its steps to all others, by two keys, and its close.
static void nine_states(void)
{
    counted("9");
    for (size_t s = 0; s < 9; s++) {
        for (size_t i = 0; i < 18; i++) step_by(s, i / 2, i % 2);
        mark(s % 4 ? 'C' : 'T', s);
    }
}

// Every line names a state at or above the count.
static void above_count(void)
{
    for (counted("9"); lines < LINES;) step(9 + below(MAX_STATES - 9), below(9));
}

static const struct {
    const char *name;
    void (*make)(void);
} kinds[] = {
    {"steps until the limit, then 9", random_steps},
    {"the same kind without keys", random_without_keys},
    {"terminal marks and closes", random_marks},
    {"an explorer's steps and closes, then 6 and closes again", explored},
    {"a ring read forwards, then 6 and closes again", ring_forwards},
    {"a ring read backwards, then 6 and closes again", ring_backwards},
    {"news with the first mark of each state", marked_again},
    {"news with each update", news_each},
    {"each line refused with 5", too_large},
    {"each line refused with 14", key_too_large},
    {"each line refused with 11", malformed},
    {"each line refused with 11, of 65 bytes", long_lines},
    {"10 at line 1, the rest not read", wrong_names},
    {"12 at line 65,536, the rest not read", too_many},
    {"the names line alone", names_alone},
    {"2,048 steps, each again and again", steps_again},
    {"a model of nine states, counted", nine_states},
    {"each line refused with 5, by a count of 9", above_count},
};

enum { KINDS = sizeof kinds / sizeof *kinds };

// ---- running a program

static const char *proved, *plain, *folder;

typedef struct {
    char name[512];
} Path;

static Path in_folder(const char *name)
{
    Path path;
    snprintf(path.name, sizeof path.name, "%s/%s", folder, name);
    return path;
}

static void fail(const char *what)
{
    perror(what);
    exit(2);
}

static void redirect(const char *path, int flags, int to)
{
    int fd = open(path, flags, 0644);
    if (fd < 0 || dup2(fd, to) < 0) _exit(127);
}

static double now(void)
{
    struct timespec t;
    clock_gettime(CLOCK_MONOTONIC, &t);
    return (double)t.tv_sec * 1e9 + (double)t.tv_nsec;
}

// Runs a program on a record, its listing into a file, and answers the nanoseconds from the fork to the end.
static double run(const char *program, const char *record, const char *listing)
{
    int status;
    double start = now();
    pid_t child = fork();
    if (child < 0) fail("fork");
    if (child == 0) {
        redirect(record, O_RDONLY, 0);
        redirect(listing, O_WRONLY | O_CREAT | O_TRUNC, 1);
        execl(program, program, (char *)NULL);
        _exit(127);
    }
    if (waitpid(child, &status, 0) != child || status != 0) fail(program);
    return now() - start;
}

// ---- measuring

static size_t read_file(const char *path, char *into)
{
    FILE *f = fopen(path, "rb");
    if (!f) fail(path);
    size_t len = fread(into, 1, MOST_BYTES, f);
    fclose(f);
    return len;
}

// The length of the listing, which must be the same bytes from both programs.
static size_t hold(const char *record, const char *name)
{
    static char a[MOST_BYTES], b[MOST_BYTES];
    Path one = in_folder("proved.listing"), other = in_folder("plain.listing");
    run(proved, record, one.name);
    run(plain, record, other.name);
    size_t len = read_file(one.name, a);
    if (read_file(other.name, b) == len && !memcmp(a, b, len)) return len;
    out("The programs disagree: %s\n", name);
    exit(1);
}

// Of one record or several: lines and bytes read, bytes listed, and nanoseconds.
typedef struct {
    size_t lines, bytes, listed;
    double proved, plain;
} Sum;

static double ratio(Sum s) { return s.proved / s.plain; }

static void row(const char *name, Sum s)
{
    out("| %-44s | %7zu | %8zu | %8zu | %7.3f | %7.3f | %5.2f |\n", name, s.lines, s.bytes, s.listed, s.proved / 1e6, s.plain / 1e6,
        ratio(s));
}

static void make_record(int k, const char *path)
{
    random_state = (uint64_t)k;
    bytes = lines = 0;
    kinds[k].make();
    FILE *f = fopen(path, "wb");
    if (!f || fwrite(text, 1, bytes, f) != bytes || fclose(f)) fail(path);
}

// Makes one record, holds both programs to the same listing of it, and measures them.
static Sum measure(int k)
{
    static double p[RUNS], c[RUNS];
    char name[32];
    snprintf(name, sizeof name, "%02d.record", k);
    Path record = in_folder(name);
    make_record(k, record.name);
    size_t listed = hold(record.name, kinds[k].name);
    for (int i = 0; i < RUNS; i++) p[i] = run(proved, record.name, "/dev/null"), c[i] = run(plain, record.name, "/dev/null");
    return (Sum){lines, bytes, listed, median(p, RUNS), median(c, RUNS)};
}

static void add(Sum *into, Sum s)
{
    into->lines += s.lines, into->bytes += s.bytes, into->listed += s.listed;
    into->proved += s.proved, into->plain += s.plain;
}

static void show_listings(void)
{
    Sum all = {0};
    double worst = 0;
    out("| record                                       | lines   | bytes    | listed   | proved  | C       | p / C |\n");
    out("| -------------------------------------------- | ------: | -------: | -------: | ------: | ------: | ----: |\n");
    for (int k = 0; k < KINDS; k++) {
        progress("listings,", kinds[k].name);
        Sum s = measure(k);
        progress("", "");
        row(kinds[k].name, s);
        if (ratio(s) > worst) worst = ratio(s);
        add(&all, s);
    }
    row("over all", all);
    out("\n");
    goal("proved / C over all, at most 1.5", ratio(all), ratio(all) <= 1.5);
    goal("proved / C on the worst record, at most 1.5", worst, worst <= 1.5);
}

int main(int argc, char **argv)
{
    if (argc < 4) return 2;
    proved = argv[1], plain = argv[2], folder = argv[3];
    open_page(argv[4], "a");
    out("\n## Listings\n\n"
        "Milliseconds a record for the proved listing program and for the same program in plain C, each a process, from its start to its\n"
        "end, with nothing taken off; lines and bytes of the record, and bytes of its listing. Medians of %d runs of each record, the\n"
        "programs in turn, by the clock on the wall. Both programs printed the same bytes. The records begin with `kind from to key`, and\n"
        "their steps have each key in turn, but for the one without keys, which begins with `kind from to`; two have a count of states\n"
        "before it.\n\n",
        RUNS);
    show_listings();
    return close_page();
}
