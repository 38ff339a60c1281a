// The benchmark: the update lists of document 000's classes, as large as the tables allow, through the proved engine, the builds of the
// same algorithm in plain C and the naive engine, all in one process. Prints tables, and writes the same to the file named by its argument.
#include "engines.h"
#include "page.h"
#include <stdio.h>
#include <stdlib.h>
#include <string.h>

enum { RUNS = 41, MOST_UPDATES = MAX_STEPS + 2 * MAX_STATES };

// ---- random numbers, the same in every run

static uint64_t seed;

static size_t below(size_t k)
{
    seed ^= seed << 13, seed ^= seed >> 7, seed ^= seed << 17;
    return (size_t)((seed >> 11) % k);
}

// ---- graphs: n, and the steps by rising source

static size_t n, edges;
static uint16_t edge_from[MAX_STEPS], edge_to[MAX_STEPS];

static void edge(size_t a, size_t b)
{
    if (edges == MAX_STEPS) return;
    edge_from[edges] = (uint16_t)a;
    edge_to[edges++] = (uint16_t)b;
}

static void line(size_t size, size_t d)
{
    (void)d;
    n = size;
    for (size_t i = 0; i + 1 < n; i++) edge(i, i + 1);
}

static void cycle(size_t size, size_t d)
{
    (void)d;
    n = size;
    for (size_t i = 0; i < n; i++) edge(i, (i + 1) % n);
}

static void complete(size_t size, size_t d)
{
    (void)d;
    n = size;
    for (size_t i = 0; i < n; i++)
        for (size_t j = 0; j < n; j++) edge(i, j);
}

static void acyclic(size_t size, size_t d)
{
    (void)d;
    n = size;
    for (size_t i = 0; i < n; i++)
        for (size_t j = i + 1; j < n; j++) edge(i, j);
}

// From each of d states to each of the others; d = 0 halves them.
static void bipartite(size_t size, size_t d)
{
    n = size;
    size_t left = d ? d : n / 2;
    for (size_t i = 0; i < left; i++)
        for (size_t j = left; j < n; j++) edge(i, j);
}

static void both_ways(size_t size, size_t d)
{
    (void)d;
    n = size;
    for (size_t i = 0; i < n; i++)
        for (size_t j = 0; j < n / 2; j++) edge(i, i < n / 2 ? n / 2 + j : j);
}

static void sparse(size_t size, size_t d)
{
    n = size;
    for (size_t i = 0; i < n; i++)
        for (size_t j = 0; j < d; j++) edge(i, below(n));
}

static void dense(size_t size, size_t percent)
{
    n = size;
    for (size_t i = 0; i < n; i++)
        for (size_t j = 0; j < n; j++)
            if (below(100) < percent) edge(i, j);
}

typedef struct {
    const char *name;
    void (*make)(size_t size, size_t d);
    size_t size, d;
    int random;
} Class;

// Sizes: the largest that 2,048 states and 8,192 steps allow; for the dense ones, that their seeds allow.
static const Class classes[] = {
    {"line", line, 2048, 0, 0},
    {"cycle", cycle, 2048, 0, 0},
    {"complete", complete, 90, 0, 0},
    {"complete acyclic", acyclic, 128, 0, 0},
    {"bipartite", bipartite, 180, 0, 0},
    {"bipartite, both ways", both_ways, 128, 0, 0},
    {"sparse, out-degree 1", sparse, 2048, 1, 1},
    {"sparse, out-degree 2", sparse, 2048, 2, 1},
    {"sparse, out-degree 3", sparse, 2048, 3, 1},
    {"sparse, out-degree 4", sparse, 2048, 4, 1},
    {"sparse, out-degree 10", sparse, 819, 10, 1},
    {"dense, .01", dense, 890, 1, 1},
    {"dense, .02", dense, 630, 2, 1},
    {"dense, .03", dense, 515, 3, 1},
    {"dense, .50", dense, 126, 50, 1},
};

static const Class growing[] = {
    {"line", line, 0, 0, 0},
    {"cycle", cycle, 0, 0, 0},
    {"bipartite, 4 to n - 4", bipartite, 0, 4, 0},
    {"sparse, out-degree 1", sparse, 0, 1, 1},
    {"sparse, out-degree 2", sparse, 0, 2, 1},
    {"sparse, out-degree 3", sparse, 0, 3, 1},
    {"sparse, out-degree 4", sparse, 0, 4, 1},
};

enum { CLASSES = sizeof classes / sizeof *classes, GROWING = sizeof growing / sizeof *growing, SEEDS = 3 };

// ---- update lists: the states in order, each with its steps, by each key in turn, and then its close

enum { FORWARDS, BACKWARDS, ORDERS };
enum { ENDED_DEAD, ENDED_UNKNOWN, WITH_TERMINALS, ENDINGS };

static const char *const orders[] = {"forwards", "backwards"};
static const char *const endings[] = {"ended dead", "ended unknown", "with terminals"};

typedef struct {
    uint8_t kind, key;
    uint16_t first, second;
} Sent;

static Sent list[MOST_UPDATES];
static size_t count;

static void put(uint8_t kind, size_t first, size_t second, size_t key)
{
    list[count++] = (Sent){kind, (uint8_t)key, (uint16_t)first, (uint16_t)second};
}

// The state that a list ended unknown leaves open: the last one read, or the last one where no step leaves it.
static size_t left_open(const Class *c, int order)
{
    return c->random || c->make == cycle ? (order == BACKWARDS ? 0 : n - 1) : n - 1;
}

static void make_list(const Class *c, size_t size, int order, int ending, int nth)
{
    static size_t start[MAX_STATES + 1];
    seed = 88172645463325252u + (uint64_t)nth * 1000003;
    edges = count = 0;
    c->make(size, c->d);
    memset(start, 0, sizeof start);
    for (size_t e = 0; e < edges; e++) start[edge_from[e] + 1]++;
    for (size_t s = 0; s < n; s++) start[s + 1] += start[s];
    size_t spare = ending == ENDED_UNKNOWN ? left_open(c, order) : n;
    for (size_t i = 0; i < n; i++) {
        size_t s = order == BACKWARDS ? n - 1 - i : i;
        for (size_t e = start[s]; e < start[s + 1]; e++) put('E', s, edge_to[e], e % (MAX_KEY + 1));
        if (ending == WITH_TERMINALS && below(50) == 0) put('T', s, 0, 0);
        if (s != spare) put('C', s, 0, 0);
    }
}

// ---- the tables, the same memory for each engine; visited marks have an entry for each state, of which the naive engine alone uses all

static uint8_t status[MAX_STATES], marks[MAX_STATES], key[MAX_STEPS];
static uint16_t from[MAX_STEPS], to[MAX_STEPS], successor[MAX_STATES], news[MAX_STATES];
static uint16_t in_head[MAX_STATES], out_head[MAX_STATES], queue[MAX_STATES], visited[MAX_STATES];
static uint16_t in_next[MAX_STEPS], out_next[MAX_STEPS];

static void fresh(void)
{
    memset(status, 0, sizeof status), memset(marks, 0, sizeof marks), memset(successor, 255, sizeof successor);
    memset(in_head, 0, sizeof in_head), memset(out_head, 0, sizeof out_head), memset(queue, 0, sizeof queue);
    memset(visited, 0, sizeof visited), memset(in_next, 0, sizeof in_next), memset(out_next, 0, sizeof out_next);
}

// As many steps as there can be, but where a list is to be full.
static size_t limit = MAX_STEPS;

static inline uint32_t send(update_call *update, Sent u, size_t *steps)
{
    return update(n, limit, steps, u.kind, u.first, u.second, u.key, status, MAX_STATES, marks, MAX_STATES, from, MAX_STEPS, to,
                  MAX_STEPS, key, MAX_STEPS, successor, MAX_STATES, news, MAX_STATES, in_head, MAX_STATES, out_head, MAX_STATES, queue,
                  MAX_STATES, visited, MAX_STATES, in_next, MAX_STEPS, out_next, MAX_STEPS);
}

static double run(update_call *update)
{
    size_t steps = 0;
    fresh();
    double start = thread_time();
    for (size_t i = 0; i < count; i++) send(update, list[i], &steps);
    return thread_time() - start;
}

// Not a call that the compiler knows to do nothing.
__attribute__((noipa)) static uint32_t empty_update(PARAMETERS)
{
    (void)n, (void)limit, (void)steps, (void)kind, (void)first, (void)second, (void)by_key, (void)status, (void)status_len, (void)marks;
    (void)marks_len, (void)from, (void)from_len, (void)to, (void)to_len, (void)key, (void)key_len, (void)successor;
    (void)successor_len, (void)news;
    (void)news_len, (void)in_head, (void)in_head_len, (void)out_head, (void)out_head_len, (void)queue, (void)queue_len;
    (void)visited, (void)visited_len, (void)in_next, (void)in_next_len, (void)out_next, (void)out_next_len;
    return 0;
}

// ---- what the engines tell

// The answer to each update of a list, their news one behind the other, and the statuses and keys at the end. A state is news once.
typedef struct {
    uint32_t answers[MOST_UPDATES];
    uint16_t news[MAX_STATES];
    size_t news_count;
    uint8_t status[MAX_STATES], key[MAX_STEPS];
} Told;

static Told proved_told;

static void disagree(const char *engine)
{
    out("The engines disagree: proved and %s\n", engine);
    exit(1);
}

// A run that nobody times.
static void listen(update_call *update, const char *engine, Told *t)
{
    size_t steps = 0, sent = 0;
    fresh();
    memset(key, 255, sizeof key);    // no keys of the engine before
    t->news_count = 0;
    for (size_t i = 0; i < count; i++) {
        uint32_t answer = t->answers[i] = send(update, list[i], &steps);
        size_t more = answer < REFUSED ? answer : 0;
        if (more > MAX_STATES - t->news_count) disagree(engine);
        memcpy(t->news + t->news_count, news, 2 * more);
        t->news_count += more, sent += list[i].kind == 'E';
    }
    if (steps != sent) disagree(engine);    // the steps of a list differ, so that each is listed
    memcpy(t->status, status, sizeof status), memcpy(t->key, key, sizeof key);
}

// Another engine tells the same as the proved one.
static void hold(update_call *update, const char *engine)
{
    static Told told;
    listen(update, engine, &told);
    if (memcmp(told.answers, proved_told.answers, count * sizeof *told.answers) || told.news_count != proved_told.news_count ||
        memcmp(told.news, proved_told.news, 2 * told.news_count) || memcmp(told.status, proved_told.status, sizeof told.status) ||
        memcmp(told.key, proved_told.key, sizeof told.key))
        disagree(engine);
}

// ---- measuring

// The builds of the plain C.
enum { GCC, CLANG, GCC3, PLAIN };

static update_call *const plain_update[PLAIN] = {baseline_update, clang_update, gcc3_update};
static const char *const plain_name[PLAIN] = {"C", "clang", "gcc -O3"};

// Nanoseconds in all for some lists; `naive` is over the updates that the naive engine was sent.
typedef struct {
    double proved, plain[PLAIN], naive, moves, worst_moves;
    size_t updates, naive_updates;
} Sum;

static Sum measure(int naive)
{
    double proved[RUNS], plain[PLAIN][RUNS];
    listen(radvoinis_update, "itself", &proved_told);
    for (int b = 0; b < PLAIN; b++) hold(plain_update[b], plain_name[b]);
    list_moves = 0;
    hold(counted_update, "C counted");
    Sum s = {.moves = (double)list_moves, .worst_moves = (double)list_moves / (double)count, .updates = count};
    for (int i = 0; i < RUNS; i++) {
        proved[i] = run(radvoinis_update);
        for (int b = 0; b < PLAIN; b++) plain[b][i] = run(plain_update[b]);
    }
    s.proved = median(proved, RUNS);
    for (int b = 0; b < PLAIN; b++) s.plain[b] = median(plain[b], RUNS);
    if (!naive) return s;
    hold(naive_update, "naive");
    s.naive = run(naive_update), s.naive_updates = count;
    return s;
}

static void add(Sum *into, Sum s)
{
    into->proved += s.proved, into->naive += s.naive, into->moves += s.moves;
    for (int b = 0; b < PLAIN; b++) into->plain[b] += s.plain[b];
    into->updates += s.updates, into->naive_updates += s.naive_updates;
    if (s.worst_moves > into->worst_moves) into->worst_moves = s.worst_moves;
}

static double proved_ns(Sum s) { return s.proved / (double)s.updates; }
static double plain_ns(Sum s, int build) { return s.plain[build] / (double)s.updates; }
static double naive_ns(Sum s) { return s.naive / (double)s.naive_updates; }
static double ratio(Sum s, int build) { return s.proved / s.plain[build]; }

// The lists of one class with one size, order and ending.
static Sum variant(const Class *c, size_t size, int order, int ending)
{
    Sum sum = {0};
    for (int nth = 0; nth < (c->random ? SEEDS : 1); nth++) {
        make_list(c, size, order, ending, nth);
        add(&sum, measure(nth == 0));
    }
    return sum;
}

// ---- tables

static void row(const char *first, const char *second, Sum s)
{
    out("| %-22s | %-25s | %7zu | %7.1f | %7.1f | %7.1f | %7.1f | %9.0f | %5.2f | %9.2f | %7.2f | %7.0f | %6.2f | %6.2f |\n", first,
        second, s.updates, proved_ns(s), plain_ns(s, GCC), plain_ns(s, CLANG), plain_ns(s, GCC3), naive_ns(s), ratio(s, GCC),
        ratio(s, CLANG), ratio(s, GCC3), naive_ns(s) / proved_ns(s), s.moves / (double)s.updates, s.worst_moves);
}

static void heading(const char *first, const char *second)
{
    out("| %-22s | %-25s | updates | proved  | C       | clang   | gcc -O3 | naive     | p / C | p / clang | p / -O3 | naive/p | moves  | "
        "worst  |\n",
        first, second);
    out("| ---------------------- | ------------------------- | ------: | ------: | ------: | ------: | ------: | --------: | ----: | "
        "--------: | ------: | ------: | -----: | -----: |\n");
}

static Sum cells[CLASSES][ORDERS][ENDINGS];

static void measure_classes(void)
{
    for (int c = 0; c < CLASSES; c++)
        for (int o = 0; o < ORDERS; o++)
            for (int e = 0; e < ENDINGS; e++) {
                progress(classes[c].name, orders[o]);
                cells[c][o][e] = variant(&classes[c], classes[c].size, o, e);
            }
    progress("", "");
}

static Sum class_sum(int c)
{
    Sum sum = {0};
    for (int o = 0; o < ORDERS; o++)
        for (int e = 0; e < ENDINGS; e++) add(&sum, cells[c][o][e]);
    return sum;
}

static void show_worst_list(double moves)
{
    for (int c = 0; c < CLASSES; c++)
        for (int o = 0; o < ORDERS; o++)
            for (int e = 0; e < ENDINGS; e++)
                if (cells[c][o][e].worst_moves == moves)
                    out("- the list with the most moves an update: %.2f, %s, %s, %s\n", moves, classes[c].name, orders[o], endings[e]);
}

static void show_classes(void)
{
    Sum all = {0};
    double worst[PLAIN] = {0}, moves = 0;
    out("## Classes\n\nEach class over both orders and all endings.\n\n");
    heading("class", "largest size");
    for (int c = 0; c < CLASSES; c++) {
        char size[32];
        Sum s = class_sum(c);
        snprintf(size, sizeof size, "%zu states", classes[c].size);
        row(classes[c].name, size, s);
        for (int b = 0; b < PLAIN; b++)
            if (ratio(s, b) > worst[b]) worst[b] = ratio(s, b);
        if (s.moves / (double)s.updates > moves) moves = s.moves / (double)s.updates;
        add(&all, s);
    }
    row("over all", "", all);
    out("\n");
    goal("proved / C over all, at most 1.1", ratio(all, GCC), ratio(all, GCC) <= 1.1);
    goal("proved / C on the worst class, at most 1.4", worst[GCC], worst[GCC] <= 1.4);
    for (int b = CLANG; b < PLAIN; b++)
        out("- proved / %s: %.2f over all, %.2f on the worst class\n", plain_name[b], ratio(all, b), worst[b]);
    goal("naive / proved over all, at least 30", naive_ns(all) / proved_ns(all), naive_ns(all) / proved_ns(all) >= 30);
    goal("list moves an update on the worst class, at most 40", moves, moves <= 40);
    show_worst_list(all.worst_moves);
}

static void show_lists(void)
{
    out("\n## Lists\n\n");
    heading("class", "order, ending");
    for (int c = 0; c < CLASSES; c++)
        for (int o = 0; o < ORDERS; o++)
            for (int e = 0; e < ENDINGS; e++) {
                char how[32];
                snprintf(how, sizeof how, "%s, %s", orders[o], endings[e]);
                row(classes[c].name, how, cells[c][o][e]);
            }
}

static void growth_row(const Class *c)
{
    double ns[3][6];
    static const char *const engines[] = {"proved", "C", "naive"};
    for (int k = 0; k < 6; k++) {
        Sum sum = {0};
        progress("growth,", c->name);
        for (int o = 0; o < ORDERS; o++)
            for (int e = 0; e < WITH_TERMINALS; e++) add(&sum, variant(c, (size_t)64 << k, o, e));
        ns[0][k] = proved_ns(sum), ns[1][k] = plain_ns(sum, GCC), ns[2][k] = naive_ns(sum);
    }
    progress("", "");
    for (int i = 0; i < 3; i++) {
        out("| %-22s | %-6s |", c->name, engines[i]);
        for (int k = 0; k < 6; k++) out(" %8.1f |", ns[i][k]);
        out("\n");
    }
}

static void show_growth(void)
{
    out("\n## Growth\n\nNanoseconds an update as n grows, over both orders, ended dead and ended unknown.\n\n");
    out("| class                  | engine |   n = 64 |      128 |      256 |      512 |     1024 |     2048 |\n");
    out("| ---------------------- | ------ | -------: | -------: | -------: | -------: | -------: | -------: |\n");
    for (int c = 0; c < GROWING; c++) growth_row(&growing[c]);
}

// ---- the call by itself

enum { CALL_RUNS = 201 };

static radvoinis_tables tables;

static uint32_t raw_step(update_call *update, uint32_t u, uint32_t v, uint32_t by)
{
    return update(tables.n, tables.limit, &tables.steps, 'E', u, v, by, tables.status, tables.n, tables.marks, tables.n, tables.from,
                  tables.limit, tables.to, tables.limit, tables.key, tables.limit, tables.successor, tables.n, tables.news, tables.n,
                  tables.in_head, tables.n, tables.out_head, tables.n, tables.queue, tables.n, tables.visited, (tables.n + 15) / 16,
                  tables.in_next, tables.limit, tables.out_next, tables.limit);
}

static uint32_t step_short(uint32_t u, uint32_t v, uint32_t by) { return radvoinis_step_by_key(&tables, u, v, by); }
static uint32_t step_raw(uint32_t u, uint32_t v, uint32_t by) { return raw_step(radvoinis_update, u, v, by); }
static uint32_t step_plain(uint32_t u, uint32_t v, uint32_t by) { return raw_step(baseline_update, u, v, by); }
static uint32_t step_members(uint32_t u, uint32_t v, uint32_t by) { return members_step(&tables, u, v, by); }

typedef struct {
    const char *name;
    uint32_t (*step)(uint32_t u, uint32_t v, uint32_t by);
    double times[CALL_RUNS];
} Call;

static Call calls[] = {
    {"radvoinis_step_by_key", step_short, {0}},
    {"radvoinis_update", step_raw, {0}},
    {"the same in plain C, by the same call", step_plain, {0}},
    {"the same in plain C, on the struct, no length tested", step_members, {0}},
};

enum { CALLS = sizeof calls / sizeof *calls };

static void time_calls(void *memory, size_t size)
{
    static uint32_t u[MAX_STEPS], v[MAX_STEPS];
    for (size_t i = 0; i < MAX_STEPS; i++) u[i] = (uint32_t)below(MAX_STATES), v[i] = (uint32_t)below(MAX_STATES);
    for (int r = 0; r < CALL_RUNS; r++)
        for (int c = 0; c < CALLS; c++) {
            uint32_t sum = radvoinis_tables_fresh(&tables, memory, size, MAX_STATES, MAX_STEPS);
            double start = thread_time();
            for (uint32_t i = 0; i < MAX_STEPS; i++) sum |= calls[c].step(u[i], v[i], i % (MAX_KEY + 1));
            calls[c].times[r] = thread_time() - start;
            if (sum != 0 || tables.steps != MAX_STEPS) disagree(calls[c].name);
        }
}

static void show_calls(void)
{
    size_t size = radvoinis_tables_size(MAX_STATES, MAX_STEPS);
    void *memory = malloc(size);
    progress("calls", "");
    time_calls(memory, size);
    progress("", "");
    out("\n## A call by itself\n\n"
        "Nanoseconds of a new step that settles nothing, the search of the list among them, medians of %d runs of 8,192 random steps\n"
        "between 2,048 states, in turn.\n\n",
        CALL_RUNS);
    out("| call                                                 | ns     |\n| ---------------------------------------------------- | -----: |\n");
    for (int c = 0; c < CALLS; c++) out("| %-52s | %6.1f |\n", calls[c].name, median(calls[c].times, CALL_RUNS) / MAX_STEPS);
    free(memory);
}

// ---- steps that are new, that come again and that are refused, by how many are listed

enum { ASK_RUNS = 201, ASK_CALLS = 64, ENGINES = 1 + PLAIN, SIZES = 5, SHAPES = 2 };

// A step that takes the last place of so many; one listed among the first 16 places, in the middle, among the last 16; one that finds no
// place; one from a closed state.
typedef enum { NEW_STEP, FIRST_AGAIN, MIDDLE_AGAIN, LAST_AGAIN, ONE_TOO_MANY, FROM_CLOSED, ASKED } Asked;

static const size_t listed_sizes[SIZES] = {64, 256, 1024, 4096, 8192};
static const struct {
    const char *name;
    size_t sources;
} shapes[SHAPES] = {{"any of 2,047 states", 2047}, {"16 states", 16}};

// The last state is closed, and the targets from the middle on are for new steps.
enum { CLOSED_STATE = MAX_STATES - 1, NEW_TARGETS = 1024 };

// Lists so many steps out of so many states; what comes again by chance takes no place.
static void list_steps(size_t listed, size_t sources)
{
    size_t steps = 0;
    seed = 88172645463325252u;
    n = MAX_STATES;
    fresh();
    send(baseline_update, (Sent){'C', 0, CLOSED_STATE, 0}, &steps);
    while (steps < listed) {
        Sent u = {'E', (uint8_t)below(MAX_KEY + 1), (uint16_t)below(sources), (uint16_t)below(NEW_TARGETS)};
        if (send(baseline_update, u, &steps) != 0) disagree("C");
    }
}

static Sent nth_asked(Asked what, size_t listed, size_t sources)
{
    uint16_t unlisted = (uint16_t)(NEW_TARGETS + below(NEW_TARGETS - 1));
    if (what == NEW_STEP || what == ONE_TOO_MANY) return (Sent){'E', (uint8_t)below(MAX_KEY + 1), (uint16_t)below(sources), unlisted};
    if (what == FROM_CLOSED) return (Sent){'E', (uint8_t)below(MAX_KEY + 1), CLOSED_STATE, unlisted};
    size_t p = below(16) + (what == FIRST_AGAIN ? 0 : what == MIDDLE_AGAIN ? listed / 2 - 8 : listed - 16);
    return (Sent){'E', key[p], from[p], to[p]};
}

// Nanoseconds a call. A new step is taken back behind each: two entries, counted with it.
static double ask(update_call *update, Asked what, const Sent *asked, size_t listed)
{
    uint32_t right = what == FROM_CLOSED ? REFUSED + 6 : what == ONE_TOO_MANY ? REFUSED + 9 : 0, wrong = 0;
    size_t before = what == NEW_STEP ? listed - 1 : listed;
    double start = thread_time();
    for (int i = 0; i < ASK_CALLS; i++) {
        Sent u = asked[i];
        size_t steps = before;
        uint16_t into = in_head[u.second], out_of = out_head[u.first];
        wrong |= (send(update, u, &steps) ^ right) | (uint32_t)(steps ^ listed);
        in_head[u.second] = into, out_head[u.first] = out_of;
    }
    double ns = (thread_time() - start) / ASK_CALLS;
    if (wrong) disagree("what is right");
    return ns;
}

typedef struct {
    double ns[ENGINES];
} Asking;

static Asking measure_asked(Asked what, size_t listed, size_t sources)
{
    static double times[ENGINES][ASK_RUNS];
    Sent asked[ASK_CALLS];
    Asking result;
    list_steps(what == NEW_STEP ? listed - 1 : listed, sources);
    limit = what == ONE_TOO_MANY ? listed : MAX_STEPS;
    for (int r = 0; r < ASK_RUNS; r++) {
        for (int i = 0; i < ASK_CALLS; i++) asked[i] = nth_asked(what, listed, sources);
        times[0][r] = ask(radvoinis_update, what, asked, listed);
        for (int b = 0; b < PLAIN; b++) times[1 + b][r] = ask(plain_update[b], what, asked, listed);
    }
    for (int e = 0; e < ENGINES; e++) result.ns[e] = median(times[e], ASK_RUNS);
    limit = MAX_STEPS;
    return result;
}

static void show_asked(void)
{
    Asking new_step = {{0}};
    out("\n## Steps that are new, that come again and that are refused\n\n"
        "Nanoseconds of a step where so many are listed, out of any state or out of 16 alone: a new one, which takes the last place;\n"
        "one that is listed among the first 16 places, in the middle or among the last 16, and comes again; one that is not listed\n"
        "where the list is full, refused with 9; one from a closed state, refused with 6. For the proved engine (p) and the C, medians\n"
        "of %d runs of %d calls, the engines in turn. A step is looked for along 8 steps out of its source at most, and then in the\n"
        "whole list.\n\n",
        ASK_RUNS, ASK_CALLS);
    out("| steps out of         | listed |   new: p |       C | first: p |       C | middle: p |       C | last: p |       C |    9: p |       C |    6: p |       C |\n");
    out("| -------------------- | -----: | -------: | ------: | -------: | ------: | --------: | ------: | ------: | ------: | ------: | ------: | ------: | ------: |\n");
    for (int s = 0; s < SHAPES; s++)
        for (int k = 0; k < SIZES; k++) {
            Asking x[ASKED];
            progress("steps out of", shapes[s].name);
            for (int what = 0; what < ASKED; what++) x[what] = measure_asked((Asked)what, listed_sizes[k], shapes[s].sources);
            progress("", "");
            out("| %-20s | %6zu | %8.1f | %7.1f | %8.1f | %7.1f | %9.1f | %7.1f |", shapes[s].name, listed_sizes[k], x[0].ns[0], x[0].ns[1],
                x[1].ns[0], x[1].ns[1], x[2].ns[0], x[2].ns[1]);
            for (int what = LAST_AGAIN; what < ASKED; what++) out(" %7.1f | %7.1f |", x[what].ns[0], x[what].ns[1]);
            out("\n");
            if (listed_sizes[k] == MAX_STEPS && s == 0) new_step = x[NEW_STEP];
        }
    out("\n");
    double beside_c = new_step.ns[0] / new_step.ns[1];
    goal("proved / C for a new step, the last of 8,192, at most 1.3", beside_c, beside_c <= 1.3);
    for (int b = CLANG; b < PLAIN; b++) out("- proved / %s for it: %.2f\n", plain_name[b], new_step.ns[0] / new_step.ns[1 + b]);
}

static double empty_ns(void)
{
    double times[RUNS];
    make_list(&classes[0], 2048, FORWARDS, ENDED_DEAD, 0);
    for (int i = 0; i < RUNS; i++) times[i] = run(empty_update);
    return median(times, RUNS) / (double)count;
}

static const char *processor(void)
{
    static char line[256], *name;
    FILE *info = fopen("/proc/cpuinfo", "r");
    while (info && !name && fgets(line, sizeof line, info))
        if (!strncmp(line, "model name", 10)) name = strchr(line, ':');
    if (info) fclose(info);
    return name ? strtok(name + 2, "\n") : "an unnamed processor";
}

int main(int argc, char **argv)
{
    open_page(argc > 1 ? argv[1] : NULL, "w");
    out("# Benchmark\n\n`bench/run.sh` made this page, on %s.\n\n", processor());
    out("The kit lowers the proved engine and the proved listing program to LLVM, and compiles that with its clang, " CLANG_VERSION ",\n"
        "at -O3. The same algorithm in plain C, bench/baseline.c, is built three times: by gcc " __VERSION__ " -O2 (C), by the kit's\n"
        "clang at -O3 (clang) and by gcc -O3. All other C is built by gcc -O2.\n\n");
    out("Columns: nanoseconds an update for the proved engine, for the builds of the plain C and for the naive engine, which works all\n"
        "verdicts out afresh after each update; their ratios; list moves (next entries and successors read) an update of the C, and of\n"
        "its worst list. Medians of %d runs of each list, the engines in turn, in one process, by the thread's own clock; random classes\n"
        "have %d seeds, of which the naive engine, run once, has the first. All engines gave the same answers, the same news after each\n"
        "update, entry for entry, and the same statuses and keys. The steps of a list have each key in turn.\n",
        RUNS, SEEDS);
    out("An empty function behind the same call takes %.1f ns.\n\n", empty_ns());
    measure_classes();
    show_classes();
    show_lists();
    show_growth();
    show_calls();
    show_asked();
    return close_page();
}
