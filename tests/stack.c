/* The stack that each call takes, measured on a painted one, is no more than the header says. tests/install.sh builds it against the
   installation. It ends with 0 where all is so, and prints the bytes. */
#include <radvoinis.h>

#include <stdio.h>
#include <stdlib.h>
#include <string.h>
#include <ucontext.h>

enum { STACK = 1 << 18, PAINT = 0xa5, STATUS_STACK = 44 << 10, OTHER_STACK = 1 << 10 };

static unsigned char *stack;
static ucontext_t caller, callee;
static radvoinis_tables t;

static void nothing(void) {}
static void status(void)
{
    static const char ring[] = "kind from to key\nE 0 1 7\nE 1 0 8\nE 1 2 31\nC 0 - -\nC 1 - -\nC 2 - -\nE 2047 65535 32\n";
    radvoinis_status((const uint8_t *)ring, sizeof ring - 1, 1);
}
static void counted(void)
{
    static const char ring[] = "states\n2048\nkind from to key\nE 0 1 7\nE 1 0 8\nE 1 2 31\nC 0 - -\nC 1 - -\nC 2 - -\nE 2047 65535 32\n";
    radvoinis_status((const uint8_t *)ring, sizeof ring - 1, 1);
}
static void size_of(void) { radvoinis_tables_size(3, 4); }
static void step(void) { radvoinis_step(&t, 1, 1); }
static void step_again(void) { radvoinis_step(&t, 1, 2); }
static void step_by_key(void) { radvoinis_step_by_key(&t, 1, 2, 31); }
static void terminal(void) { radvoinis_terminal(&t, 2); }
static void last_close(void) { radvoinis_close(&t, 2); }
static void question(void) { radvoinis_status_of(&t, 2); }
static void check(void) { radvoinis_check(&t); }
static void save(void)
{
    static uint8_t record[256];
    static size_t at;
    at = 0;
    radvoinis_save(&t, record, sizeof record, &at);
}

/* How far down the stack is written by a call. */
static size_t depth_of(void (*call)(void))
{
    size_t untouched = 0;
    memset(stack, PAINT, STACK);
    getcontext(&callee);
    callee.uc_stack.ss_sp = stack;
    callee.uc_stack.ss_size = STACK;
    callee.uc_link = &caller;
    makecontext(&callee, call, 0);
    swapcontext(&caller, &callee);
    while (untouched < STACK && stack[untouched] == PAINT) untouched++;
    return STACK - untouched;
}

int main(void)
{
    static const struct {
        const char *name;
        void (*call)(void);
        size_t most;
    } calls[] = {
        {"radvoinis_status", status, STATUS_STACK},             {"radvoinis_step", step, OTHER_STACK},
        {"radvoinis_step_by_key", step_by_key, OTHER_STACK},    {"radvoinis_terminal", terminal, OTHER_STACK},
        {"radvoinis_close", last_close, OTHER_STACK},           {"radvoinis_status_of", question, OTHER_STACK},
        {"radvoinis_check", check, OTHER_STACK},                {"radvoinis_save", save, OTHER_STACK},
        {"radvoinis_tables_size", size_of, OTHER_STACK},        {"radvoinis_step, again", step_again, OTHER_STACK},
        {"radvoinis_status, with a count", counted, STATUS_STACK},
    };
    static uint8_t memory[256];
    int kept = 1;
    stack = malloc(STACK);
    if (!stack) return 1;
    size_t around = depth_of(nothing);
    for (size_t i = 0; i < sizeof calls / sizeof *calls; i++) {
        /* A ring of two closed states beside an open one, so that the last update searches and settles. */
        if (radvoinis_tables_fresh(&t, memory, sizeof memory, 3, 4) != 0) return 1;
        radvoinis_step(&t, 0, 1), radvoinis_step(&t, 1, 0), radvoinis_step(&t, 1, 2);
        radvoinis_close(&t, 0);
        if (calls[i].call != step && calls[i].call != step_again && calls[i].call != step_by_key) radvoinis_close(&t, 1);
        size_t bytes = depth_of(calls[i].call) - around;
        printf("%s: %zu bytes\n", calls[i].name, bytes);
        if (bytes > calls[i].most) kept = 0;
    }
    free(stack);
    return kept ? 0 : 1;
}
