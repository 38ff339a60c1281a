/* The story behind the engine, by the short calls: "paused" and "autolap" point to each other, both are closed, and one of them has
   a step to the run screen, which is still open. The pair is unknown, not dead, until the run screen is settled. */
#include <radvoinis.h>

#include <stdio.h>
#include <stdlib.h>

enum { PAUSED, AUTOLAP, RUN_SCREEN, STATES, LIMIT = 3 };
enum { START_KEY, LAP_KEY };

static const char *const names[STATES] = {"paused", "autolap", "run screen"};
static const char *const keys[] = {"start key", "lap key"};
static const char *const words[] = {"unseen", "open", "unknown", "live", "dead"};

/* What came of an update: the states that it settled, or the number of its refusal. */
static void tell(const radvoinis_tables *t, uint32_t answer)
{
    if (answer >= RADVOINIS_REFUSED) {
        printf(" refused %u\n", (unsigned)(answer - RADVOINIS_REFUSED));
        return;
    }
    for (uint32_t i = 0; i < answer; i++) printf(" %s is %s;", names[t->news[i]], words[t->status[t->news[i]]]);
    printf("\n");
}

static void step(radvoinis_tables *t, uint32_t from, uint32_t to, uint32_t key)
{
    printf("E %s -> %s, %s:", names[from], names[to], keys[key]);
    tell(t, radvoinis_step_by_key(t, from, to, key));
}

static void save_at(radvoinis_tables *t, uint32_t state)
{
    printf("T %s:", names[state]);
    tell(t, radvoinis_terminal(t, state));
}

static void close_state(radvoinis_tables *t, uint32_t state)
{
    printf("C %s:", names[state]);
    tell(t, radvoinis_close(t, state));
}

static void verdicts(const radvoinis_tables *t)
{
    for (uint32_t s = 0; s < STATES; s++) printf("    %s: %s\n", names[s], words[radvoinis_status_of(t, s)]);
}

int main(void)
{
    radvoinis_tables t;
    size_t size = radvoinis_tables_size(STATES, LIMIT);
    void *memory = malloc(size);

    printf("The slow step arrives before both closes:\n");
    if (radvoinis_tables_fresh(&t, memory, size, STATES, LIMIT) != 0) return 1;
    step(&t, PAUSED, AUTOLAP, LAP_KEY);
    step(&t, AUTOLAP, PAUSED, START_KEY);
    step(&t, AUTOLAP, RUN_SCREEN, LAP_KEY);
    printf("(the list of %d is full; a press that is listed may come again, another may not)\n", LIMIT);
    step(&t, PAUSED, AUTOLAP, LAP_KEY);
    step(&t, PAUSED, AUTOLAP, START_KEY);
    close_state(&t, PAUSED);
    close_state(&t, AUTOLAP);
    verdicts(&t);
    printf("and the activity is saved at the run screen:\n");
    save_at(&t, RUN_SCREEN);
    verdicts(&t);

    printf("It arrives after both closes, too late: a closed state takes no further step.\n");
    radvoinis_tables_fresh(&t, memory, size, STATES, LIMIT);
    step(&t, PAUSED, AUTOLAP, LAP_KEY);
    step(&t, AUTOLAP, PAUSED, START_KEY);
    close_state(&t, PAUSED);
    close_state(&t, AUTOLAP);
    step(&t, AUTOLAP, RUN_SCREEN, LAP_KEY);
    verdicts(&t);

    printf("The tables %s, and as a record they are:\n", radvoinis_check(&t) == 1 ? "fit" : "do not fit");
    uint8_t record[256];
    size_t end = 0;
    if (radvoinis_save(&t, record, sizeof record, &end) == 0) fwrite(record, 1, end, stdout);
    free(memory);
    return 0;
}
