// The naive picture as a program: what tests/faults.sh plants its faults in.
#include "drawing.h"
#include "standard.h"

// Bold are steps by which unknown states come nearer to an open one: from each that has come near, those with a step to it follow.
static void choose(const Reading *r, uint8_t *bold)
{
    uint8_t near[MOST_STATES];
    for (size_t s = 0; s < MOST_STATES; s++) near[s] = r->status[s] == OPEN;
    for (int more = 1; more;) {
        more = 0;
        for (size_t p = 0; p < r->history.steps; p++) {
            Update u = r->history.listed[p];
            if (r->status[u.first] == UNKNOWN && !near[u.first] && near[u.second]) near[u.first] = bold[p] = 1, more = 1;
        }
    }
}

int main(int argc, char **argv)
{
    static Reading reading;
    static uint8_t bold[MOST_STEPS];
    if (standard_usage("radvoinis-draw", " <RECORD", argc, argv)) return 0;
    standard_read("radvoinis-draw", &reading, NULL);
    choose(&reading, bold);
    drawing_write(&reading, bold, stdout);
    standard_end("radvoinis-draw");
    return 0;
}
