/* A program of somebody else's, in what C and C++ have in common, built against an installation by tests/install.sh: a ring of two
   closed states beside an open one, saved as a record and asked for again. It ends with 0 where all is as it should be. */
#include <radvoinis.h>

#include <stdio.h>
#include <stdlib.h>
#include <string.h>

int main(void)
{
    radvoinis_tables t;
    uint8_t record[128];
    size_t size = radvoinis_tables_size(3, 4), end = 0;
    void *memory = malloc(size);
    char version[32];

    sprintf(version, "%d.%d.%d", RADVOINIS_VERSION_MAJOR, RADVOINIS_VERSION_MINOR, RADVOINIS_VERSION_PATCH);
    if (strcmp(version, RADVOINIS_VERSION) != 0) return 1;
    if (radvoinis_tables_fresh(&t, memory, size, 3, 4) != 0) return 2;
    if (radvoinis_step(&t, 0, 1) != 0 || radvoinis_step(&t, 1, 0) != 0 || radvoinis_step(&t, 1, 2) != 0) return 3;
    if (radvoinis_step(&t, 1, 2) != 0 || t.steps != 3) return 13;
    if (radvoinis_close(&t, 0) != 0 || radvoinis_close(&t, 1) != 0) return 4;
    if (radvoinis_status_of(&t, 0) != RADVOINIS_UNKNOWN) return 5;
    if (radvoinis_step(&t, 0, 2) != RADVOINIS_REFUSED + RADVOINIS_CLOSED_SOURCE) return 6;
    if (radvoinis_step_by_key(&t, 2, 0, RADVOINIS_MAX_KEY + 1) != RADVOINIS_REFUSED + RADVOINIS_BAD_KEY) return 11;
    if (radvoinis_step_by_key(&t, 2, 0, RADVOINIS_MAX_KEY) != 0 || t.key[3] != RADVOINIS_MAX_KEY) return 12;
    if (radvoinis_close(&t, 2) != 3 || t.news[0] != 0 || t.status[t.news[0]] != RADVOINIS_DEAD) return 7;
    if (radvoinis_check(&t) != 1) return 8;
    if (radvoinis_save(&t, record, sizeof record, &end) != 0) return 9;
    if (radvoinis_status(record, end, 1) != RADVOINIS_DEAD) return 10;
    if (radvoinis_status(record, end, 3) != RADVOINIS_LINE_REFUSED + RADVOINIS_OUT_OF_RANGE) return 14;
    if (radvoinis_status(record, 7, 3) != RADVOINIS_LINE_REFUSED + RADVOINIS_BAD_COUNT) return 15;
    printf("%s\n", RADVOINIS_VERSION);
    free(memory);
    return 0;
}
