/* The explorer's call: hands over a record's bytes and a state number, and prints the state's verdict.
   explorer STATE.. <RECORD */
#include <radvoinis.h>

#include <stdio.h>
#include <stdlib.h>

static const char *const words[] = {"unseen", "open", "unknown", "live", "dead"};

/* A state number: digits and nothing else, and no more than the call can be handed. */
static int state_number(const char *text, uint32_t *state)
{
    uint64_t value = 0;
    if (!*text) return 0;
    for (; *text; text++) {
        if (*text < '0' || *text > '9') return 0;
        value = 10 * value + (uint64_t)(*text - '0');
        if (value > UINT32_MAX) return 0;
    }
    *state = (uint32_t)value;
    return 1;
}

/* All of standard input, or NULL. */
static uint8_t *read_all(size_t *length)
{
    size_t room = 1 << 16, got;
    uint8_t *bytes = malloc(room);
    *length = 0;
    while (bytes && (got = fread(bytes + *length, 1, room - *length, stdin)) > 0) {
        *length += got;
        if (*length < room) continue;
        uint8_t *more = realloc(bytes, room *= 2);
        if (!more) free(bytes);
        bytes = more;
    }
    if (!bytes || !ferror(stdin)) return bytes;
    free(bytes);
    return NULL;
}

int main(int argc, char **argv)
{
    uint32_t state;
    size_t length;
    for (int i = 1; i < argc; i++)
        if (!state_number(argv[i], &state)) {
            fprintf(stderr, "explorer: %s is no state number\n", argv[i]);
            return 2;
        }
    uint8_t *record = read_all(&length);
    if (!record) {
        fprintf(stderr, "explorer: cannot read standard input\n");
        return 1;
    }
    for (int i = 1; i < argc && state_number(argv[i], &state); i++) {
        uint8_t answer = radvoinis_status(record, length, state);
        if (answer >= RADVOINIS_LINE_REFUSED)
            printf("%s: refused %u\n", argv[i], answer - RADVOINIS_LINE_REFUSED);
        else
            printf("%s: %s\n", argv[i], words[answer]);
    }
    free(record);
    return 0;
}
