// Runs a program: what it writes goes to files in memory, so that nobody waits for a reader.
#include "program.h"
#include "groups.h"
#include <errno.h>
#include <fcntl.h>
#include <signal.h>
#include <stdlib.h>
#include <sys/mman.h>
#include <sys/socket.h>
#include <sys/stat.h>
#include <sys/wait.h>
#include <unistd.h>

enum { NONE = -1 };    // a closed descriptor

// Of a file that has to be there.
static int opened(int file)
{
    if (file < 0) abort();
    return file;
}

static void close_end(int file)
{
    if (file != NONE) close(file);
}

// ---- what is written

typedef struct {
    int file;
    char *bytes;    // a NUL stands behind them
    size_t length, room;
} Memory;

static Memory output = {.file = NONE}, said = {.file = NONE};

static int emptied(Memory *m)
{
    if (m->file == NONE) m->file = opened(memfd_create("written", MFD_CLOEXEC));
    if (ftruncate(m->file, 0) || lseek(m->file, 0, SEEK_SET)) abort();
    return m->file;
}

static void take(Memory *m)
{
    struct stat info;
    if (fstat(m->file, &info)) abort();
    m->length = (size_t)info.st_size;
    if (m->length >= m->room) {
        m->room = 2 * m->length + 1;
        if (!(m->bytes = realloc(m->bytes, m->room))) abort();
    }
    if (pread(m->file, m->bytes, m->length, 0) != info.st_size) abort();
    m->bytes[m->length] = 0;
}

static int open_target(Target to)
{
    int memory = emptied(&output);
    if (to == TO_NOTHING) return NONE;
    return opened(to == TO_MEMORY ? fcntl(memory, F_DUPFD_CLOEXEC, 0) : open("/dev/full", O_WRONLY | O_CLOEXEC));
}

// ---- what comes

// A program may end before it has read its input.
static void write_all(int file, const uint8_t *bytes, size_t length, size_t piece)
{
    for (size_t at = 0; at < length;) {
        ssize_t wrote = write(file, bytes + at, length - at < piece ? length - at : piece);
        if (wrote < 0 && errno != EINTR) return;
        if (wrote > 0) at += (size_t)wrote;
    }
}

static int file_of(const uint8_t *input, size_t length)
{
    int file = opened(memfd_create("record", MFD_CLOEXEC));
    write_all(file, input, length, length);
    if (lseek(file, 0, SEEK_SET)) abort();
    return file;
}

// In the pipe's packet mode, where the system has it, each write is a read of its own.
static void open_pipe(int ends[2])
{
    if (pipe2(ends, O_CLOEXEC | O_DIRECT) && pipe2(ends, O_CLOEXEC)) abort();
}

// Closed at one end, with a byte there that nobody has read, it gives at the other end what was sent, and then an error.
static void open_socket(int ends[2])
{
    if (socketpair(AF_UNIX, SOCK_STREAM | SOCK_CLOEXEC, 0, ends) || write(ends[0], "", 1) != 1) abort();
}

// The program's end, and the one that the bytes are written to where they do not stand in a file.
static void open_source(Source from, const uint8_t *input, size_t length, int ends[2])
{
    ends[0] = ends[1] = NONE;
    switch (from) {
    case FROM_FILE: ends[0] = file_of(input, length); break;
    case FROM_PIPE:
    case FROM_HELD_PIPE: open_pipe(ends); break;
    case FROM_FAILING_SOCKET: open_socket(ends); break;
    case FROM_FOLDER: ends[0] = opened(open("/", O_RDONLY | O_CLOEXEC)); break;
    case FROM_NOTHING: break;
    }
}

// ---- the process

static int put_at(int file, int at) { return file == NONE ? close(at) == 0 : dup2(file, at) >= 0; }

static pid_t start(Program p, const char *const *arguments, int from, int to, unsigned most_seconds)
{
    static const struct {
        const char *variable, *path;
    } programs[] = {{"LISTING", "target/bin/listing"}, {"DRAW", "target/bin/draw"}, {"HISTORIES", "target/bin/histories"}};
    const char *named = getenv(programs[p].variable);
    const char *path = named ? named : programs[p].path;
    const char *words[MOST_ARGUMENTS + 2] = {path};
    for (size_t i = 0; i < MOST_ARGUMENTS && arguments[i]; i++) words[i + 1] = arguments[i];
    int errors = emptied(&said);
    pid_t child = fork();
    if (child < 0) abort();
    if (child > 0) return child;
    alarm(most_seconds), signal(SIGPIPE, SIG_DFL);
    if (put_at(from, STDIN_FILENO) && put_at(to, STDOUT_FILENO) && put_at(errors, STDERR_FILENO)) execv(path, (char *const *)words);
    _exit(127);
}

static int ended_well(pid_t child)
{
    int status;
    while (waitpid(child, &status, 0) < 0)
        if (errno != EINTR) abort();
    return WIFEXITED(status) && WEXITSTATUS(status) == 0;
}

// A minute is more than any run takes. Of a file the place is shared with the program.
Output program_run_with(Program p, const char *const *arguments, Source from, const uint8_t *input, size_t length, size_t piece, Target to)
{
    int ends[2], held = from == FROM_HELD_PIPE, target = open_target(to);
    signal(SIGPIPE, SIG_IGN);
    call_begin();
    open_source(from, input, length, ends);
    pid_t child = start(p, arguments, ends[0], target, held ? 5 : 60);
    if (from != FROM_FILE) close_end(ends[0]);
    close_end(target);
    if (ends[1] != NONE) write_all(ends[1], input, length, piece);
    if (!held) close_end(ends[1]);
    int ended = ended_well(child);
    if (held) close_end(ends[1]);
    call_end();
    size_t taken = from == FROM_FILE ? (size_t)lseek(ends[0], 0, SEEK_CUR) : 0;
    if (from == FROM_FILE) close_end(ends[0]);
    take(&output), take(&said);
    return (Output){ended, (const uint8_t *)output.bytes, output.length, said.bytes, taken};
}

Output program_run_between(Program p, Source from, const uint8_t *input, size_t length, size_t piece, Target to)
{
    static const char *const none[] = {NULL};
    return program_run_with(p, none, from, input, length, piece, to);
}

Output program_run(Program p, const uint8_t *input, size_t length, size_t piece)
{
    return program_run_between(p, piece ? FROM_PIPE : FROM_FILE, input, length, piece, TO_MEMORY);
}
