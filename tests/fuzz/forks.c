// forks.so: stops a program in front of its `main`, and runs it from there as often as it is asked to.
//
// A run then doesn't pay for a program's start, which costs several times what most runs do. The process that was started
// only waits. It makes a copy of itself when a run is due, and the copy runs the program's `main`, for this run and for
// those that are asked of it behind it, each with the words, settings and streams of its own; a copy that dies, or is
// told to go, is followed by a new one. So the runs of one seed are in one process, which begins with that seed.
//
// Descriptors of the process: 0, 1 and 2 the streams of the runs, 3 a socket of packets, 4 a file of four bytes: the most
// bytes that a read of standard input or of a socket gets, as they say at that moment, or 0 for as many as come.
// A packet of one byte tells the copy to go. Another one asks for runs, one behind another. Each has the folder, where its
// input begins and ends in stream 0, the most bytes of a read, the count of words, the words, the count of settings, and
// settings NAME=VALUE of the environment, each text or number (in digits) ended by a zero byte. Answered are five numbers
// of eight bytes for each: its status as `waitpid` gives it, and where what it wrote to the streams 1 and 2 begins and
// ends, where these are files. Of a copy that has died its status alone is answered, as that of one run.
#define _GNU_SOURCE
#include <link.h>
#include <dlfcn.h>
#include <errno.h>
#include <fcntl.h>
#include <malloc.h>
#include <poll.h>
#include <setjmp.h>
#include <signal.h>
#include <stdlib.h>
#include <string.h>
#include <sys/mman.h>
#include <sys/prctl.h>
#include <sys/socket.h>
#include <sys/syscall.h>
#include <sys/wait.h>
#include <unistd.h>

enum { LINE = 3, PIECES = 4, KEPT = 5, WORDS = 64, SETTINGS = 16, RUNS = 64, PACKET = 1 << 16 };

struct told { long long status, output, output_end, errors, errors_end; };

static int (*program)(int, char **, char **);
static volatile unsigned *pieces;
// Whether the copy is amid runs, as the process that waits sees it too, and amid one itself.
static volatile int *is_running, is_inside;
// Where a run goes on at its end, and its status.
static jmp_buf behind_run;
static int ended;
static char packet[PACKET + 1];
// How much of its input a run has left.
static size_t left;

// The next text of the packet.
static char *next(char **at)
{
    char *text = *at;

    *at += strlen(text) + 1;
    return text;
}

// Has what runs in front of the program's `main` take the words, as at its start.
static void start(int count, char **words, char **settings)
{
    const struct link_map *map = _r_debug.r_map;
    void (**each)(int, char **, char **) = NULL;
    size_t size = 0;

    for (const ElfW(Dyn) *it = map->l_ld; it->d_tag != DT_NULL; it++) {
        if (it->d_tag == DT_INIT_ARRAY)
            each = (void *)(map->l_addr + it->d_un.d_ptr);
        if (it->d_tag == DT_INIT_ARRAYSZ)
            size = it->d_un.d_val;
    }
    for (size_t at = 0; each && at < size / sizeof *each; at++)
        each[at](count, words, settings);
}

// Runs the program to its end, which is that of its `main` or an `_exit`.
static void __attribute__((noinline)) runs_to_end(int count, char **words)
{
    is_inside = 1;
    if (_setjmp(behind_run) == 0)
        ended = program(count, words, environ);
    is_inside = 0;
}

// Texts of the packet, behind their count.
static int texts(char **at, char **found, int most)
{
    int count = atoi(next(at));

    if (count > most)
        abort();
    for (int number = 0; number < count; number++)
        found[number] = next(at);
    found[count] = NULL;
    return count;
}

// Runs what the packet asks for next. What the run has left open is closed, as at a process's end.
static struct told run(char **at)
{
    static char *words[WORDS + 1], *settings[SETTINGS + 1];
    void (*begin)(void) = (void (*)(void))dlsym(RTLD_DEFAULT, "calls_begin");
    char *folder = next(at), **before = environ;
    struct told told = { .output = lseek(1, 0, SEEK_CUR), .errors = lseek(2, 0, SEEK_CUR) };
    off_t input = atoll(next(at));
    int count;

    left = atoll(next(at)) - input;
    *pieces = atoi(next(at));
    count = texts(at, words, WORDS);
    texts(at, settings, SETTINGS);
    if (chdir(folder) != 0)
        abort();
    lseek(0, input, SEEK_SET);
    environ = settings;
    if (begin)
        begin();
    start(count, words, environ);
    runs_to_end(count, words);
    environ = before;
    close_range(KEPT, ~0U, 0);
    told.status = (long long)(ended & 255) << 8;
    told.output_end = lseek(1, 0, SEEK_CUR);
    told.errors_end = lseek(2, 0, SEEK_CUR);
    return told;
}

// The end of a run, or of a process.
void _exit(int status)
{
    if (is_inside && getpid() == gettid()) {
        ended = status;
        _longjmp(behind_run, 1);
    }
    for (;;)
        syscall(SYS_exit_group, status);
}

// What a copy does.
static void runs(void)
{
    ssize_t length;

    while ((length = recv(LINE, packet, PACKET, 0)) > 1) {
        static struct told told[RUNS];
        char *at = packet;
        int count = 0;

        packet[length] = 0;
        *is_running = 1;
        while (at < packet + length && count < RUNS)
            told[count++] = run(&at);
        *is_running = 0;
        send(LINE, told, count * sizeof *told, MSG_NOSIGNAL);
    }
    _exit(0);
}

// What runs in place of the program's `main`.
static int waits(int argc, char **argv, char **environment)
{
    struct pollfd line = { .fd = LINE, .events = POLLIN };
    int status;
    char byte;
    pid_t child;

    (void)argc, (void)argv, (void)environment;
    // (nobody is left that asks)
    prctl(PR_SET_PDEATHSIG, SIGKILL);
    // (memory that a run has given back stays for the next one)
    mallopt(M_TRIM_THRESHOLD, 1 << 30);
    mallopt(M_MMAP_THRESHOLD, 1 << 25);
    mallopt(M_TOP_PAD, 1 << 20);
    while (poll(&line, 1, -1) < 0 || recv(LINE, &byte, 1, MSG_PEEK) > 0) {
        child = fork();
        if (child == 0) {
            prctl(PR_SET_PDEATHSIG, SIGKILL);
            runs();
        }
        while (waitpid(child, &status, 0) < 0 && errno == EINTR)
            ;
        if (*is_running) {
            struct told told = { .status = status, .output_end = lseek(1, 0, SEEK_CUR), .errors_end = lseek(2, 0, SEEK_CUR) };

            *is_running = 0;
            send(LINE, &told, sizeof told, MSG_NOSIGNAL);
        }
    }
    _exit(0);
}

int __libc_start_main(int (*main)(int, char **, char **), int argc, char **argv, void (*begin)(void), void (*end)(void),
                      void (*unload)(void), void *stack)
{
    int (*real)(int (*)(int, char **, char **), int, char **, void (*)(void), void (*)(void), void (*)(void), void *);
    void *shared = mmap(NULL, sizeof *is_running, PROT_READ | PROT_WRITE, MAP_SHARED | MAP_ANONYMOUS, -1, 0);
    void *file = mmap(NULL, sizeof *pieces, PROT_READ | PROT_WRITE, MAP_SHARED, PIECES, 0);

    real = dlsym(RTLD_NEXT, "__libc_start_main");
    if (shared == MAP_FAILED || file == MAP_FAILED)
        _exit(125);
    is_running = shared;
    pieces = file;
    program = main;
    return real(waits, argc, argv, begin, end, unload, stack);
}

// How many bytes of so many a read gets at most.
static size_t most(size_t count)
{
    return pieces && *pieces && *pieces < count ? *pieces : count;
}

ssize_t read(int descriptor, void *bytes, size_t count)
{
    static ssize_t (*real)(int, void *, size_t);

    ssize_t found;

    if (!real)
        real = dlsym(RTLD_NEXT, "read");
    if (descriptor != 0)
        return real(descriptor, bytes, count);
    count = most(count);
    found = real(0, bytes, count < left ? count : left);
    left -= found > 0 ? found : 0;
    return found;
}

ssize_t recv(int descriptor, void *bytes, size_t count, int flags)
{
    static ssize_t (*real)(int, void *, size_t, int);

    if (!real)
        real = dlsym(RTLD_NEXT, "recv");
    return real(descriptor, bytes, descriptor == LINE ? count : most(count), flags);
}
