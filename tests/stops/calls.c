// calls.so: counts what a program does to the files `journal`, `gate` and `slots` of one folder, tells it, and refuses or stops it.
//
// Each write, cut and sync of a file there is one line of the file CALLS: its name, the file, the offset and the bytes in
// hexadecimal digits, as far as these apply. Environment: CALLS_OF the folder, CALLS the file, FAIL_AT the call that is
// refused (EIO) without being made, FAIL_LASTS set where all behind it are refused too, STOP_AT the call before which the
// process is killed, NO_MEMORY_AT the call of the allocator that gets nothing, GROWTHS a file of eight bytes that has
// how many of these there were. Calls are counted from 1 up.
#define _GNU_SOURCE
#include <dlfcn.h>
#include <errno.h>
#include <fcntl.h>
#include <signal.h>
#include <stdio.h>
#include <stdlib.h>
#include <string.h>
#include <sys/mman.h>
#include <sys/syscall.h>
#include <unistd.h>

static long made, grown;
// The file that tells the calls, where it is open.
static int teller = -1;

// Counts from 1 again, for one run behind another in the same process, whose files are closed.
void calls_begin(void)
{
    made = grown = 0;
    teller = -1;
}

extern void *__libc_malloc(size_t);
extern void *__libc_realloc(void *, size_t);
extern void *__libc_memalign(size_t, size_t);

// The name of the file where a descriptor is one of the folder's, else NULL.
static const char *name_of(int descriptor, char *room, size_t size)
{
    char link[64];
    const char *folder = getenv("CALLS_OF");
    ssize_t length;

    if (!folder)
        return NULL;
    snprintf(link, sizeof link, "/proc/self/fd/%d", descriptor);
    length = readlink(link, room, size - 1);
    if (length <= 0)
        return NULL;
    room[length] = 0;
    if (strncmp(room, folder, strlen(folder)) != 0 || room[strlen(folder)] != '/')
        return NULL;
    return room + strlen(folder) + 1;
}

static long number_in(const char *name)
{
    const char *text = getenv(name);
    return text ? atol(text) : 0;
}

// Writes a call's line to the file that tells them.
static void tell(int file, const char *call, const char *name, long long at, const unsigned char *bytes, size_t count)
{
    static const char digits[] = "0123456789abcdef";
    char line[4096];
    size_t length = snprintf(line, sizeof line, "%s %s %lld ", call, name, at);

    for (size_t i = 0; i <= count; i++) {
        if (length + 2 > sizeof line) {
            syscall(SYS_write, file, line, length);
            length = 0;
        }
        if (i == count) {
            line[length++] = '\n';
        } else {
            line[length++] = digits[bytes[i] >> 4];
            line[length++] = digits[bytes[i] & 15];
        }
    }
    syscall(SYS_write, file, line, length);
}

// Counts a call and tells it. Whether it is refused.
static int is_refused(const char *call, const char *name, long long at, const void *bytes, size_t count)
{
    long fail = number_in("FAIL_AT");

    made++;
    if (number_in("STOP_AT") == made)
        kill(getpid(), SIGKILL);
    if (fail && (fail == made || (made > fail && getenv("FAIL_LASTS")))) {
        errno = EIO;
        return 1;
    }
    if (teller < 0)
        teller = open(getenv("CALLS"), O_WRONLY | O_APPEND | O_CREAT | O_CLOEXEC, 0644);
    if (teller >= 0)
        tell(teller, call, name, at, bytes, count);
    return 0;
}

ssize_t write(int descriptor, const void *bytes, size_t count)
{
    static ssize_t (*real)(int, const void *, size_t);
    char room[4096];
    const char *name = name_of(descriptor, room, sizeof room);

    if (!real)
        real = dlsym(RTLD_NEXT, "write");
    if (name && is_refused("write", name, lseek(descriptor, 0, SEEK_CUR), bytes, count))
        return -1;
    return real(descriptor, bytes, count);
}

static ssize_t write_at(int descriptor, const void *bytes, size_t count, long long at, const char *symbol)
{
    ssize_t (*real)(int, const void *, size_t, long long) = dlsym(RTLD_NEXT, symbol);
    char room[4096];
    const char *name = name_of(descriptor, room, sizeof room);

    if (name && is_refused("write", name, at, bytes, count))
        return -1;
    return real(descriptor, bytes, count, at);
}

ssize_t pwrite(int descriptor, const void *bytes, size_t count, off_t at)
{
    return write_at(descriptor, bytes, count, at, "pwrite");
}

ssize_t pwrite64(int descriptor, const void *bytes, size_t count, off64_t at)
{
    return write_at(descriptor, bytes, count, at, "pwrite64");
}

static int cut(int descriptor, long long length, const char *symbol)
{
    int (*real)(int, long long) = dlsym(RTLD_NEXT, symbol);
    char room[4096];
    const char *name = name_of(descriptor, room, sizeof room);

    if (name && is_refused("cut", name, length, NULL, 0))
        return -1;
    return real(descriptor, length);
}

int ftruncate(int descriptor, off_t length)
{
    return cut(descriptor, length, "ftruncate");
}

int ftruncate64(int descriptor, off64_t length)
{
    return cut(descriptor, length, "ftruncate64");
}

static int sync_by(int descriptor, const char *symbol)
{
    int (*real)(int) = dlsym(RTLD_NEXT, symbol);
    char room[4096];
    const char *name = name_of(descriptor, room, sizeof room);

    if (name && is_refused("sync", name, 0, NULL, 0))
        return -1;
    return real(descriptor);
}

int fsync(int descriptor)
{
    return sync_by(descriptor, "fsync");
}

int fdatasync(int descriptor)
{
    return sync_by(descriptor, "fdatasync");
}

// Counts a call of the allocator in the eight bytes of the file GROWTHS, and says whether it gets nothing.
static int is_out_of_memory(void)
{
    static long *told;
    const char *name = getenv("GROWTHS");
    int file;

    if (name && !told) {
        file = open(name, O_RDWR);
        told = mmap(NULL, sizeof *told, PROT_READ | PROT_WRITE, MAP_SHARED, file, 0);
        close(file);
    }
    grown++;
    if (told)
        *told = grown;
    return grown == number_in("NO_MEMORY_AT");
}

void *malloc(size_t size)
{
    return is_out_of_memory() ? NULL : __libc_malloc(size);
}

void *realloc(void *block, size_t size)
{
    return is_out_of_memory() ? NULL : __libc_realloc(block, size);
}

int posix_memalign(void **block, size_t align, size_t size)
{
    *block = is_out_of_memory() ? NULL : __libc_memalign(align, size);
    return *block ? 0 : ENOMEM;
}

void *aligned_alloc(size_t align, size_t size)
{
    return is_out_of_memory() ? NULL : __libc_memalign(align, size);
}
