/* A library that is loaded before the program, and lets calls on the system fail: see tests/failing, which builds it.

   FAILING_LOG   a file that gets a letter for each call, in their order: s open for reading, p read of a piece,
                 q read of the rest of a piece, m open for writing, k write to a file, t write to standard output,
                 h change of permissions, y store on the disk, r rename, c close, a growth of memory
   FAILING_KIND  the letter of the calls that fail; p is for all reads
   FAILING_AT    which of them, counted from 1
   FAILING_HOW   once: that call; on: that call and all later ones of its kind; all: that call and all later ones of
                 any kind; short: that call and all later ones move one byte; nothing: a write takes no byte;
                 signal: it is interrupted; signals: so are all later ones; kill: the run is killed before it; cut:
                 it moves one byte, and the run is killed before the next of its kind */
#define _GNU_SOURCE
#include <dlfcn.h>
#include <errno.h>
#include <fcntl.h>
#include <signal.h>
#include <stdarg.h>
#include <stdio.h>
#include <stdlib.h>
#include <string.h>
#include <sys/stat.h>
#include <sys/syscall.h>
#include <unistd.h>

enum { ROOM = 1 << 20, OUTPUT = 1, PIECE = 4096 };

static char calls[ROOM];
static size_t count;
static const char *kind, *how, *log_name;
static long at, met;
static int after;

__attribute__((constructor)) static void begin(void)
{
    log_name = getenv("FAILING_LOG");
    kind = getenv("FAILING_KIND");
    how = getenv("FAILING_HOW");
    const char *number = getenv("FAILING_AT");
    at = number ? atol(number) : 0;
}

__attribute__((destructor)) static void end(void)
{
    if (!log_name)
        return;
    long file = syscall(SYS_openat, AT_FDCWD, log_name, O_WRONLY | O_CREAT | O_TRUNC, 0600);
    if (file < 0)
        return;
    syscall(SYS_write, file, calls, count);
    syscall(SYS_close, file);
}

static int is_how(const char *name)
{
    return how && !strcmp(how, name);
}

/* Whether this call, which is told as that letter, is one that is to go another way. */
static int is_struck_as(char letter, char told)
{
    if (count < ROOM)
        calls[count++] = told;
    if (at && kind && *kind == letter && ++met == at) {
        after = 1;
        return 1;
    }
    if (!after || is_how("once") || is_how("signal") || is_how("nothing"))
        return 0;
    return is_how("all") || *kind == letter;
}

static int is_struck(char letter)
{
    return is_struck_as(letter, letter);
}

/* What a call answers that was struck, with its count of bytes; 1 where it is to go on with that count. */
static int goes_on(int number, size_t *bytes, ssize_t *answer)
{
    *answer = -1;
    if (is_how("kill") || (is_how("cut") && met > at))
        kill(getpid(), SIGKILL);
    if (is_how("short") || is_how("cut")) {
        *bytes = *bytes > 1 ? 1 : *bytes;
        return 1;
    }
    if (is_how("nothing")) {
        *answer = 0;
        return 0;
    }
    errno = is_how("signal") || is_how("signals") ? EINTR : number;
    return 0;
}

ssize_t read(int file, void *into, size_t bytes)
{
    ssize_t answer;
    if (is_struck_as('p', bytes < PIECE ? 'q' : 'p') && !goes_on(EIO, &bytes, &answer))
        return answer;
    return syscall(SYS_read, file, into, bytes);
}

ssize_t write(int file, const void *from, size_t bytes)
{
    ssize_t answer;
    if (is_struck(file == OUTPUT ? 't' : 'k') && !goes_on(ENOSPC, &bytes, &answer))
        return answer;
    return syscall(SYS_write, file, from, bytes);
}

int open(const char *name, int flags, ...)
{
    va_list more;
    va_start(more, flags);
    unsigned mode = flags & O_CREAT ? va_arg(more, unsigned) : 0;
    va_end(more);
    size_t none = 0;
    ssize_t answer;
    if (is_struck((flags & O_ACCMODE) == O_RDONLY ? 's' : 'm') && !goes_on(EACCES, &none, &answer))
        return -1;
    return syscall(SYS_openat, AT_FDCWD, name, flags, mode);
}

int fchmod(int file, mode_t mode)
{
    size_t none = 0;
    ssize_t answer;
    if (is_struck('h') && !goes_on(EPERM, &none, &answer))
        return -1;
    return syscall(SYS_fchmod, file, mode);
}

int fsync(int file)
{
    size_t none = 0;
    ssize_t answer;
    if (is_struck('y') && !goes_on(EIO, &none, &answer))
        return -1;
    return syscall(SYS_fsync, file);
}

int rename(const char *from, const char *to)
{
    size_t none = 0;
    ssize_t answer;
    if (is_struck('r') && !goes_on(EBUSY, &none, &answer))
        return -1;
    return syscall(SYS_renameat, AT_FDCWD, from, AT_FDCWD, to);
}

int close(int file)
{
    size_t none = 0;
    ssize_t answer;
    long closed = syscall(SYS_close, file);
    if (is_struck('c') && !goes_on(EIO, &none, &answer))
        return -1;
    return closed;
}

void *malloc(size_t bytes)
{
    static void *(*next)(size_t);
    if (!next)
        next = dlsym(RTLD_NEXT, "malloc");
    if (is_struck('a')) {
        errno = ENOMEM;
        return 0;
    }
    return next(bytes);
}

void *realloc(void *old, size_t bytes)
{
    static void *(*next)(void *, size_t);
    if (!next)
        next = dlsym(RTLD_NEXT, "realloc");
    if (is_struck('a')) {
        errno = ENOMEM;
        return 0;
    }
    return next(old, bytes);
}
