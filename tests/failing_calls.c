/* Stands before the C library, and makes calls of the system fail or do less. tests/edges.py compiles it.

   CALLS_LOG   a file that gets one letter for each call: o(pen), r(ead), w(rite), c(lose), t(hread); a `!` follows one that was turned
   CALLS_KIND  the letter of the calls that are counted here, from 1
   CALLS_FROM, CALLS_TO  the numbers of the calls that are turned
   CALLS_AS    what they do: a number of the system's errors; `short`, which moves one byte; or `grow`, before which the file of the
               next line is added to that of the line after it, and `shrink`, before which the latter is cut to nothing
   CALLS_MORE, CALLS_FILE  these files. With CALLS_FILE only the calls on that file are counted */
#define _GNU_SOURCE
#include <dlfcn.h>
#include <errno.h>
#include <fcntl.h>
#include <pthread.h>
#include <stdarg.h>
#include <stdatomic.h>
#include <stdlib.h>
#include <string.h>
#include <sys/stat.h>
#include <sys/syscall.h>
#include <sys/uio.h>
#include <unistd.h>

#define REAL(name) ((__typeof__(&name)) dlsym(RTLD_NEXT, #name))

enum { GOES_ON = 0, SHORT = -1 };

static long raw_open(const char *path, int flags, int mode)
{
    return syscall(SYS_openat, AT_FDCWD, path, flags, mode);
}

static void note(const char *text)
{
    const char *log = getenv("CALLS_LOG");
    long fd = log ? raw_open(log, O_WRONLY | O_CREAT | O_APPEND, 0666) : -1;
    if (fd >= 0) {
        syscall(SYS_write, fd, text, strlen(text));
        syscall(SYS_close, fd);
    }
}

/* Opened to keep a closed standard stream's place, and never read or written; such an open isn't counted. */
static int keeps_a_place(const char *path)
{
    return !strcmp(path, "/dev/null");
}

/* Whether a descriptor is that of CALLS_FILE, or any will do. */
static int counts(int fd)
{
    const char *path = getenv("CALLS_FILE");
    struct stat this, that;
    if (!path)
        return 1;
    if (fd < 0 || fstat(fd, &this) || stat(path, &that))
        return 0;
    return this.st_dev == that.st_dev && this.st_ino == that.st_ino;
}

static void grow(void)
{
    char bytes[65536];
    long from = raw_open(getenv("CALLS_MORE"), O_RDONLY, 0), to = raw_open(getenv("CALLS_FILE"), O_WRONLY | O_APPEND, 0), got;
    while (from >= 0 && to >= 0 && (got = syscall(SYS_read, from, bytes, sizeof bytes)) > 0)
        if (syscall(SYS_write, to, bytes, got) != got)
            abort();
    syscall(SYS_close, from);
    syscall(SYS_close, to);
}

/* What a call has to do: go on, do less, or fail with this error. */
static int turned(char kind, int fd)
{
    static atomic_long made;
    const char *wanted = getenv("CALLS_KIND"), *as = getenv("CALLS_AS");
    char letter[3] = {kind, 0, 0};
    int saved = errno;
    long number = 0;
    if (wanted && *wanted == kind && counts(fd))
        number = ++made;
    if (number == 0 || number < atol(getenv("CALLS_FROM")) || number > atol(getenv("CALLS_TO"))) {
        note(letter);
        errno = saved;
        return GOES_ON;
    }
    letter[1] = '!';
    note(letter);
    if (!strcmp(as, "grow"))
        grow();
    if (!strcmp(as, "shrink") && truncate(getenv("CALLS_FILE"), 0))
        abort();
    errno = saved;
    return !strcmp(as, "short") ? SHORT : atoi(as);
}

#define UNLESS_TURNED(kind, fd) \
    int how = turned(kind, fd); \
    if (how > 0) { errno = how; return -1; }

#define OPENS(name) \
    int name(const char *path, int flags, ...) \
    { \
        va_list rest; \
        va_start(rest, flags); \
        int mode = va_arg(rest, int); \
        va_end(rest); \
        if (keeps_a_place(path)) \
            return REAL(name)(path, flags, mode); \
        UNLESS_TURNED('o', -1) \
        return REAL(name)(path, flags, mode); \
    }

#define OPENS_AT(name) \
    int name(int folder, const char *path, int flags, ...) \
    { \
        va_list rest; \
        va_start(rest, flags); \
        int mode = va_arg(rest, int); \
        va_end(rest); \
        if (keeps_a_place(path)) \
            return REAL(name)(folder, path, flags, mode); \
        UNLESS_TURNED('o', -1) \
        return REAL(name)(folder, path, flags, mode); \
    }

OPENS(open)
OPENS(open64)
OPENS_AT(openat)
OPENS_AT(openat64)

ssize_t read(int fd, void *buf, size_t size)
{
    UNLESS_TURNED('r', fd)
    return REAL(read)(fd, buf, how == SHORT && size > 1 ? 1 : size);
}

ssize_t readv(int fd, const struct iovec *parts, int count)
{
    UNLESS_TURNED('r', fd)
    return how == SHORT ? REAL(read)(fd, parts[0].iov_base, 1) : REAL(readv)(fd, parts, count);
}

ssize_t write(int fd, const void *bytes, size_t size)
{
    UNLESS_TURNED('w', fd)
    return REAL(write)(fd, bytes, how == SHORT && size > 1 ? 1 : size);
}

ssize_t writev(int fd, const struct iovec *parts, int count)
{
    UNLESS_TURNED('w', fd)
    return how == SHORT ? REAL(write)(fd, parts[0].iov_base, 1) : REAL(writev)(fd, parts, count);
}

int close(int fd)
{
    UNLESS_TURNED('c', fd)
    return REAL(close)(fd);
}

int pthread_create(pthread_t *thread, const pthread_attr_t *how_made, void *(*start)(void *), void *given)
{
    int how = turned('t', -1);
    return how > 0 ? how : REAL(pthread_create)(thread, how_made, start, given);
}
