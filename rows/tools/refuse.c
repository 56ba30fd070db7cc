/* Loaded before the C library, makes calls of a kind fail, by the environment: REFUSE=KIND:N:TIMES.
   memory       the Nth growth (malloc and realloc) is refused
   memory-from  every growth from the Nth on is refused
   size         none is refused; the file REFUSED is made where a growth has N bytes
   read, write  the Nth read or write fails by EIO; read-again and read-invalid by EAGAIN and EINVAL
   read-end     the Nth read gives no byte, as at the end
   read-signal, write-signal   the Nth read or write answers EINTR, and so do the next ones of the same
                descriptor, TIMES in all: those of another thread's file are left alone
   write-less, write-one       the Nth write takes one byte less than it is given, or one byte
   random       the Nth call for random bytes fails
   clock        the Nth call for the time of the machine says a second before 1970
   thread       none is refused; the file REFUSED is made where an Nth thread is started
   short        every read and write moves one byte
   read-last, write-last       so it is, and the Nth read or write fails by EIO
   Where a call was refused, the file REFUSED is made. Reads and writes of standard error are left alone.
   A program may ask for all growths to be refused, from a growth of FROM bytes to one of TO bytes, which
   are refused themselves; the file ASKED is made then. */
#define _GNU_SOURCE
#include <dlfcn.h>
#include <errno.h>
#include <fcntl.h>
#include <pthread.h>
#include <stdlib.h>
#include <string.h>
#include <sys/time.h>
#include <time.h>
#include <unistd.h>

enum { FROM = 1000003, TO = 1000033 };

static const char *kind = "";
static long at, times = 1, memory, reads, writes, randoms, clocks, threads, signals;
static int all_refused, signalled = -1;

__attribute__((constructor)) static void begin(void) {
    char *given = getenv("REFUSE");
    char *colon = given ? strchr(given, ':') : NULL;
    if (colon) {
        *colon = 0;
        kind = given;
        at = strtol(colon + 1, &colon, 10);
        if (*colon)
            times = strtol(colon + 1, NULL, 10);
    }
    memory = reads = writes = randoms = clocks = threads = 0;
}

static void mark(const char *name) {
    char *path = getenv(name);
    if (path)
        close(open(path, O_CREAT | O_WRONLY, 0600));
}

static int is(const char *word) {
    return !strcmp(kind, word);
}

/* Whether call `count` is one of those that the kind refuses. */
static int refused(const char *word, long count) {
    if (!is(word) || count < at || count >= at + times)
        return 0;
    mark("REFUSED");
    return 1;
}

/* Whether this call, the one of that count, is broken off by a signal. */
static int broken_off(const char *word, long count, int fd) {
    if (!is(word) || count < at || (count > at && (fd != signalled || signals >= times)))
        return 0;
    if (count == at)
        signalled = fd;
    ++signals;
    mark("REFUSED");
    return 1;
}

/* Whether a growth is refused. */
static int no_memory(size_t size) {
    if (!*kind)
        return 0;
    if (size == FROM || size == TO) {
        mark("ASKED");
        all_refused = size == FROM;
        return 1;
    }
    if (all_refused)
        return 1;
    ++memory;
    if (is("size") && size == (size_t)at)
        mark("REFUSED");
    if (!is("memory-from") || memory < at)
        return refused("memory", memory);
    mark("REFUSED");
    return 1;
}

extern void *__libc_malloc(size_t);
extern void *__libc_realloc(void *, size_t);

void *malloc(size_t size) {
    return no_memory(size) ? (errno = ENOMEM, NULL) : __libc_malloc(size);
}

void *realloc(void *old, size_t size) {
    return no_memory(size) ? (errno = ENOMEM, NULL) : __libc_realloc(old, size);
}

int getentropy(void *to, size_t size) {
    static int (*real)(void *, size_t);
    if (!real)
        real = (int (*)(void *, size_t))dlsym(RTLD_NEXT, "getentropy");
    return refused("random", ++randoms) ? (errno = ENOSYS, -1) : real(to, size);
}

ssize_t getrandom(void *to, size_t size, unsigned flags) {
    static ssize_t (*real)(void *, size_t, unsigned);
    if (!real)
        real = (ssize_t (*)(void *, size_t, unsigned))dlsym(RTLD_NEXT, "getrandom");
    return refused("random", ++randoms) ? (errno = ENOSYS, -1) : real(to, size, flags);
}

int clock_gettime(clockid_t clock, struct timespec *to) {
    static int (*real)(clockid_t, struct timespec *);
    if (!real)
        real = (int (*)(clockid_t, struct timespec *))dlsym(RTLD_NEXT, "clock_gettime");
    int done = real(clock, to);
    if (clock == CLOCK_REALTIME && refused("clock", ++clocks))
        to->tv_sec = -1;
    return done;
}

int gettimeofday(struct timeval *restrict to, void *restrict zone) {
    static int (*real)(struct timeval *, void *);
    if (!real)
        real = (int (*)(struct timeval *, void *))dlsym(RTLD_NEXT, "gettimeofday");
    int done = real(to, zone);
    if (refused("clock", ++clocks))
        to->tv_sec = -1;
    return done;
}

time_t time(time_t *to) {
    static time_t (*real)(time_t *);
    if (!real)
        real = (time_t (*)(time_t *))dlsym(RTLD_NEXT, "time");
    time_t found = refused("clock", ++clocks) ? -1 : real(NULL);
    return to ? *to = found : found;
}

int pthread_create(pthread_t *thread, const pthread_attr_t *how, void *(*work)(void *), void *given) {
    static int (*real)(pthread_t *, const pthread_attr_t *, void *(*)(void *), void *);
    if (!real)
        real = (int (*)(pthread_t *, const pthread_attr_t *, void *(*)(void *), void *))dlsym(RTLD_NEXT, "pthread_create");
    if (is("thread") && __atomic_add_fetch(&threads, 1, __ATOMIC_SEQ_CST) == at)
        mark("REFUSED");
    return real(thread, how, work, given);
}

ssize_t read(int fd, void *to, size_t size) {
    static ssize_t (*real)(int, void *, size_t);
    if (!real)
        real = (ssize_t (*)(int, void *, size_t))dlsym(RTLD_NEXT, "read");
    long count = __atomic_add_fetch(&reads, 1, __ATOMIC_SEQ_CST);
    if (refused("read", count) || refused("read-last", count))
        return errno = EIO, -1;
    if (refused("read-again", count))
        return errno = EAGAIN, -1;
    if (refused("read-invalid", count))
        return errno = EINVAL, -1;
    if (broken_off("read-signal", count, fd))
        return errno = EINTR, -1;
    if (refused("read-end", count))
        return 0;
    return real(fd, to, size && (is("short") || is("read-last")) ? 1 : size);
}

ssize_t write(int fd, const void *from, size_t size) {
    static ssize_t (*real)(int, const void *, size_t);
    if (!real)
        real = (ssize_t (*)(int, const void *, size_t))dlsym(RTLD_NEXT, "write");
    if (fd == 2)
        return real(fd, from, size);
    long count = __atomic_add_fetch(&writes, 1, __ATOMIC_SEQ_CST);
    if (refused("write", count) || refused("write-last", count))
        return errno = EIO, -1;
    if (broken_off("write-signal", count, fd))
        return errno = EINTR, -1;
    if (size > 1 && refused("write-less", count))
        return real(fd, from, size - 1);
    if (size > 1 && (is("short") || is("write-last") || refused("write-one", count)))
        return real(fd, from, 1);
    return real(fd, from, size);
}

ssize_t __write(int fd, const void *from, size_t size) {
    return write(fd, from, size);
}
