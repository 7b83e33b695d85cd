/* A library that is loaded before the C library, for tests/refusals: it refuses the growth or the outside call of one number, and
   lets reads and writes take a few bytes at a time.

   GROWTH   the number, from 1, of the growth that is refused
   CALL     the number, from 1, of the call to the outside that fails with the error number ERROR
   SHORT    how many bytes a read or a write takes at most
   COUNTS   a file for how many growths and calls there were */
#define _GNU_SOURCE
#include <dlfcn.h>
#include <errno.h>
#include <fcntl.h>
#include <pthread.h>
#include <stdarg.h>
#include <stdatomic.h>
#include <stdio.h>
#include <stdlib.h>
#include <sys/stat.h>
#include <unistd.h>

static atomic_long growths, calls;
static long growth, call, at_most;
static int error = EIO, is_on;

static void *real(const char *name)
{
    return dlsym(RTLD_NEXT, name);
}

static long number(const char *name)
{
    const char *text = getenv(name);
    return text ? atol(text) : 0;
}

__attribute__((constructor)) static void begin(void)
{
    growth = number("GROWTH");
    call = number("CALL");
    at_most = number("SHORT");
    if (number("ERROR"))
        error = (int)number("ERROR");
    unsetenv("LD_PRELOAD");
    is_on = 1;
}

static void end(void)
{
    const char *path = getenv("COUNTS");
    is_on = 0;
    if (path) {
        FILE *file = fopen(path, "w");
        if (file) {
            fprintf(file, "%ld %ld\n", atomic_load(&growths), atomic_load(&calls));
            fclose(file);
        }
    }
}

void _exit(int status)
{
    void (*next)(int) __attribute__((noreturn)) = real("_exit");
    end();
    next(status);
}

/* Whether this growth is the one that is refused. */
static int refuses(void)
{
    return is_on && atomic_fetch_add(&growths, 1) + 1 == growth && (errno = ENOMEM);
}

/* Whether this call is the one that fails. */
static int fails(void)
{
    return is_on && atomic_fetch_add(&calls, 1) + 1 == call && (errno = error);
}

static size_t cut(size_t size)
{
    return is_on && at_most && size > (size_t)at_most ? (size_t)at_most : size;
}

extern void *__libc_malloc(size_t), *__libc_realloc(void *, size_t);

void *malloc(size_t size)
{
    return refuses() ? NULL : __libc_malloc(size);
}

void *realloc(void *old, size_t size)
{
    return refuses() ? NULL : __libc_realloc(old, size);
}

ssize_t read(int file, void *bytes, size_t size)
{
    static ssize_t (*next)(int, void *, size_t);
    if (!next)
        next = real("read");
    return fails() ? -1 : next(file, bytes, cut(size));
}

ssize_t write(int file, const void *bytes, size_t size)
{
    static ssize_t (*next)(int, const void *, size_t);
    if (!next)
        next = real("write");
    return fails() ? -1 : next(file, bytes, cut(size));
}

int open(const char *path, int flags, ...)
{
    static int (*next)(const char *, int, ...);
    va_list rest;
    mode_t mode;
    va_start(rest, flags);
    mode = va_arg(rest, mode_t);
    va_end(rest);
    if (!next)
        next = real("open");
    return fails() ? -1 : next(path, flags, mode);
}

#define FAILING(name, parameters, ...)                                                                                         \
    int name parameters                                                                                                        \
    {                                                                                                                          \
        static int(*next) parameters;                                                                                          \
        if (!next)                                                                                                             \
            next = real(#name);                                                                                                \
        return fails() ? -1 : next(__VA_ARGS__);                                                                               \
    }

FAILING(rename, (const char *from, const char *to), from, to)
FAILING(fsync, (int file), file)
FAILING(fchmod, (int file, mode_t mode), file, mode)
FAILING(statx, (int folder, const char *restrict path, int flags, unsigned mask, struct statx *restrict found), folder, path, flags, mask, found)

int pthread_create(pthread_t *thread, const pthread_attr_t *how, void *(*start)(void *), void *with)
{
    static int (*next)(pthread_t *, const pthread_attr_t *, void *(*)(void *), void *);
    if (!next)
        next = real("pthread_create");
    return fails() ? EAGAIN : next(thread, how, start, with);
}

char *realpath(const char *restrict path, char *restrict to)
{
    static char *(*next)(const char *, char *);
    if (!next)
        next = real("realpath");
    return fails() ? NULL : next(path, to);
}
