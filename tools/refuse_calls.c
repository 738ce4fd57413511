/* Loaded before the C library: counts the program's calls of one kind and refuses one of them.
 *
 * REFUSED names the kind and the number, from 1 on: `allocation 3`, `open 1`, `read 2`, `write 1`; `short 0` gives and takes
 * one byte a call. COUNTED names a file that gets the number of calls of each kind at the end.
 */
#define _GNU_SOURCE
#include <dlfcn.h>
#include <errno.h>
#include <fcntl.h>
#include <stdarg.h>
#include <stdio.h>
#include <stdlib.h>
#include <string.h>
#include <unistd.h>

enum kind { ALLOCATION, OPEN, READ, WRITE, KINDS };
static const char *const names[KINDS] = {"allocation", "open", "read", "write"};
static long counts[KINDS];
static int refused_kind = KINDS, is_short, is_on;
static long refused_number;

static int refused(enum kind kind)
{
    if (!is_on)
        return 0;
    counts[kind]++;
    return kind == (enum kind)refused_kind && counts[kind] == refused_number;
}

__attribute__((constructor)) static void begin(void)
{
    const char *text = getenv("REFUSED");
    char kind[16] = "";
    if (text && sscanf(text, "%15s %ld", kind, &refused_number) == 2) {
        is_short = !strcmp(kind, "short");
        for (int i = 0; i < KINDS; i++)
            if (!strcmp(kind, names[i]))
                refused_kind = i;
    }
    is_on = 1;
}

__attribute__((destructor)) static void end(void)
{
    const char *name = getenv("COUNTED");
    is_on = 0;
    FILE *file = name ? fopen(name, "w") : NULL;
    if (!file)
        return;
    for (int i = 0; i < KINDS; i++)
        fprintf(file, "%s %ld\n", names[i], counts[i]);
    fclose(file);
}

#define NEXT(type, name) ((type)dlsym(RTLD_NEXT, name))

void *malloc(size_t size)
{
    extern void *__libc_malloc(size_t);
    if (refused(ALLOCATION)) {
        errno = ENOMEM;
        return NULL;
    }
    return __libc_malloc(size);
}

void *calloc(size_t count, size_t size)
{
    extern void *__libc_calloc(size_t, size_t);
    if (refused(ALLOCATION)) {
        errno = ENOMEM;
        return NULL;
    }
    return __libc_calloc(count, size);
}

void *realloc(void *old, size_t size)
{
    extern void *__libc_realloc(void *, size_t);
    if (refused(ALLOCATION)) {
        errno = ENOMEM;
        return NULL;
    }
    return __libc_realloc(old, size);
}

static int opened(const char *name, const char *path, int flags, mode_t mode)
{
    if (refused(OPEN)) {
        errno = EACCES;
        return -1;
    }
    return NEXT(int (*)(const char *, int, mode_t), name)(path, flags, mode);
}

#define OPENS(name)                                                                                                    \
    int name(const char *path, int flags, ...)                                                                         \
    {                                                                                                                  \
        va_list rest;                                                                                                  \
        va_start(rest, flags);                                                                                         \
        mode_t mode = flags & O_CREAT ? va_arg(rest, mode_t) : 0;                                                      \
        va_end(rest);                                                                                                  \
        return opened(#name, path, flags, mode);                                                                       \
    }

OPENS(open)
OPENS(open64)

int openat(int folder, const char *path, int flags, ...)
{
    if (refused(OPEN)) {
        errno = EACCES;
        return -1;
    }
    return NEXT(int (*)(int, const char *, int, mode_t), "openat")(folder, path, flags, 0);
}

static ssize_t given(const char *name, int file, void *bytes, size_t length)
{
    if (refused(READ)) {
        errno = EIO;
        return -1;
    }
    return NEXT(ssize_t (*)(int, void *, size_t), name)(file, bytes, is_short && length > 1 ? 1 : length);
}

static ssize_t taken(const char *name, int file, const void *bytes, size_t length)
{
    if (refused(WRITE)) {
        errno = ENOSPC;
        return -1;
    }
    return NEXT(ssize_t (*)(int, const void *, size_t), name)(file, bytes, is_short && length > 1 ? 1 : length);
}

ssize_t read(int file, void *bytes, size_t length) { return given("read", file, bytes, length); }
ssize_t __read(int file, void *bytes, size_t length) { return given("__read", file, bytes, length); }
ssize_t write(int file, const void *bytes, size_t length) { return taken("write", file, bytes, length); }
ssize_t __write(int file, const void *bytes, size_t length) { return taken("__write", file, bytes, length); }
