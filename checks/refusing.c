/* Stands before the C library, by LD_PRELOAD, and lets one call of a kind fail: the one whose number, from 1, the
   environment gives. FAIL_READ and FAIL_WRITE are of input and output (from EIO), FAIL_ALLOC of memory. With
   COUNT_FILE, the number of allocations is written there at the end. */
#define _GNU_SOURCE
#include <dlfcn.h>
#include <errno.h>
#include <stdio.h>
#include <stdlib.h>
#include <string.h>
#include <sys/syscall.h>
#include <unistd.h>

static long reads, writes, allocs;

static long wanted(const char *name)
{
    const char *value = getenv(name);
    return value ? atol(value) : 0;
}

ssize_t read(int fd, void *buffer, size_t size)
{
    static ssize_t (*next)(int, void *, size_t);
    if (!next)
        next = (ssize_t (*)(int, void *, size_t))dlsym(RTLD_NEXT, "read");
    if (fd == 0 && __sync_add_and_fetch(&reads, 1) == wanted("FAIL_READ")) {
        errno = EIO;
        return -1;
    }
    return next(fd, buffer, size);
}

ssize_t write(int fd, const void *buffer, size_t size)
{
    static ssize_t (*next)(int, const void *, size_t);
    if (!next)
        next = (ssize_t (*)(int, const void *, size_t))dlsym(RTLD_NEXT, "write");
    if (fd == 1 && __sync_add_and_fetch(&writes, 1) == wanted("FAIL_WRITE")) {
        errno = EIO;
        return -1;
    }
    return next(fd, buffer, size);
}

/* Whether this allocation is refused. The C library's own start comes before main, and isn't counted. */
static int refused(void)
{
    static long at = -1;
    if (at < 0)
        at = wanted("FAIL_ALLOC");
    return __sync_add_and_fetch(&allocs, 1) == at;
}

void *malloc(size_t size)
{
    static void *(*next)(size_t);
    if (!next)
        next = (void *(*)(size_t))dlsym(RTLD_NEXT, "malloc");
    return refused() ? NULL : next(size);
}

void *realloc(void *old, size_t size)
{
    static void *(*next)(void *, size_t);
    if (!next)
        next = (void *(*)(void *, size_t))dlsym(RTLD_NEXT, "realloc");
    return refused() ? NULL : next(old, size);
}

static void tell(void)
{
    const char *name = getenv("COUNT_FILE");
    FILE *file = name ? fopen(name, "w") : NULL;
    if (file) {
        fprintf(file, "%ld %ld %ld\n", reads, writes, allocs);
        fclose(file);
    }
}

/* A program with threads ends so, past what the C library does at an end. */
void _exit(int status)
{
    tell();
    syscall(SYS_exit_group, status);
    __builtin_unreachable();
}

__attribute__((destructor)) static void at_end(void)
{
    tell();
}
