/*
 * Refuses one request for memory. To be preloaded.
 *
 * REFUSE is the number of the request that malloc, calloc, realloc, posix_memalign, aligned_alloc or memalign
 * refuses, where those that count are numbered from 1. With a "+" behind it those after it are refused too, up
 * to the end of the part that counts, and with a "-" and a number those up to this one. What counts is said by
 * REFUSE_IN:
 *
 * - "main": each request from the start of main on. What the loader and the C library take before is not the
 *   program's, and the loader doesn't ask here.
 * - "call": each request between two lines that the program writes to standard output, "call" and "done". Behind
 *   a "done" that comes after a refusal none is refused any more.
 *
 * A letter goes to the file descriptor REFUSE_TO for each request that counts: r where it was refused, else c.
 */
#define _GNU_SOURCE
#include <dlfcn.h>
#include <errno.h>
#include <limits.h>
#include <stddef.h>
#include <stdlib.h>
#include <string.h>
#include <sys/syscall.h>
#include <unistd.h>

extern void *__libc_malloc(size_t);
extern void *__libc_calloc(size_t, size_t);
extern void *__libc_realloc(void *, size_t);
extern void *__libc_memalign(size_t, size_t);

static long chosen;
static long last;
static long count;
static int told_to;
static int is_open;
static int is_by_call;

/* Whether the request that is made now is to be refused. */
static int refuses(void)
{
    if (!is_open)
        return 0;
    count++;
    int is_refused = count >= chosen && count <= last;
    syscall(SYS_write, told_to, is_refused ? "r" : "c", 1);
    if (is_refused)
        errno = ENOMEM;
    return is_refused;
}

void *malloc(size_t size)
{
    return refuses() ? NULL : __libc_malloc(size);
}

void *calloc(size_t number, size_t size)
{
    return refuses() ? NULL : __libc_calloc(number, size);
}

void *realloc(void *old, size_t size)
{
    return refuses() ? NULL : __libc_realloc(old, size);
}

void *memalign(size_t align, size_t size)
{
    return refuses() ? NULL : __libc_memalign(align, size);
}

void *aligned_alloc(size_t align, size_t size)
{
    return refuses() ? NULL : __libc_memalign(align, size);
}

int posix_memalign(void **to, size_t align, size_t size)
{
    void *block = refuses() ? NULL : __libc_memalign(align, size);
    if (block == NULL)
        return ENOMEM;
    *to = block;
    return 0;
}

static ssize_t writes(int file, const void *bytes, size_t size)
{
    if (is_by_call && file == 1 && size == 5) {
        if (memcmp(bytes, "call\n", 5) == 0)
            is_open = 1;
        if (memcmp(bytes, "done\n", 5) == 0) {
            is_open = 0;
            last = count < chosen ? last : 0;
        }
    }
    return syscall(SYS_write, file, bytes, size);
}

ssize_t write(int file, const void *bytes, size_t size)
{
    return writes(file, bytes, size);
}

ssize_t __write(int file, const void *bytes, size_t size)
{
    return writes(file, bytes, size);
}

static int (*their_main)(int, char **, char **);

static int our_main(int words, char **word, char **environment)
{
    const char *number = getenv("REFUSE");
    const char *part = getenv("REFUSE_IN");
    const char *to = getenv("REFUSE_TO");
    if (number && part && to) {
        char *behind;
        chosen = strtol(number, &behind, 10);
        last = *behind == '+' ? LONG_MAX : *behind == '-' ? atol(behind + 1) : chosen;
        told_to = atoi(to);
        is_by_call = strcmp(part, "call") == 0;
        is_open = !is_by_call;
    }
    int status = their_main(words, word, environment);
    is_open = 0;
    return status;
}

typedef int start(int (*)(int, char **, char **), int, char **, void (*)(void), void (*)(void), void (*)(void), void *);

int __libc_start_main(int (*main)(int, char **, char **), int words, char **word, void (*init)(void),
                      void (*fini)(void), void (*rtld_fini)(void), void *stack_end)
{
    their_main = main;
    start *theirs = (start *)dlsym(RTLD_NEXT, "__libc_start_main");
    return theirs(our_main, words, word, init, fini, rtld_fini, stack_end);
}
