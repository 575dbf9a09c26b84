/* Refuses the allocation whose number is in REFUSE, counted from 1, of the program that this is
   loaded before. With REFUSE=0 it refuses none, and tells how many there were. Allocations of as many
   bytes as REFUSE_SIZE says are refused too, and do not count. With REFUSE_RANDOM there are no random
   bytes. */
#define _GNU_SOURCE
#include <dlfcn.h>
#include <errno.h>
#include <stdio.h>
#include <stdlib.h>
#include <string.h>

static long count, refused = -1;
static size_t refused_size;

static int refuse(size_t size)
{
    if (refused < 0) {
        const char *number = getenv("REFUSE"), *bytes = getenv("REFUSE_SIZE");
        refused = number ? atol(number) : 0;
        refused_size = bytes ? (size_t)atol(bytes) : 0;
    }
    if (refused_size != 0 && size == refused_size)
        return 1;
    return ++count == refused;
}

void *malloc(size_t size)
{
    static void *(*real)(size_t);
    if (!real)
        real = (void *(*)(size_t))dlsym(RTLD_NEXT, "malloc");
    return refuse(size) ? NULL : real(size);
}

void *realloc(void *block, size_t size)
{
    static void *(*real)(void *, size_t);
    if (!real)
        real = (void *(*)(void *, size_t))dlsym(RTLD_NEXT, "realloc");
    return refuse(size) ? NULL : real(block, size);
}

void *aligned_alloc(size_t align, size_t size)
{
    static void *(*real)(size_t, size_t);
    if (!real)
        real = (void *(*)(size_t, size_t))dlsym(RTLD_NEXT, "aligned_alloc");
    return refuse(size) ? NULL : real(align, size);
}

int getentropy(void *bytes, size_t size)
{
    static int (*real)(void *, size_t);
    if (!real)
        real = (int (*)(void *, size_t))dlsym(RTLD_NEXT, "getentropy");
    if (getenv("REFUSE_RANDOM")) {
        errno = EIO;
        return -1;
    }
    return real(bytes, size);
}

__attribute__((destructor)) static void tell(void)
{
    const char *file = getenv("REFUSE_COUNT");
    long counted = count; /* opening the file allocates too */
    FILE *out = refused == 0 && file ? fopen(file, "w") : NULL;
    if (out) {
        fprintf(out, "%ld\n", counted);
        fclose(out);
    }
}
