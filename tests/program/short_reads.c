/* Makes the reads of standard input short, of the program that this is loaded before: each gives at most
   as many bytes as READ_MOST, and those past the number in READ_CALLS fail. */
#define _GNU_SOURCE
#include <dlfcn.h>
#include <errno.h>
#include <stdlib.h>
#include <unistd.h>

static long calls;

ssize_t read(int file, void *room, size_t size)
{
    static ssize_t (*real)(int, void *, size_t);
    const char *most = getenv("READ_MOST"), *good = getenv("READ_CALLS");
    if (!real)
        real = (ssize_t (*)(int, void *, size_t))dlsym(RTLD_NEXT, "read");
    if (file != STDIN_FILENO)
        return real(file, room, size);
    if (good && ++calls > atol(good)) {
        errno = EIO;
        return -1;
    }
    if (most && size > (size_t)atol(most))
        size = (size_t)atol(most);
    return real(file, room, size);
}
