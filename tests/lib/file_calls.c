/* Notes each read, write, change of length and sync of files, of the program that this is loaded before, at the end of the file
   that CALLS names: a line of its kind, its offset or length, how many bytes it wrote and its file, and then the bytes.
   Where STOP is a number, that call and each later one on the same file fail; a write at which it stops writes half. */
#define _GNU_SOURCE
#include <dlfcn.h>
#include <errno.h>
#include <fcntl.h>
#include <stdio.h>
#include <stdlib.h>
#include <string.h>
#include <unistd.h>

static long calls;
static char stopped[4096];

static void name_of(int file, char *path, size_t size)
{
    char link[32];
    snprintf(link, sizeof link, "/proc/self/fd/%d", file);
    ssize_t length = readlink(link, path, size - 1);
    path[length < 0 ? 0 : length] = 0;
}

/* Whether a call fails. The first that does names the file. */
static int fails(int file, int *first)
{
    char path[4096];
    const char *stop = getenv("STOP");
    name_of(file, path, sizeof path);
    *first = stop && ++calls == atol(stop);
    if (*first)
        strcpy(stopped, path);
    if (!stopped[0] || strcmp(stopped, path) != 0)
        return 0;
    errno = EIO;
    return 1;
}

static void note(const char *kind, int file, long long at, const void *bytes, size_t size)
{
    static int out = -1;
    char path[4096], line[4200];
    if (out < 0)
        out = open(getenv("CALLS"), O_WRONLY | O_APPEND | O_CLOEXEC);
    name_of(file, path, sizeof path);
    int length = snprintf(line, sizeof line, "%s %lld %zu %s\n", kind, at, size, path);
    if (write(out, line, length) != length || write(out, bytes, size) != (ssize_t)size)
        abort();
}

static ssize_t read_at(const char *name, int file, void *room, size_t size, off_t at)
{
    ssize_t (*real)(int, void *, size_t, off_t) = (ssize_t (*)(int, void *, size_t, off_t))dlsym(RTLD_NEXT, name);
    int first;
    if (fails(file, &first))
        return -1;
    note("read", file, at, "", 0);
    return real(file, room, size, at);
}

ssize_t pread(int file, void *room, size_t size, off_t at)
{
    return read_at("pread", file, room, size, at);
}

ssize_t pread64(int file, void *room, size_t size, off_t at)
{
    return read_at("pread64", file, room, size, at);
}

static ssize_t write_at(const char *name, int file, const void *bytes, size_t size, off_t at)
{
    ssize_t (*real)(int, const void *, size_t, off_t) =
        (ssize_t (*)(int, const void *, size_t, off_t))dlsym(RTLD_NEXT, name);
    int first, stops = fails(file, &first);
    if (stops && !first)
        return -1;
    ssize_t count = real(file, bytes, stops ? size / 2 : size, at);
    if (count > 0)
        note("write", file, at, bytes, count);
    if (!stops)
        return count;
    errno = EIO;
    return -1;
}

ssize_t pwrite(int file, const void *bytes, size_t size, off_t at)
{
    return write_at("pwrite", file, bytes, size, at);
}

ssize_t pwrite64(int file, const void *bytes, size_t size, off_t at)
{
    return write_at("pwrite64", file, bytes, size, at);
}

static int resize(const char *name, int file, off_t size)
{
    int (*real)(int, off_t) = (int (*)(int, off_t))dlsym(RTLD_NEXT, name);
    int first;
    if (fails(file, &first))
        return -1;
    int answer = real(file, size);
    if (answer == 0)
        note("length", file, size, "", 0);
    return answer;
}

int ftruncate(int file, off_t size)
{
    return resize("ftruncate", file, size);
}

int ftruncate64(int file, off_t size)
{
    return resize("ftruncate64", file, size);
}

static int sync_file(const char *name, int file)
{
    int (*real)(int) = (int (*)(int))dlsym(RTLD_NEXT, name);
    int first;
    if (fails(file, &first))
        return -1;
    int answer = real(file);
    if (answer == 0)
        note("sync", file, 0, "", 0);
    return answer;
}

int fsync(int file)
{
    return sync_file("fsync", file);
}

int fdatasync(int file)
{
    return sync_file("fdatasync", file);
}
