/* A library to preload: the reads of a program from files called *.csv and from standard input, or its writes on
   standard output, fail, are broken off by signals, or move few bytes.

   DEVICE=read or DEVICE=write says which calls; DEVICE_FAILS_AT=N fails the Nth of them, counted from 1, with the
   error DEVICE_ERROR (0: it moves nothing, and that is no error); DEVICE_INTERRUPTS=N breaks N calls off before each
   of them; DEVICE_MOST=N is the most bytes that one of them moves. DEVICE_REPORT=FILE is written where a call failed. */
#define _GNU_SOURCE
#include <dlfcn.h>
#include <errno.h>
#include <fcntl.h>
#include <stdio.h>
#include <stdlib.h>
#include <string.h>
#include <sys/uio.h>
#include <unistd.h>

static ssize_t (*next_read)(int, void *, size_t);
static ssize_t (*next_write)(int, const void *, size_t);
static int reads, writes;
static long fails_at, error, interrupts, most;
static const char *report;
static long calls, broken_off;

static long number(const char *name, long other)
{
    const char *text = getenv(name);
    return text ? atol(text) : other;
}

__attribute__((constructor)) static void begin(void)
{
    const char *device = getenv("DEVICE");
    next_read = dlsym(RTLD_NEXT, "read");
    next_write = dlsym(RTLD_NEXT, "write");
    fails_at = number("DEVICE_FAILS_AT", 0);
    error = number("DEVICE_ERROR", EIO);
    interrupts = number("DEVICE_INTERRUPTS", 0);
    most = number("DEVICE_MOST", 1L << 40);
    report = getenv("DEVICE_REPORT");
    reads = device && !strcmp(device, "read");
    writes = device && !strcmp(device, "write");
}

static int is_input(int file)
{
    char link[64], path[4096];
    if (file == 0)
        return 1;
    snprintf(link, sizeof link, "/proc/self/fd/%d", file);
    ssize_t length = readlink(link, path, sizeof path);
    return length > 4 && !memcmp(path + length - 4, ".csv", 4);
}

static void tell(void)
{
    int file = report ? open(report, O_WRONLY | O_CREAT | O_APPEND, 0644) : -1;
    if (file >= 0) {
        ssize_t written = next_write(file, "failed\n", 7);
        (void)written;
        close(file);
    }
}

/* Whether this call is broken off or fails, and then what it answers. */
static int stops(ssize_t *answer)
{
    if (broken_off < interrupts) {
        broken_off++;
        errno = EINTR;
        *answer = -1;
        return 1;
    }
    broken_off = 0;
    calls++;
    if (calls != fails_at)
        return 0;
    tell();
    errno = (int)error;
    *answer = error ? -1 : 0;
    return 1;
}

static size_t at_most(size_t size)
{
    return size < (size_t)most ? size : (size_t)most;
}

ssize_t read(int file, void *bytes, size_t size)
{
    ssize_t answer;
    if (!next_read)
        next_read = dlsym(RTLD_NEXT, "read");
    if (!reads || !is_input(file))
        return next_read(file, bytes, size);
    return stops(&answer) ? answer : next_read(file, bytes, at_most(size));
}

ssize_t write(int file, const void *bytes, size_t size)
{
    ssize_t answer;
    if (!next_write)
        next_write = dlsym(RTLD_NEXT, "write");
    if (!writes || file != 1)
        return next_write(file, bytes, size);
    return stops(&answer) ? answer : next_write(file, bytes, at_most(size));
}

/* Reading and writing of several pieces: of the first one that isn't empty. */
ssize_t readv(int file, const struct iovec *pieces, int count)
{
    for (int i = 0; i < count; i++)
        if (pieces[i].iov_len > 0)
            return read(file, pieces[i].iov_base, pieces[i].iov_len);
    return read(file, "", 0);
}

ssize_t writev(int file, const struct iovec *pieces, int count)
{
    for (int i = 0; i < count; i++)
        if (pieces[i].iov_len > 0)
            return write(file, pieces[i].iov_base, pieces[i].iov_len);
    return write(file, "", 0);
}
