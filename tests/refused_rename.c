/* A library to preload: calls on a file that is to take the place of another one fail. REFUSED names the call, rename, fsync or
   write; it fails with EIO, write not on standard output and standard error. */
#define _GNU_SOURCE
#include <dlfcn.h>
#include <errno.h>
#include <stdio.h>
#include <stdlib.h>
#include <string.h>
#include <unistd.h>

static int is_refused(const char *call)
{
    const char *refused = getenv("REFUSED");
    if (!refused || strcmp(refused, call))
        return 0;
    errno = EIO;
    return 1;
}

int rename(const char *from, const char *to)
{
    int (*next)(const char *, const char *) = dlsym(RTLD_NEXT, "rename");
    return is_refused("rename") ? -1 : next(from, to);
}

int fsync(int file)
{
    int (*next)(int) = dlsym(RTLD_NEXT, "fsync");
    return is_refused("fsync") ? -1 : next(file);
}

ssize_t write(int file, const void *bytes, size_t size)
{
    ssize_t (*next)(int, const void *, size_t) = dlsym(RTLD_NEXT, "write");
    return file > 2 && is_refused("write") ? -1 : next(file, bytes, size);
}
