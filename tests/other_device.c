/* A library to preload: the files whose name ends in OTHER_DEVICE are told to be on another device. */
#define _GNU_SOURCE
#include <dlfcn.h>
#include <stdlib.h>
#include <string.h>
#include <sys/stat.h>

int statx(int folder, const char *path, int flags, unsigned int wanted, struct statx *found)
{
    int (*next)(int, const char *, int, unsigned int, struct statx *) = dlsym(RTLD_NEXT, "statx");
    int status = next(folder, path, flags, wanted, found);
    const char *other = getenv("OTHER_DEVICE");
    size_t length = strlen(path), least = other ? strlen(other) : 0;
    if (!status && other && length >= least && !strcmp(path + length - least, other))
        found->stx_dev_minor += 1;
    return status;
}
