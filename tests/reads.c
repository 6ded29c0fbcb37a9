// Loaded beside a program (LD_PRELOAD). Each read brings at most READ_MOST bytes, and read number READ_FAILS, counted from 1, fails with EIO, where
// the two are set.
#define _GNU_SOURCE
#include <dlfcn.h>
#include <errno.h>
#include <stdlib.h>
#include <unistd.h>

// A number of the environment, or 0 where it is not set.
static size_t setting(const char *name)
{
    const char *value = getenv(name);
    return value ? strtoul(value, NULL, 10) : 0;
}

ssize_t read(int fd, void *buffer, size_t count)
{
    static size_t reads;
    ssize_t (*real)(int, void *, size_t) = (ssize_t (*)(int, void *, size_t))dlsym(RTLD_NEXT, "read");
    size_t most = setting("READ_MOST");
    reads++;
    if (reads == setting("READ_FAILS")) {
        errno = EIO;
        return -1;
    }
    return real(fd, buffer, most && most < count ? most : count);
}
