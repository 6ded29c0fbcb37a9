// Loaded beside a program (LD_PRELOAD). Until the program opens a file or reads standard input, it looks through the stack for model W's forty bytes
// each time that the program copies or fills memory, and writes "W" to standard error when it first finds them; each file opened gives a line
// "open NAME", and the first read of standard input a line "read". With CHANGE_W set it changes a weight in each W that it finds, so that no register
// accepts it.
#define _GNU_SOURCE
#include <dlfcn.h>
#include <stdbool.h>
#include <stdio.h>
#include <stdlib.h>
#include <string.h>
#include <unistd.h>

enum { W_BYTES = 40, WEIGHT_BYTE = 6 };

// The records p Z q L Y X weight: 0 0 0 0 0 0 32768; 0 0 0 2 0 0 16384; 0 0 1 0 0 0 16384; 1 0 1 0 0 0 65536.
static const unsigned char W[W_BYTES] = {
    0, 0, 0, 0, 0, 0, 0, 128, 0, 0,
    0, 0, 0, 2, 0, 0, 0, 64, 0, 0,
    0, 0, 1, 0, 0, 0, 0, 64, 0, 0,
    1, 0, 1, 0, 0, 0, 0, 0, 1, 0,
};

static char *stack_end;
static bool watching, found, change, has_read;
static void *(*real_memcpy)(void *, const void *, size_t);
static void *(*real_memset)(void *, int, size_t);
static int (*real_open)(const char *, int, ...);
static ssize_t (*real_read)(int, void *, size_t);

__attribute__((constructor)) static void start(void)
{
    real_memcpy = dlsym(RTLD_NEXT, "memcpy");
    real_memset = dlsym(RTLD_NEXT, "memset");
    real_open = dlsym(RTLD_NEXT, "open");
    real_read = dlsym(RTLD_NEXT, "read");
    FILE *maps = fopen("/proc/self/maps", "r");
    char line[512];
    while (maps && fgets(line, sizeof line, maps)) {
        void *from, *to;
        if (strstr(line, "[stack]") && sscanf(line, "%p-%p", &from, &to) == 2) {
            stack_end = to;
        }
    }
    change = getenv("CHANGE_W") != NULL;
    watching = stack_end != NULL;
}

// Looks through what the program's functions have on the stack: all that lies above this function's own frame.
static void look(void)
{
    char *at = __builtin_frame_address(0);
    while (watching && (at = memmem(at, stack_end - at, W, W_BYTES)) != NULL) {
        if (!found) {
            fputs("W\n", stderr);
        }
        found = true;
        if (change) {
            at[WEIGHT_BYTE] ^= 1;
        }
        at += W_BYTES;
    }
}

void *memcpy(void *to, const void *from, size_t count)
{
    look();
    return real_memcpy(to, from, count);
}

void *memset(void *to, int byte, size_t count)
{
    look();
    return real_memset(to, byte, count);
}

int open(const char *name, int flags, ...)
{
    look();
    watching = false;
    fprintf(stderr, "open %s\n", name);
    return real_open(name, flags, 0);
}

ssize_t read(int from, void *to, size_t count)
{
    if (from == STDIN_FILENO && !has_read) {
        look();
        watching = false;
        has_read = true;
        fputs("read\n", stderr);
    }
    return real_read(from, to, count);
}
