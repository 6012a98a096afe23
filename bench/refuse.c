// Refuses one growth of memory: loaded before a program by LD_PRELOAD, it lets call REFUSED_CALL of malloc and realloc, counted from 1, answer that
// there is no memory, and writes a byte into the pipe REFUSED_PIPE then. bench/growths.py makes it and uses it.
#define _GNU_SOURCE
#include <dlfcn.h>
#include <stdlib.h>
#include <unistd.h>

static long calls_left;
static int told;

__attribute__((constructor)) static void begin(void) {
    const char *call = getenv("REFUSED_CALL"), *pipe = getenv("REFUSED_PIPE");
    told = pipe ? atoi(pipe) : -1;
    calls_left = call ? atol(call) : 0;
}

static int is_refused(void) {
    if (calls_left == 0 || --calls_left > 0)
        return 0;
    return write(told, "x", 1) == 1;
}

void *malloc(size_t size) {
    static void *(*next)(size_t);
    if (!next)
        next = (void *(*)(size_t))dlsym(RTLD_NEXT, "malloc");
    return is_refused() ? NULL : next(size);
}

void *realloc(void *old, size_t size) {
    static void *(*next)(void *, size_t);
    if (!next)
        next = (void *(*)(void *, size_t))dlsym(RTLD_NEXT, "realloc");
    return is_refused() ? NULL : next(old, size);
}
