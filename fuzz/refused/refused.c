// Refuses one request for memory: the one whose number, from 1, is in REFUSED. For LD_PRELOAD.
#define _GNU_SOURCE
#include <dlfcn.h>
#include <errno.h>
#include <stdlib.h>

static long left = -1;

// Read before main: no request of the program's own comes earlier.
__attribute__((constructor)) static void count_from(void) {
    const char *number = getenv("REFUSED");
    left = number ? atol(number) : 0;
}

static int is_refused(void) {
    if (left > 0 && --left == 0) {
        errno = ENOMEM;
        return 1;
    }
    return 0;
}

void *malloc(size_t size) {
    static void *(*real)(size_t);
    if (!real) real = dlsym(RTLD_NEXT, "malloc");
    return is_refused() ? 0 : real(size);
}

void *realloc(void *old, size_t size) {
    static void *(*real)(void *, size_t);
    if (!real) real = dlsym(RTLD_NEXT, "realloc");
    return is_refused() ? 0 : real(old, size);
}
