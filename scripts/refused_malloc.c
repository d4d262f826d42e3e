/* Refuses one allocation of a program: the one whose number the variable REFUSED_ALLOCATION has.
 * Each call of malloc and of realloc counts. It is loaded before the C library, by LD_PRELOAD. */
#define _GNU_SOURCE
#include <dlfcn.h>
#include <errno.h>
#include <stdatomic.h>
#include <stdlib.h>

static void *(*next_malloc)(size_t);
static void *(*next_realloc)(void *, size_t);
static atomic_long left = -1;

__attribute__((constructor)) static void begin(void) {
    const char *number = getenv("REFUSED_ALLOCATION");
    next_malloc = (void *(*)(size_t))dlsym(RTLD_NEXT, "malloc");
    next_realloc = (void *(*)(void *, size_t))dlsym(RTLD_NEXT, "realloc");
    left = number ? atol(number) : -1;
}

static int is_refused(void) {
    return atomic_fetch_sub(&left, 1) == 1;
}

void *malloc(size_t size) {
    if (!next_malloc)
        begin();
    if (is_refused()) {
        errno = ENOMEM;
        return NULL;
    }
    return next_malloc(size);
}

void *realloc(void *block, size_t size) {
    if (!next_realloc)
        begin();
    if (is_refused()) {
        errno = ENOMEM;
        return NULL;
    }
    return next_realloc(block, size);
}
