/* A library that is loaded before the C library. It refuses the allocation whose number is in REFUSE_AT, counted from 1, and
   creates the file that REFUSED names. */
#define _GNU_SOURCE
#include <dlfcn.h>
#include <fcntl.h>
#include <stdatomic.h>
#include <stdlib.h>
#include <unistd.h>

static atomic_long count;

static int is_refused(void) {
    const char *at = getenv("REFUSE_AT");
    if (at == NULL || atomic_fetch_add(&count, 1) + 1 != atol(at))
        return 0;
    const char *mark = getenv("REFUSED");
    if (mark != NULL)
        close(open(mark, O_CREAT | O_WRONLY, 0600));
    return 1;
}

void *malloc(size_t size) {
    static void *(*next)(size_t);
    if (next == NULL)
        next = dlsym(RTLD_NEXT, "malloc");
    return is_refused() ? NULL : next(size);
}

void *realloc(void *old, size_t size) {
    static void *(*next)(void *, size_t);
    if (next == NULL)
        next = dlsym(RTLD_NEXT, "realloc");
    return is_refused() ? NULL : next(old, size);
}

void *aligned_alloc(size_t align, size_t size) {
    static void *(*next)(size_t, size_t);
    if (next == NULL)
        next = dlsym(RTLD_NEXT, "aligned_alloc");
    return is_refused() ? NULL : next(align, size);
}

int posix_memalign(void **to, size_t align, size_t size) {
    static int (*next)(void **, size_t, size_t);
    if (next == NULL)
        next = dlsym(RTLD_NEXT, "posix_memalign");
    return is_refused() ? 12 : next(to, align, size);
}
