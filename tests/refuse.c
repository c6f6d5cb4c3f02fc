/* Refuses one allocation of a program that is preloaded with this: the REFUSE-th, or none; with REFUSE_ON all from that one on.
   At the program's end the number of allocations is written to descriptor 9. */
#define _GNU_SOURCE
#include <dlfcn.h>
#include <stdio.h>
#include <stdlib.h>
#include <unistd.h>

static long seen, at = -1;
static int on;

static int refused(void)
{
    if (at < 0) {
        char *wanted = getenv("REFUSE");
        at = wanted ? atol(wanted) : 0;
        on = at > 0 && getenv("REFUSE_ON");
    }
    seen++;
    return seen == at || (on && seen > at);
}

void *malloc(size_t size)
{
    static void *(*next)(size_t);
    if (!next)
        next = dlsym(RTLD_NEXT, "malloc");
    return refused() ? NULL : next(size);
}

void *realloc(void *old, size_t size)
{
    static void *(*next)(void *, size_t);
    if (!next)
        next = dlsym(RTLD_NEXT, "realloc");
    return refused() ? NULL : next(old, size);
}

void *aligned_alloc(size_t alignment, size_t size)
{
    static void *(*next)(size_t, size_t);
    if (!next)
        next = dlsym(RTLD_NEXT, "aligned_alloc");
    return refused() ? NULL : next(alignment, size);
}

int posix_memalign(void **place, size_t alignment, size_t size)
{
    static int (*next)(void **, size_t, size_t);
    if (!next)
        next = dlsym(RTLD_NEXT, "posix_memalign");
    return refused() ? 12 : next(place, alignment, size);
}

__attribute__((destructor)) static void told(void)
{
    char text[32];
    int length = snprintf(text, sizeof text, "%ld\n", seen);
    if (write(9, text, length) < 0)
        return;
}
