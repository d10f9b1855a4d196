/* A library to be loaded before the C library: it refuses one call for memory, the one whose number the environment's
   REFUSED_CALL gives, counted from 1. When it does, it makes the file that REFUSED_MARK names. */
#define _GNU_SOURCE
#include <dlfcn.h>
#include <fcntl.h>
#include <stdlib.h>

static unsigned long calls;

static int is_refused(void)
{
    const char *number = getenv("REFUSED_CALL");
    if (!number || ++calls != strtoul(number, NULL, 10))
        return 0;
    creat(getenv("REFUSED_MARK"), 0600);
    return 1;
}

void *malloc(size_t size)
{
    static void *(*next)(size_t);
    if (!next)
        next = (void *(*)(size_t))dlsym(RTLD_NEXT, "malloc");
    return is_refused() ? NULL : next(size);
}

void *realloc(void *old, size_t size)
{
    static void *(*next)(void *, size_t);
    if (!next)
        next = (void *(*)(void *, size_t))dlsym(RTLD_NEXT, "realloc");
    return is_refused() ? NULL : next(old, size);
}
