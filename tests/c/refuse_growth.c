/* Preloaded under a program: counts its growths of memory, and refuses the ones that it is told to.
 *
 * GROWTH_REFUSED=N   the growth of this number is refused, counted from 1; 0 or unset: none
 * GROWTH_AFTER=1     all that come after it are refused too
 * GROWTH_COUNT=FILE  how many growths were asked for is written there when the program ends
 *
 * A growth is a call of malloc, realloc or aligned_alloc: what the programs call, and never calloc.
 * Those of the C library before main are counted too: they are the same in each run.
 */
#define _GNU_SOURCE
#include <dlfcn.h>
#include <errno.h>
#include <stdio.h>
#include <stdlib.h>
#include <string.h>

static unsigned long refused, asked;
static int and_after, ready;

__attribute__((constructor)) static void begin(void)
{
    const char *number = getenv("GROWTH_REFUSED");
    refused = number ? strtoul(number, NULL, 10) : 0;
    and_after = getenv("GROWTH_AFTER") != NULL;
    ready = 1;
}

__attribute__((destructor)) static void end(void)
{
    const char *path = getenv("GROWTH_COUNT");
    ready = 0;
    if (!path)
        return;
    FILE *file = fopen(path, "w");
    if (!file)
        return;
    fprintf(file, "%lu\n", asked);
    fclose(file);
}

/* Counts a growth, and says whether it is one to refuse. */
static int is_refused(void)
{
    if (!ready)
        return 0;
    asked++;
    if (refused == 0 || asked < refused || (asked > refused && !and_after))
        return 0;
    errno = ENOMEM;
    return 1;
}

void *malloc(size_t size)
{
    static void *(*next)(size_t);
    if (!next)
        next = (void *(*)(size_t))dlsym(RTLD_NEXT, "malloc");
    return is_refused() ? NULL : next(size);
}

void *realloc(void *block, size_t size)
{
    static void *(*next)(void *, size_t);
    if (!next)
        next = (void *(*)(void *, size_t))dlsym(RTLD_NEXT, "realloc");
    return is_refused() ? NULL : next(block, size);
}

void *aligned_alloc(size_t alignment, size_t size)
{
    static void *(*next)(size_t, size_t);
    if (!next)
        next = (void *(*)(size_t, size_t))dlsym(RTLD_NEXT, "aligned_alloc");
    return is_refused() ? NULL : next(alignment, size);
}
