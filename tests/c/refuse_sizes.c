/* Preloaded under a program: refuses memory of some sizes, in a program that needs memory for other
 * things too.
 *
 *     REFUSED_FROM, REFUSED_TO   the sizes that malloc and calloc refuse
 */
#define _GNU_SOURCE
#include <dlfcn.h>
#include <stdlib.h>

static size_t bound(const char *name)
{
    const char *text = getenv(name);
    return text ? strtoul(text, NULL, 10) : 0;
}

static int is_refused(size_t size)
{
    return size >= bound("REFUSED_FROM") && size <= bound("REFUSED_TO");
}

void *malloc(size_t size)
{
    static void *(*next)(size_t);
    if (!next)
        next = (void *(*)(size_t))dlsym(RTLD_NEXT, "malloc");
    return is_refused(size) ? NULL : next(size);
}

extern void *__libc_calloc(size_t, size_t);
void *calloc(size_t count, size_t size)
{
    return is_refused(count * size) ? NULL : __libc_calloc(count, size);
}
