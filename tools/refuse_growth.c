/* Preloaded before the C library: counts what asks for memory, and refuses the one whose number is in
   REFUSED_GROWTH, once. Then the file named in GROWTH_REPORT exists. */
#define _GNU_SOURCE
#include <dlfcn.h>
#include <errno.h>
#include <fcntl.h>
#include <stdlib.h>
#include <unistd.h>

static long count;
static long refused = -1;

static int is_refused(void)
{
    if (refused < 0) {
        const char *told = getenv("REFUSED_GROWTH");
        refused = told ? atol(told) : 0;
    }
    count += 1;
    if (refused == 0 || count != refused)
        return 0;
    const char *report = getenv("GROWTH_REPORT");
    if (report)
        close(open(report, O_CREAT | O_WRONLY, 0600));
    errno = ENOMEM;
    return 1;
}

void *malloc(size_t size)
{
    static void *(*real)(size_t);
    if (!real)
        real = dlsym(RTLD_NEXT, "malloc");
    return is_refused() ? NULL : real(size);
}

void *realloc(void *old, size_t size)
{
    static void *(*real)(void *, size_t);
    if (!real)
        real = dlsym(RTLD_NEXT, "realloc");
    return is_refused() ? NULL : real(old, size);
}

void *aligned_alloc(size_t align, size_t size)
{
    static void *(*real)(size_t, size_t);
    if (!real)
        real = dlsym(RTLD_NEXT, "aligned_alloc");
    return is_refused() ? NULL : real(align, size);
}

int posix_memalign(void **to, size_t align, size_t size)
{
    static int (*real)(void **, size_t, size_t);
    if (!real)
        real = dlsym(RTLD_NEXT, "posix_memalign");
    return is_refused() ? ENOMEM : real(to, align, size);
}
