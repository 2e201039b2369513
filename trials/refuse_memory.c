/* Refuses memory: put before a program by LD_PRELOAD. The REFUSED_TAKING-th call of malloc or realloc gets none, and
 * with REFUSED_MODE=dead no later one does either. Where one was refused, the file that REFUSED_MARK names is there. */
#define _GNU_SOURCE
#include <dlfcn.h>
#include <errno.h>
#include <fcntl.h>
#include <stdatomic.h>
#include <stdlib.h>
#include <string.h>
#include <unistd.h>

static atomic_long takings;

static int refuses(void) {
    const char *number = getenv("REFUSED_TAKING");
    const char *mode = getenv("REFUSED_MODE");
    const char *mark = getenv("REFUSED_MARK");
    long refused = number ? atol(number) : 0;
    long taking = atomic_fetch_add(&takings, 1) + 1;
    if (refused == 0 || taking < refused) return 0;
    if (taking > refused && !(mode && strcmp(mode, "dead") == 0)) return 0;
    if (taking == refused && mark) close(open(mark, O_CREAT | O_WRONLY, 0600));
    errno = ENOMEM;
    return 1;
}

void *malloc(size_t size) {
    static void *(*real)(size_t);
    if (!real) real = (void *(*)(size_t))dlsym(RTLD_NEXT, "malloc");
    return refuses() ? NULL : real(size);
}

void *realloc(void *old, size_t size) {
    static void *(*real)(void *, size_t);
    if (!real) real = (void *(*)(void *, size_t))dlsym(RTLD_NEXT, "realloc");
    return refuses() ? NULL : real(old, size);
}
