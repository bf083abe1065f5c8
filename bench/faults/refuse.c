/* Refuses the allocation whose number, counting from 1, stands in REFUSE, and then makes the file that REFUSED names.
   It is put before a program by LD_PRELOAD. */
#define _GNU_SOURCE
#include <dlfcn.h>
#include <errno.h>
#include <fcntl.h>
#include <stdlib.h>
#include <unistd.h>

static long refused = -1;
static long count = 0;

static int is_refused(void) {
    if (refused < 0) {
        const char *number = getenv("REFUSE");
        refused = number ? atol(number) : 0;
    }
    if (++count != refused) {
        return 0;
    }
    const char *name = getenv("REFUSED");
    if (name) {
        close(open(name, O_CREAT | O_WRONLY, 0600));
    }
    errno = ENOMEM;
    return 1;
}

void *malloc(size_t size) {
    static void *(*next)(size_t);
    if (!next) {
        next = dlsym(RTLD_NEXT, "malloc");
    }
    return is_refused() ? NULL : next(size);
}

void *realloc(void *room, size_t size) {
    static void *(*next)(void *, size_t);
    if (!next) {
        next = dlsym(RTLD_NEXT, "realloc");
    }
    return is_refused() ? NULL : next(room, size);
}
