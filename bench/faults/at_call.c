/* Meets a program at one call about its files: of the calls that open, look at, link or remove a file whose name contains AT_NAME, and of
   those that read, write, lock, look at or sync an open file whose name ends in AT_OPEN, the one whose number, counting from 1, stands in
   AT_CALL. It fails by the error AT_ERROR, where that is given; else the program sends itself the signal AT_SIGNAL before it. Then the file
   is made that AT_MET names. It is put before a program by LD_PRELOAD. */
#define _GNU_SOURCE
#include <dlfcn.h>
#include <errno.h>
#include <fcntl.h>
#include <limits.h>
#include <signal.h>
#include <stdarg.h>
#include <stdio.h>
#include <stdlib.h>
#include <string.h>
#include <sys/stat.h>
#include <sys/types.h>
#include <unistd.h>

#define NEXT(name) ((typeof(&name))dlsym(RTLD_NEXT, #name))

static long calls = 0;

/* Whether this call, which is one more of those that count, goes on. */
static int goes_on(void) {
    const char *number = getenv("AT_CALL"), *met = getenv("AT_MET"), *error = getenv("AT_ERROR");
    if (!number || ++calls != atol(number)) {
        return 1;
    }
    if (met) {
        close(NEXT(open)(met, O_CREAT | O_WRONLY, 0600));
    }
    if (error) {
        errno = atoi(error);
        return 0;
    }
    raise(atoi(getenv("AT_SIGNAL")));
    return 1;
}

static int passes_name(const char *name) {
    const char *part = getenv("AT_NAME");
    return !part || !strstr(name, part) || goes_on();
}

static int passes_open(int file) {
    char link[64], name[PATH_MAX];
    const char *end = getenv("AT_OPEN");
    snprintf(link, sizeof link, "/proc/self/fd/%d", file);
    ssize_t size = readlink(link, name, sizeof name - 1);
    if (size < 0 || !end || (size_t)size < strlen(end)) {
        return 1;
    }
    name[size] = 0;
    return strcmp(name + size - strlen(end), end) != 0 || goes_on();
}

int open(const char *name, int flags, ...) {
    va_list rest;
    va_start(rest, flags);
    mode_t mode = va_arg(rest, mode_t);
    va_end(rest);
    return passes_name(name) ? NEXT(open)(name, flags, mode) : -1;
}

int statx(int folder, const char *name, int flags, unsigned mask, struct statx *found) {
    int passes = *name ? passes_name(name) : passes_open(folder);
    return passes ? NEXT(statx)(folder, name, flags, mask, found) : -1;
}

int link(const char *from, const char *to) {
    return passes_name(from) ? NEXT(link)(from, to) : -1;
}

int unlink(const char *name) {
    return passes_name(name) ? NEXT(unlink)(name) : -1;
}

int fcntl(int file, int command, ...) {
    va_list rest;
    va_start(rest, command);
    void *given = va_arg(rest, void *);
    va_end(rest);
    return passes_open(file) ? NEXT(fcntl)(file, command, given) : -1;
}

ssize_t pread(int file, void *bytes, size_t size, off_t at) {
    return passes_open(file) ? NEXT(pread)(file, bytes, size, at) : -1;
}

ssize_t pwrite(int file, const void *bytes, size_t size, off_t at) {
    return passes_open(file) ? NEXT(pwrite)(file, bytes, size, at) : -1;
}

int fsync(int file) {
    return passes_open(file) ? NEXT(fsync)(file) : -1;
}
