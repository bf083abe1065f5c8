/* Stops a program's file: of the reads, writes, cuts and syncs of the files whose names end in STOPPED, where that is given, so many as
   STOP_AFTER says go well, and each later one fails, by the error that STOP_ERROR numbers, or as a failing disk. A sync of a file of a desk
   copies what stands in it to the file of its name and ".synced" behind it; the system isn't asked for one, so that it costs no time of a
   disk. It is put before a program by LD_PRELOAD. */
#define _GNU_SOURCE
#include <dlfcn.h>
#include <errno.h>
#include <fcntl.h>
#include <limits.h>
#include <stdio.h>
#include <stdlib.h>
#include <string.h>
#include <sys/sendfile.h>
#include <sys/stat.h>
#include <sys/types.h>
#include <unistd.h>

#define NEXT(name) ((typeof(&name))dlsym(RTLD_NEXT, #name))

static long passed = 0;

/* Whether the name of an open file ends so; the name is left there. */
static int ends_in(int file, const char *end, char *name) {
    char link[64];
    snprintf(link, sizeof link, "/proc/self/fd/%d", file);
    ssize_t size = readlink(link, name, PATH_MAX - 1);
    if (size < 0 || !end) {
        return 0;
    }
    name[size] = 0;
    size_t length = strlen(end);
    return (size_t)size >= length && strcmp(name + size - length, end) == 0;
}

/* Whether this call of a file goes well. */
static int passes(int file) {
    char name[PATH_MAX];
    if (!ends_in(file, getenv("STOPPED"), name)) {
        return 1;
    }
    if (passed < atol(getenv("STOP_AFTER"))) {
        passed++;
        return 1;
    }
    const char *error = getenv("STOP_ERROR");
    errno = error ? atoi(error) : EIO;
    return 0;
}

/* Copies what stands in a file of a desk, which was synced; of one that is made, under the name that it gets next. */
static void keep_synced(int file) {
    char name[PATH_MAX + 8];
    if (ends_in(file, ".db-new", name)) {
        name[strlen(name) - strlen("-new")] = 0;
    } else if (!ends_in(file, ".db", name) && !ends_in(file, "-wal", name)) {
        return;
    }
    strcat(name, ".synced");
    int copy = open(name, O_CREAT | O_WRONLY | O_TRUNC, 0600);
    struct stat found;
    if (copy < 0 || fstat(file, &found)) {
        abort();
    }
    for (off_t at = 0; at < found.st_size;) {
        if (sendfile(copy, file, &at, found.st_size - at) <= 0) {
            abort();
        }
    }
    close(copy);
}

static int sync_of(int file) {
    if (!passes(file)) {
        return -1;
    }
    keep_synced(file);
    return 0;
}

ssize_t pread(int file, void *bytes, size_t size, off_t at) {
    return passes(file) ? NEXT(pread)(file, bytes, size, at) : -1;
}

ssize_t pwrite(int file, const void *bytes, size_t size, off_t at) {
    return passes(file) ? NEXT(pwrite)(file, bytes, size, at) : -1;
}

ssize_t write(int file, const void *bytes, size_t size) {
    return passes(file) ? NEXT(write)(file, bytes, size) : -1;
}

int ftruncate(int file, off_t length) {
    return passes(file) ? NEXT(ftruncate)(file, length) : -1;
}

int fsync(int file) {
    return sync_of(file);
}

int fdatasync(int file) {
    return sync_of(file);
}
