/* Notes calls of a program in the file that NOTED names, each by a line, in their order: `write FILE` and `sync FILE` of the files whose names
   contain NOTED_NAME, each by the end of its name after the last "/"; `link FILE` as a file gets this second name; and `reply` where something
   is written to standard output or sent on a connection. A call is noted once it has succeeded. It is put before a program by LD_PRELOAD. */
#define _GNU_SOURCE
#include <dlfcn.h>
#include <fcntl.h>
#include <limits.h>
#include <stdio.h>
#include <stdlib.h>
#include <string.h>
#include <sys/socket.h>
#include <sys/types.h>
#include <unistd.h>

#define NEXT(name) ((typeof(&name))dlsym(RTLD_NEXT, #name))

static void note(const char *word, const char *file) {
    const char *noted = getenv("NOTED"), *slash = file ? strrchr(file, '/') : NULL;
    char line[PATH_MAX + 16];
    int end = file ? snprintf(line, sizeof line, "%s %s\n", word, slash ? slash + 1 : file) : snprintf(line, sizeof line, "%s\n", word);
    int to = noted ? NEXT(open)(noted, O_CREAT | O_WRONLY | O_APPEND, 0600) : -1;
    if (to < 0 || NEXT(write)(to, line, end) != end) {
        abort();
    }
    close(to);
}

/* Notes a call of an open file, where its name is such a one. */
static void note_open(const char *word, int file) {
    char link[64], name[PATH_MAX];
    const char *part = getenv("NOTED_NAME");
    snprintf(link, sizeof link, "/proc/self/fd/%d", file);
    ssize_t size = readlink(link, name, sizeof name - 1);
    if (size >= 0 && part) {
        name[size] = 0;
        if (strstr(name, part)) {
            note(word, name);
        }
    }
}

ssize_t pwrite(int file, const void *bytes, size_t size, off_t at) {
    ssize_t done = NEXT(pwrite)(file, bytes, size, at);
    if (done > 0) {
        note_open("write", file);
    }
    return done;
}

ssize_t write(int file, const void *bytes, size_t size) {
    ssize_t done = NEXT(write)(file, bytes, size);
    if (done > 0 && file == 1) {
        note("reply", NULL);
    } else if (done > 0) {
        note_open("write", file);
    }
    return done;
}

ssize_t send(int file, const void *bytes, size_t size, int flags) {
    ssize_t done = NEXT(send)(file, bytes, size, flags);
    if (done > 0) {
        note("reply", NULL);
    }
    return done;
}

int fsync(int file) {
    int failed = NEXT(fsync)(file);
    if (!failed) {
        note_open("sync", file);
    }
    return failed;
}

int fdatasync(int file) {
    int failed = NEXT(fdatasync)(file);
    if (!failed) {
        note_open("sync", file);
    }
    return failed;
}

int link(const char *from, const char *to) {
    int failed = NEXT(link)(from, to);
    if (!failed) {
        note("link", to);
    }
    return failed;
}
