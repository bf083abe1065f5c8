/* Narrows the streams of a program: its standard input and output, and its connections. A read gives READ_MOST bytes at most, and a write takes
   WRITE_MOST; where READS or WRITES is given, so many go well, and each later one fails, by the error that READ_ERROR or WRITE_ERROR numbers,
   or as a failing device; a WRITE_ERROR of 0 takes nothing. A read of a connection that finds nothing yet isn't counted. So many connections come as
   ACCEPTS says, where that is given, and then none can be had. It is put before a program by LD_PRELOAD. */
#define _GNU_SOURCE
#include <dlfcn.h>
#include <errno.h>
#include <stdlib.h>
#include <sys/socket.h>
#include <unistd.h>

#define NEXT(name) ((typeof(&name))dlsym(RTLD_NEXT, #name))

/* The number that stands in the environment under this name, or else this one. */
static long number_of(const char *name, long otherwise) {
    const char *text = getenv(name);
    return text ? atol(text) : otherwise;
}

static size_t at_most(const char *name, size_t size) {
    size_t most = number_of(name, size);
    return most < size ? most : size;
}

/* Whether one more call goes well, of as many as stand under this name. */
static int passes(const char *name, long *passed) {
    return getenv(name) ? (*passed)++ < number_of(name, 0) : 1;
}

static long reads, writes, accepts;

static int reads_on(void) {
    if (passes("READS", &reads)) {
        return 1;
    }
    errno = number_of("READ_ERROR", EIO);
    return 0;
}

/* Whether a write goes on; what it comes to where it doesn't. */
static int writes_on(ssize_t *told) {
    if (passes("WRITES", &writes)) {
        return 1;
    }
    errno = number_of("WRITE_ERROR", EIO);
    *told = errno ? -1 : 0;
    return 0;
}

ssize_t read(int file, void *bytes, size_t size) {
    if (file != STDIN_FILENO) {
        return NEXT(read)(file, bytes, size);
    }
    return reads_on() ? NEXT(read)(file, bytes, at_most("READ_MOST", size)) : -1;
}

ssize_t recv(int file, void *bytes, size_t size, int flags) {
    ssize_t told = reads_on() ? NEXT(recv)(file, bytes, at_most("READ_MOST", size), flags) : -1;
    if (told < 0 && (errno == EAGAIN || errno == EWOULDBLOCK)) {
        reads--;
    }
    return told;
}

ssize_t write(int file, const void *bytes, size_t size) {
    ssize_t told;
    if (file != STDOUT_FILENO) {
        return NEXT(write)(file, bytes, size);
    }
    return writes_on(&told) ? NEXT(write)(file, bytes, at_most("WRITE_MOST", size)) : told;
}

ssize_t send(int file, const void *bytes, size_t size, int flags) {
    ssize_t told;
    return writes_on(&told) ? NEXT(send)(file, bytes, at_most("WRITE_MOST", size), flags) : told;
}

int accept4(int file, struct sockaddr *address, socklen_t *length, int flags) {
    if (!passes("ACCEPTS", &accepts)) {
        errno = EMFILE;
        return -1;
    }
    return NEXT(accept4)(file, address, length, flags);
}
