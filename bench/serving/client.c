/* A client in measurements of servers: sends requests to a port of 127.0.0.1, each on a connection of its own, and reads each
 * answer up to its end. So many processes share them, each of which sends its next request once the one before it was
 * answered. Requests come on standard input, each behind a line with its number of bytes. Once all were answered it prints
 * how many seconds that took; it fails where an answer lacks the wanted text. serving.py builds it and runs it.
 *
 *     gcc -O2 -o client bench/serving/client.c
 *     client PORT WANTED PROCESSES
 */
#define _GNU_SOURCE
#include <arpa/inet.h>
#include <stdio.h>
#include <stdlib.h>
#include <string.h>
#include <sys/socket.h>
#include <sys/wait.h>
#include <time.h>
#include <unistd.h>

enum { ROOM = 1 << 20 };

struct Request { char *bytes; size_t length; struct Request *next; };

static void fail(const char *what) {
    perror(what);
    exit(1);
}

/* Reads the next request, or returns NULL at the end of the input. */
static struct Request *read_request(void) {
    size_t length;
    if (scanf("%zu", &length) != 1 || getchar() != '\n') return NULL;
    struct Request *it = malloc(sizeof *it);
    if (!it || !(it->bytes = malloc(length))) fail("memory");
    if (fread(it->bytes, 1, length, stdin) != length) fail("a request that ends early");
    it->length = length;
    it->next = NULL;
    return it;
}

/* Sends a request on a connection of its own, and returns how many bytes its answer has. */
static size_t answer(const struct sockaddr_in *to, const struct Request *request, char *text) {
    int stream = socket(AF_INET, SOCK_STREAM, 0);
    if (stream < 0 || connect(stream, (const struct sockaddr *)to, sizeof *to)) fail("connect");
    for (size_t sent = 0; sent < request->length;) {
        ssize_t more = send(stream, request->bytes + sent, request->length - sent, MSG_NOSIGNAL);
        if (more < 0) fail("send");
        sent += (size_t)more;
    }
    size_t had = 0;
    for (ssize_t more; (more = recv(stream, text + had, ROOM - had, 0)) != 0; had += (size_t)more)
        if (more < 0) fail("recv");
    close(stream);
    return had;
}

static double seconds(void) {
    struct timespec it;
    clock_gettime(CLOCK_MONOTONIC, &it);
    return (double)it.tv_sec + (double)it.tv_nsec / 1e9;
}

/* Sends each request of a share, which begins at the first and takes each so-manieth, and ends the process. */
static void send_share(const struct sockaddr_in *to, const struct Request *first, int shares, const char *wanted) {
    static char text[ROOM];
    for (const struct Request *it = first; it;) {
        size_t had = answer(to, it, text);
        if (!memmem(text, had, wanted, strlen(wanted))) {
            fprintf(stderr, "%.*s was answered %.*s\n", (int)it->length, it->bytes, (int)had, text);
            exit(1);
        }
        for (int at = 0; it && at < shares; at++) it = it->next;
    }
    exit(0);
}

int main(int count, char **words) {
    int shares = count == 4 ? atoi(words[3]) : 0;
    if (shares < 1) {
        fputs("usage: client PORT WANTED PROCESSES\n", stderr);
        return 2;
    }
    struct sockaddr_in to = {.sin_family = AF_INET, .sin_port = htons((unsigned short)atoi(words[1]))};
    to.sin_addr.s_addr = htonl(INADDR_LOOPBACK);
    struct Request *first = NULL;
    for (struct Request **last = &first, *it; (it = read_request()) != NULL; last = &it->next) *last = it;
    double start = seconds();
    for (int at = 0; at < shares && first; at++, first = first->next) {
        pid_t child = fork();
        if (child < 0) fail("fork");
        if (child == 0) send_share(&to, first, shares, words[2]);
    }
    for (int status; wait(&status) > 0;)
        if (status != 0) return 1;
    printf("%.6f\n", seconds() - start);
    return 0;
}
