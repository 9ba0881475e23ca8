/* Has reads or writes of a program fail, or take few bytes.
   A word as r7 says that the 7th read of a stream and all after it fail, w7 that the 7th write and all after it do, and
   e7 that they take nothing. With a capital letter that one call alone fails. FAILING is such a word for standard input
   and output, FAILING_CONNECTIONS has one for each connection that is accepted, in their order. A read of such a stream
   gives MOST_READ bytes at most, and a write takes MOST_WRITTEN. Connections whose word is -, or that have none, are left
   as they are, and so are other descriptors.
   Build: cc -shared -fPIC -o fail_streams.so fail_streams.c -ldl
   Use: LD_PRELOAD=./fail_streams.so FAILING=r7 PROGRAM */
#define _GNU_SOURCE
#include <ctype.h>
#include <dlfcn.h>
#include <errno.h>
#include <limits.h>
#include <stdlib.h>
#include <string.h>
#include <sys/socket.h>
#include <sys/types.h>

enum { DESCRIPTORS = 1024 };

static struct {
    /* One of r, w, e and their capitals, or 0 where the stream is left as it is. */
    char kind;
    long number;
} streams[DESCRIPTORS];

static const char *words = "";
static size_t most_read = -1, most_written = -1;

/* Gives a stream the next word. */
static void watch(int stream, const char **next) {
    if (stream < 0 || stream >= DESCRIPTORS) abort();
    *next += strspn(*next, " ");
    streams[stream].kind = **next == '-' ? 0 : **next;
    streams[stream].number = **next ? atol(*next + 1) : 0;
    *next += strcspn(*next, " ");
}

__attribute__((constructor)) static void begin(void) {
    const char *word = getenv("FAILING"), *list = getenv("FAILING_CONNECTIONS");
    const char *read = getenv("MOST_READ"), *written = getenv("MOST_WRITTEN");
    for (int stream = 0; word && stream < 2; stream++) {
        const char *next = word;
        watch(stream, &next);
    }
    if (list) words = list;
    if (read) most_read = atol(read);
    if (written) most_written = atol(written);
}

static int is_meant(int stream) {
    return stream >= 0 && stream < DESCRIPTORS && streams[stream].kind;
}

/* Whether this read or write is one that fails, or takes nothing. */
static int is_reached(int stream, const char *kinds) {
    if (!is_meant(stream) || !strchr(kinds, tolower(streams[stream].kind))) return 0;
    if (streams[stream].number > 1) {
        streams[stream].number--;
        return 0;
    }
    if (isupper(streams[stream].kind)) streams[stream].number = LONG_MAX;
    return 1;
}

static size_t least(size_t size, size_t most) {
    return size < most ? size : most;
}

int accept4(int listener, struct sockaddr *address, socklen_t *length, int flags) {
    static int (*next)(int, struct sockaddr *, socklen_t *, int);
    if (!next) next = (int (*)(int, struct sockaddr *, socklen_t *, int))dlsym(RTLD_NEXT, "accept4");
    int stream = next(listener, address, length, flags);
    if (stream >= 0) watch(stream, &words);
    return stream;
}

#define READS(name, parameters, arguments)                              \
    ssize_t name parameters {                                           \
        static ssize_t(*next) parameters;                               \
        if (!next) next = (ssize_t(*) parameters)dlsym(RTLD_NEXT, #name); \
        if (is_reached(stream, "r")) {                                  \
            errno = EIO;                                                \
            return -1;                                                  \
        }                                                               \
        if (is_meant(stream)) size = least(size, most_read);            \
        return next arguments;                                          \
    }

#define WRITES(name, parameters, arguments)                             \
    ssize_t name parameters {                                           \
        static ssize_t(*next) parameters;                               \
        if (!next) next = (ssize_t(*) parameters)dlsym(RTLD_NEXT, #name); \
        if (is_reached(stream, "we")) {                                 \
            if (tolower(streams[stream].kind) == 'e') return 0;                  \
            errno = EIO;                                                \
            return -1;                                                  \
        }                                                               \
        if (is_meant(stream)) size = least(size, most_written);         \
        return next arguments;                                          \
    }

READS(read, (int stream, void *room, size_t size), (stream, room, size))
READS(recv, (int stream, void *room, size_t size, int flags), (stream, room, size, flags))
WRITES(write, (int stream, const void *bytes, size_t size), (stream, bytes, size))
WRITES(__write, (int stream, const void *bytes, size_t size), (stream, bytes, size))
WRITES(send, (int stream, const void *bytes, size_t size, int flags), (stream, bytes, size, flags))
