/* Refuses one allocation of a program: the one whose number is in the variable REFUSED, counted from 1.
   Build: cc -shared -fPIC -o refuse_memory.so refuse_memory.c -ldl; use: LD_PRELOAD=./refuse_memory.so REFUSED=7 PROGRAM */
#define _GNU_SOURCE
#include <dlfcn.h>
#include <errno.h>
#include <stdlib.h>

static long left = -1;

static int is_refused(void) {
    if (left < 0) {
        const char *word = getenv("REFUSED");
        left = word ? atol(word) : 0;
    }
    return left > 0 && --left == 0;
}

void *malloc(size_t size) {
    static void *(*next)(size_t);
    if (!next) next = (void *(*)(size_t))dlsym(RTLD_NEXT, "malloc");
    if (!is_refused()) return next(size);
    errno = ENOMEM;
    return 0;
}

void *realloc(void *old, size_t size) {
    static void *(*next)(void *, size_t);
    if (!next) next = (void *(*)(void *, size_t))dlsym(RTLD_NEXT, "realloc");
    if (!is_refused()) return next(old, size);
    errno = ENOMEM;
    return 0;
}
