// To be preloaded into a program: refuses the memory request whose number, counted from 1, is in
// the environment variable REFUSE, and as many requests after it as MORE says. It writes a line to
// standard error for each, with the number of requested bytes if SIZES is set.
#define _GNU_SOURCE
#include <dlfcn.h>
#include <errno.h>
#include <stdio.h>
#include <stdlib.h>
#include <unistd.h>

static int is_refused(size_t size) {
    static long number = 0;
    const char *first = getenv("REFUSE");
    const char *more = getenv("MORE");
    if (first == NULL) {
        return 0;
    }
    long past = ++number - atol(first);
    if (past < 0 || past > (more == NULL ? 0 : atol(more))) {
        return 0;
    }
    char line[40];
    int length = snprintf(line, sizeof line, getenv("SIZES") == NULL ? "refused\n" : "refused %zu\n", size);
    if (write(2, line, length) != length) {
        _exit(99);
    }
    errno = ENOMEM;
    return 1;
}

void *malloc(size_t size) {
    void *(*next)(size_t) = (void *(*)(size_t))dlsym(RTLD_NEXT, "malloc");
    return is_refused(size) ? NULL : next(size);
}

void *calloc(size_t count, size_t size) {
    void *(*next)(size_t, size_t) = (void *(*)(size_t, size_t))dlsym(RTLD_NEXT, "calloc");
    return is_refused(count * size) ? NULL : next(count, size);
}

void *realloc(void *old, size_t size) {
    void *(*next)(void *, size_t) = (void *(*)(void *, size_t))dlsym(RTLD_NEXT, "realloc");
    return is_refused(size) ? NULL : next(old, size);
}
