/* Refuses one request of a program: the one whose number, from 1, is in REFUSE. Requests are those for memory, or, where KIND is
   `thread`, those for threads. If REPORT names a file, it gets the number of requests, written anew at each, since a
   program with threads may end without its destructors. Built and loaded by ./dev refused. */
#define _GNU_SOURCE
#include <dlfcn.h>
#include <errno.h>
#include <fcntl.h>
#include <pthread.h>
#include <stdatomic.h>
#include <stdio.h>
#include <stdlib.h>
#include <string.h>
#include <unistd.h>

static atomic_ulong requests;
static unsigned long refused;
static int of_threads;
static int report = -1;

__attribute__((constructor)) static void begin(void) {
    const char *number = getenv("REFUSE");
    const char *path = getenv("REPORT");
    const char *kind = getenv("KIND");
    of_threads = kind && strcmp(kind, "thread") == 0;
    refused = number ? strtoul(number, NULL, 10) : 0;
    report = path ? open(path, O_WRONLY | O_CREAT | O_TRUNC | O_CLOEXEC, 0644) : -1;
    atomic_store(&requests, 0);
}

/* The numbers are written with leading zeros, so that a shorter one never covers a longer one in part. */
static int is_refused(int is_thread) {
    if (is_thread != of_threads)
        return 0;
    unsigned long number = atomic_fetch_add(&requests, 1) + 1;
    char line[24];
    int length = snprintf(line, sizeof line, "%010lu\n", number);
    if (report >= 0 && pwrite(report, line, (size_t)length, 0) != length)
        abort();
    return number == refused;
}

/* Sets `real` to the C library's function of this name. */
#define REAL(name) \
    static __typeof__(&name) real; \
    if (!real) \
        real = (__typeof__(&name))dlsym(RTLD_NEXT, #name)

void *malloc(size_t size) {
    REAL(malloc);
    return is_refused(0) ? NULL : real(size);
}

void *realloc(void *old, size_t size) {
    REAL(realloc);
    return is_refused(0) ? NULL : real(old, size);
}

void *aligned_alloc(size_t alignment, size_t size) {
    REAL(aligned_alloc);
    return is_refused(0) ? NULL : real(alignment, size);
}

int posix_memalign(void **out, size_t alignment, size_t size) {
    REAL(posix_memalign);
    return is_refused(0) ? 12 : real(out, alignment, size);
}

int pthread_create(pthread_t *thread, const pthread_attr_t *attributes, void *(*run)(void *), void *argument) {
    REAL(pthread_create);
    return is_refused(1) ? EAGAIN : real(thread, attributes, run, argument);
}
