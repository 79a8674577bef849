// Preloaded into a program: each of its first three threads ends before the next begins, or has 20 milliseconds. So `malloc` makes only one
// arena for them, as on a busy machine. ./dev scarce builds and uses it.
#define _GNU_SOURCE
#include <dlfcn.h>
#include <pthread.h>
#include <stdatomic.h>
#include <stdlib.h>
#include <time.h>

typedef int create_fn(pthread_t *, const pthread_attr_t *, void *(*)(void *), void *);

struct work {
    void *(*start)(void *);
    void *given;
    atomic_int *ended;
};

enum { FIRST = 3, LOOKS = 20 };

static atomic_int ended[FIRST];
static atomic_int begun;

static void *run(void *given) {
    struct work work = *(struct work *)given;
    free(given);
    void *result = work.start(work.given);
    atomic_store(work.ended, 1);
    return result;
}

static void wait_for(atomic_int *flag) {
    const struct timespec millisecond = {0, 1000000};
    for (int look = 0; look < LOOKS && !atomic_load(flag); look++)
        nanosleep(&millisecond, NULL);
}

int pthread_create(pthread_t *thread, const pthread_attr_t *attributes, void *(*start)(void *), void *given) {
    create_fn *create = (create_fn *)dlsym(RTLD_NEXT, "pthread_create");
    int number = atomic_fetch_add(&begun, 1);
    struct work *work = number < FIRST ? malloc(sizeof *work) : NULL;
    if (!work)
        return create(thread, attributes, start, given);
    *work = (struct work){start, given, &ended[number]};
    int status = create(thread, attributes, run, work);
    if (status)
        free(work);
    else
        wait_for(&ended[number]);
    return status;
}
