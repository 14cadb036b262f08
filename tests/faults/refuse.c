// A library to preload into a program. It refuses the memory growth number REFUSE_GROWTH, or each
// start of a thread from number REFUSE_START on, and prints 'refused' on standard error, for a
// growth with the place in the program that requested it. With IN_ORDER each thread ends before the
// one that started it goes on, so that growths have the same numbers in each run. With TELL_STARTS it
// prints 'start' at each start of a thread, with the number of the last growth before it.
#define _GNU_SOURCE
#include <dlfcn.h>
#include <errno.h>
#include <pthread.h>
#include <semaphore.h>
#include <stdatomic.h>
#include <stdio.h>
#include <stdlib.h>
#include <unistd.h>

extern void *__libc_malloc(size_t size);
extern void *__libc_realloc(void *block, size_t size);

// The numbers of growths and starts so far.
static atomic_long growths, starts;

// The number of the last growth that this thread requested.
static _Thread_local long last_growth;

static long number(const char *name) {
    const char *value = getenv(name);
    return value ? atol(value) : 0;
}

// Returns whether a growth that `asker` requested is refused, and prints its place in the program then.
static int growth_is_refused(void *asker) {
    Dl_info object;
    char line[64];
    last_growth = atomic_fetch_add(&growths, 1) + 1;
    if (last_growth != number("REFUSE_GROWTH")) return 0;
    char *base = dladdr(asker, &object) ? object.dli_fbase : NULL;
    write(2, line, snprintf(line, sizeof line, "refused 0x%tx\n", (char *)asker - base));
    return 1;
}

void *malloc(size_t size) {
    return growth_is_refused(__builtin_return_address(0)) ? NULL : __libc_malloc(size);
}

void *realloc(void *block, size_t size) {
    return growth_is_refused(__builtin_return_address(0)) ? NULL : __libc_realloc(block, size);
}

// What a thread does that another waits for.
struct awaited {
    void *(*body)(void *);
    void *arg;
    sem_t ended;
};

static void *run_awaited(void *given) {
    struct awaited *awaited = given;
    void *result = awaited->body(awaited->arg);
    sem_post(&awaited->ended);
    return result;
}

int pthread_create(pthread_t *thread, const pthread_attr_t *attr, void *(*body)(void *), void *arg) {
    char line[64];
    if (getenv("TELL_STARTS")) write(2, line, snprintf(line, sizeof line, "start %ld\n", last_growth));
    long first = number("REFUSE_START");
    if (first && first <= atomic_fetch_add(&starts, 1) + 1) {
        write(2, "refused\n", 8);
        return EAGAIN;
    }
    int (*create)(pthread_t *, const pthread_attr_t *, void *(*)(void *), void *) = dlsym(RTLD_NEXT, "pthread_create");
    if (!getenv("IN_ORDER")) return create(thread, attr, body, arg);
    struct awaited awaited = {body, arg};
    sem_init(&awaited.ended, 0, 0);
    int error = create(thread, attr, run_awaited, &awaited);
    while (!error && sem_wait(&awaited.ended)) {
    }
    return error;
}
