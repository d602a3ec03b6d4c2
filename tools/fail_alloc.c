/* Laid under a program by LD_PRELOAD, it refuses the allocation of the number in FAIL_ALLOC, or the start of the thread of
   the number in FAIL_THREAD, both counted from 1, and says on standard error at the end, in a line of its own, how many
   allocations there were, and in another one how many starts of threads, if there were any. Used by
   tools/refused-allocations and tools/refused-in-threads. */
#define _GNU_SOURCE
#include <dlfcn.h>
#include <errno.h>
#include <pthread.h>
#include <stdio.h>
#include <stdlib.h>

static unsigned long count;
static unsigned long starts;

static unsigned long number_in(const char *name) {
    const char *text = getenv(name);
    return text ? strtoul(text, NULL, 10) : 0;
}

static int is_refused(void) {
    return __sync_add_and_fetch(&count, 1) == number_in("FAIL_ALLOC");
}

void *malloc(size_t size) {
    static void *(*real)(size_t);
    if (!real) real = dlsym(RTLD_NEXT, "malloc");
    return is_refused() ? NULL : real(size);
}

void *realloc(void *old, size_t size) {
    static void *(*real)(void *, size_t);
    if (!real) real = dlsym(RTLD_NEXT, "realloc");
    return is_refused() ? NULL : real(old, size);
}

int pthread_create(pthread_t *thread, const pthread_attr_t *attributes, void *(*start)(void *), void *argument) {
    static int (*real)(pthread_t *, const pthread_attr_t *, void *(*)(void *), void *);
    if (!real) real = dlsym(RTLD_NEXT, "pthread_create");
    if (__sync_add_and_fetch(&starts, 1) == number_in("FAIL_THREAD")) return EAGAIN;
    return real(thread, attributes, start, argument);
}

static void say(void) {
    fprintf(stderr, "allocations: %lu\n", count);
    if (starts > 0) fprintf(stderr, "threads: %lu\n", starts);
}

/* A program may end without what is called at an ordinary end. */
void _exit(int status) {
    void (*real)(int) = (void (*)(int))dlsym(RTLD_NEXT, "_exit");
    say();
    real(status);
    abort();
}

__attribute__((destructor)) static void end(void) {
    say();
}
