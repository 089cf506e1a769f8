/*
 * As much of threads as tests/c/stack.c takes, for a board without them: a thread is run at once, to its end, on the stack that was
 * named last. The types are newlib's.
 */
#ifndef PTHREAD_H
#define PTHREAD_H

#include <sys/types.h>

static unsigned char *top_of_stack;

static int pthread_attr_init(pthread_attr_t *attributes) {
    (void)attributes;
    return 0;
}

static int pthread_attr_setstack(pthread_attr_t *attributes, void *stack, size_t size) {
    (void)attributes;
    top_of_stack = (unsigned char *)stack + size;
    return 0;
}

static int pthread_attr_destroy(pthread_attr_t *attributes) {
    (void)attributes;
    return 0;
}

/* Runs a function on the stack with this top, and returns on the caller's. */
__attribute__((naked, noinline)) static void run_on(void *top, void *(*function)(void *), void *argument) {
    (void)top, (void)function, (void)argument;
    __asm__ volatile("push {r4, lr}\n mov r4, sp\n mov sp, r0\n mov r0, r2\n blx r1\n mov sp, r4\n pop {r4, pc}");
}

static int pthread_create(pthread_t *thread, const pthread_attr_t *attributes, void *(*function)(void *), void *argument) {
    (void)attributes;
    *thread = 0;
    run_on(top_of_stack, function, argument);
    return 0;
}

static int pthread_join(pthread_t thread, void **result) {
    (void)thread, (void)result;
    return 0;
}

#endif
