/* The stack that a call takes: it runs on a thread whose stack is painted before, and the lowest place that lost its paint says how much
 * was used. */
#ifndef PAINTED_H
#define PAINTED_H

#include <pthread.h>
#include <stddef.h>
#include <stdint.h>
#include <stdlib.h>
#include <string.h>
#include <sys/mman.h>

enum { PAINTED = 16 << 20, PAINT = 0xA5 };

static inline size_t painted(void *(*call)(void *), void *with) {
    uint8_t *stack = mmap(NULL, PAINTED, PROT_READ | PROT_WRITE, MAP_PRIVATE | MAP_ANONYMOUS, -1, 0);
    pthread_attr_t attr;
    pthread_t thread;
    if (stack == MAP_FAILED || pthread_attr_init(&attr) != 0 || pthread_attr_setstack(&attr, stack, PAINTED) != 0)
        exit(2);
    memset(stack, PAINT, PAINTED);
    if (pthread_create(&thread, &attr, call, with) != 0 || pthread_join(thread, NULL) != 0)
        exit(2);
    size_t low = 0;
    while (low < PAINTED && stack[low] == PAINT)
        low++;
    munmap(stack, PAINTED);
    return PAINTED - low;
}

static inline void *nothing_at_all(void *with) { return with; }

/* The bytes of stack of a call, without what the thread takes for itself. */
static inline size_t stack_of(void *(*call)(void *), void *with) {
    size_t empty = painted(nothing_at_all, NULL);
    return painted(call, with) - empty;
}

#endif
