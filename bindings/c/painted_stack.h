// SPDX-License-Identifier: Apache-2.0
// How much stack a call takes, on a thread whose stack is painted before, and of which nobody may touch the lowest page. A call that
// needs more ends the process.
#include <pthread.h>
#include <stdint.h>
#include <stdlib.h>
#include <string.h>
#include <sys/mman.h>
#include <unistd.h>

#define PAINT 0xA5

static inline size_t lowest_page(void) { return (size_t)sysconf(_SC_PAGESIZE); }

static inline uint8_t *new_stack(size_t size) {
    uint8_t *stack = mmap(NULL, size, PROT_READ | PROT_WRITE, MAP_PRIVATE | MAP_ANONYMOUS, -1, 0);
    if (stack == MAP_FAILED || mprotect(stack, lowest_page(), PROT_NONE)) exit(2);
    return stack;
}

static inline void *nothing(void *unused) { return unused; }

// How many bytes of the stack a thread that runs this changes.
static inline size_t changed(uint8_t *stack, size_t size, void *(*start)(void *), void *of) {
    pthread_attr_t attributes;
    pthread_t thread;
    size_t low = lowest_page();
    memset(stack + low, PAINT, size - low);
    if (pthread_attr_init(&attributes) || pthread_attr_setstack(&attributes, stack, size)) exit(2);
    if (pthread_create(&thread, &attributes, start, of)) exit(2);
    pthread_join(thread, NULL);
    pthread_attr_destroy(&attributes);
    while (low < size && stack[low] == PAINT) low++;
    return size - low;
}

// The same, past an empty thread.
static inline size_t taken(uint8_t *stack, size_t size, void *(*start)(void *), void *of) {
    static size_t none;
    if (!none) none = changed(stack, size, nothing, NULL);
    return changed(stack, size, start, of) - none;
}
