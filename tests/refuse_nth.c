// SPDX-License-Identifier: Apache-2.0
// A library that is preloaded into a program and refuses one allocation of its memory: the one whose number FAIL_ALLOC
// gives. It counts all calls of malloc, calloc and realloc, from 1. It refuses the one whose number FAIL_ALSO gives too, and
// all later ones if FAIL_REST is set. The file that FAIL_MARK names then holds a byte for each. If FAIL_CALL is set, it
// counts, and refuses, only from the time that the program writes the line `called` on standard error. It stops when the
// program writes the next line there.

#define _GNU_SOURCE
#include "preloaded.h"
#include <string.h>

void *__libc_malloc(size_t size);
void *__libc_calloc(size_t count, size_t size);
void *__libc_realloc(void *old, size_t size);

// Whether the program has written `called`, and no line since.
static int is_called = 0;

ssize_t write(int file, const void *bytes, size_t size) {
    ssize_t written = syscall(SYS_write, file, bytes, size);
    if (file == 2) is_called = size == 7 && !memcmp(bytes, "called\n", 7);
    return written;
}

// Whether this allocation is one to refuse.
static int refuse(void) {
    static long place = 0;
    long first = number("FAIL_ALLOC");
    if (first == 0 || (getenv("FAIL_CALL") && !is_called)) return 0;
    place++;
    if (place != first && place != number("FAIL_ALSO") && (place < first || !getenv("FAIL_REST"))) return 0;
    leave_mark();
    return 1;
}

void *malloc(size_t size) { return refuse() ? 0 : __libc_malloc(size); }
void *calloc(size_t count, size_t size) { return refuse() ? 0 : __libc_calloc(count, size); }
void *realloc(void *old, size_t size) { return refuse() ? 0 : __libc_realloc(old, size); }
