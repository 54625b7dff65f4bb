// SPDX-License-Identifier: Apache-2.0
// A library that is preloaded into a program and makes its standard streams fail in the middle. It fails the read of
// standard input whose number FAIL_READ gives, and the write to standard output whose number FAIL_WRITE gives; both count
// from 1. The file that FAIL_MARK names then holds a byte. With SHORT_READ and SHORT_WRITE a read or a write takes at most
// so many bytes.

#define _GNU_SOURCE
#include "preloaded.h"
#include <errno.h>

// The bytes that one call may take: no more than the variable says, if it is set.
static size_t at_most(size_t size, const char *name) {
    long most = number(name);
    return most > 0 && (size_t)most < size ? (size_t)most : size;
}

ssize_t read(int file, void *bytes, size_t size) {
    static long reads = 0;
    if (file != 0) return syscall(SYS_read, file, bytes, size);
    if (++reads == number("FAIL_READ")) {
        leave_mark();
        errno = EIO;
        return -1;
    }
    return syscall(SYS_read, file, bytes, at_most(size, "SHORT_READ"));
}

ssize_t write(int file, const void *bytes, size_t size) {
    static long writes = 0;
    if (file != 1) return syscall(SYS_write, file, bytes, size);
    if (++writes == number("FAIL_WRITE")) {
        leave_mark();
        errno = EIO;
        return -1;
    }
    return syscall(SYS_write, file, bytes, at_most(size, "SHORT_WRITE"));
}
