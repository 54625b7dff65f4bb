// SPDX-License-Identifier: Apache-2.0
// A library that is preloaded into a program and makes one of its calls fail that work on files: the one whose number FAIL_FILE
// gives, counted from 1. Counted are opens, reads, writes but those of standard error, seeks, syncs, renames and questions
// for a file's length. The file that FAIL_MARK names then holds a byte.

#define _GNU_SOURCE
#include "preloaded.h"
#include <errno.h>
#include <stdarg.h>
#include <sys/stat.h>

// Whether this call is the one to fail.
static int fails(void) {
    static long calls = 0;
    if (++calls != number("FAIL_FILE")) return 0;
    leave_mark();
    errno = EIO;
    return 1;
}

int open(const char *path, int flags, ...) {
    va_list rest;
    va_start(rest, flags);
    int mode = va_arg(rest, int);
    va_end(rest);
    return fails() ? -1 : syscall(SYS_openat, AT_FDCWD, path, flags, mode);
}

ssize_t read(int file, void *bytes, size_t size) { return fails() ? -1 : syscall(SYS_read, file, bytes, size); }

ssize_t pread(int file, void *bytes, size_t size, off_t place) {
    return fails() ? -1 : syscall(SYS_pread64, file, bytes, size, place);
}

ssize_t pread64(int file, void *bytes, size_t size, off_t place) { return pread(file, bytes, size, place); }

ssize_t write(int file, const void *bytes, size_t size) {
    return file != 2 && fails() ? -1 : syscall(SYS_write, file, bytes, size);
}

off_t lseek(int file, off_t place, int from) { return fails() ? -1 : syscall(SYS_lseek, file, place, from); }

int fsync(int file) { return fails() ? -1 : syscall(SYS_fsync, file); }

int fdatasync(int file) { return fails() ? -1 : syscall(SYS_fdatasync, file); }

int rename(const char *from, const char *to) { return fails() ? -1 : syscall(SYS_rename, from, to); }

int statx(int folder, const char *path, int flags, unsigned mask, struct statx *told) {
    return fails() ? -1 : syscall(SYS_statx, folder, path, flags, mask, told);
}
