// SPDX-License-Identifier: Apache-2.0
// The stack of calls by lines: `test_stack_of_calls KILOBYTES DEPTH < LINES` makes the call of each line, which may nest so deep, on a
// thread with so much stack. It writes how many bytes the call takes, its status, and the first bytes of the answer.
#define _GNU_SOURCE
#include "doqallin.h"
#include "painted_stack.h"
#include <stdio.h>

static char *line;
static size_t length, count, depth;
static uint8_t buffer[1 << 16];
static uint32_t status;

static void *call(void *unused) {
    if (depth == 32) {
        status = doqallin_call((const uint8_t *)line, length, buffer, sizeof buffer, &count);
    } else {
        status = doqallin_call_within((const uint8_t *)line, length, depth, buffer, sizeof buffer, &count);
    }
    return unused;
}

int main(int argc, char **argv) {
    if (argc != 3) return 2;
    size_t size = (size_t)atol(argv[1]) << 10, space = 0;
    depth = (size_t)atol(argv[2]);
    uint8_t *stack = new_stack(size);
    for (ssize_t read; (read = getline(&line, &space, stdin)) > 0;) {
        length = (size_t)read - (line[read - 1] == '\n');
        count = 0;
        size_t most = taken(stack, size, call, NULL);
        printf("%zu\t%u\t%.*s\n", most, status, (int)(count < 20 ? count : 20), (const char *)buffer);
    }
    free(line);
    return 0;
}
