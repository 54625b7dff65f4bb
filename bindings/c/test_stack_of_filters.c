// SPDX-License-Identifier: Apache-2.0
// The stack of calls of filters that nest as deep as they may, in each way: up to 32 levels on a thread of 256 kilobytes.
// In words in which 32 nest, up to 69 nest in the encoding.
#define _GNU_SOURCE
#include "doqallin.h"
#include "painted_stack.h"
#include <stdio.h>

static int failed = 0;

static void check(int holds, int line) {
    if (!holds && failed++ < 10) printf("line %d does not hold\n", line);
}
#define CHECK(condition) check(condition, __LINE__)

#define TEXT(text) (const uint8_t *)text, sizeof text - 1

// Ways to nest: what stands before and after, and how many levels that is.
static const struct way { const char *before, *after; size_t levels; } ways[] = {
    {"not ", "", 1}, {"(", ")", 1}, {"n = 1 and ", "", 1}, {"s = 'b' or ", "", 1},
    {"(", ") and n = 1 or n = 1", 1}, {"n = 1 and not (", ")", 3}, {"(n is null or s like 'c%' and ", ")", 3},
};
// The last nests none in the words, and 4 in the encoding.
static const char *const tests[] = {"n between 1 and 2", "s in ('a', 'b', null)", "n not between -99999 and 99999"};
#define COUNT_OF(items) (sizeof items / sizeof *items)

static char words[1 << 14];
static uint8_t form[1 << 14], buffer[8];
static size_t form_length, depth;
static uint32_t status;

static void *prepare(void *unused) {
    static const struct doqallin_named_kind schema[] = {{TEXT("n"), DOQALLIN_I16, 0, 0}, {TEXT("s"), DOQALLIN_UTF8, 0, 0}};
    struct doqallin_mistake mistake;
    status = doqallin_prepare_filter((const uint8_t *)words, strlen(words), schema, 2, depth, form, sizeof form, &form_length, &mistake);
    return unused;
}

static void *outcomes(void *unused) {
    // n from 3 to 5, and no statistics of s.
    static const uint8_t known[] = {1, 31, 0, 0, 0, 0, 0, 0, 0, 2, 0, 0, 0, 0, 0, 0, 0, 0, 13, 3, 13, 5};
    static const uint64_t starts[] = {0, 22, 22};
    struct doqallin_fault fault;
    status = doqallin_filter_outcomes(form, form_length, known, sizeof known, starts, 3, depth, buffer, 1, &fault);
    return unused;
}

static void *mask(void *unused) {
    static const uint8_t numbers[] = {3, 0, 7, 0}, ends[] = {0, 0, 0, 0, 30, 0, 0, 0, 31, 0, 0, 0};
    static const struct doqallin_column two[] = {
        {DOQALLIN_I16, 0, 0, numbers, 0, numbers, 4, numbers, 0, 0, 2},
        {DOQALLIN_UTF8, 0, 0, numbers, 0, TEXT("0123456789012345678901234567890"), ends, sizeof ends, 0, 2},
    };
    struct doqallin_fault fault;
    status = doqallin_filter_mask(form, form_length, two, 2, 2, depth, buffer, sizeof buffer, &fault);
    return unused;
}

static size_t most = 0;

static void measure(void *(*call)(void *), uint8_t *stack, size_t size) {
    size_t of = taken(stack, size, call, NULL);
    CHECK(status == DOQALLIN_GIVEN);
    most = of > most ? of : most;
}

// All calls of the filter that nests so deep in this way.
static void filter(const struct way *way, const char *test, uint8_t *stack, size_t size) {
    size_t times = depth / way->levels, at = 0;
    for (size_t i = 0; i < times; i++) at += (size_t)sprintf(words + at, "%s", way->before);
    at += (size_t)sprintf(words + at, "%s", test);
    for (size_t i = 0; i < times; i++) at += (size_t)sprintf(words + at, "%s", way->after);
    measure(prepare, stack, size);
    measure(outcomes, stack, size);
    measure(mask, stack, size);
}

int main(void) {
    static const struct { size_t depth, size; } threads[] = {{3, 1 << 17}, {32, 1 << 18}, {250, 1 << 21}};
    for (size_t i = 0; i < COUNT_OF(threads); i++) {
        uint8_t *stack = new_stack(threads[i].size);
        depth = threads[i].depth;
        most = 0;
        for (size_t way = 0; way < COUNT_OF(ways); way++)
            for (size_t test = 0; test < COUNT_OF(tests); test++) filter(&ways[way], tests[test], stack, threads[i].size);
        printf("%zu deep: at most %zu bytes\n", depth, most);
        munmap(stack, threads[i].size);
    }
    printf("%zu passed, %d failed\n", failed ? (size_t)0 : COUNT_OF(ways) * COUNT_OF(tests), failed);
    return failed != 0;
}
