// SPDX-License-Identifier: Apache-2.0
// The stack of each call over random columns, on a thread whose stack is painted before: `test_stack COUNT` makes so many. None
// may take more than the header says.
#include "random_columns.h"
#include "painted_stack.h"

// What doqallin.h says under Stack.
#define MOST 6144
#define MOST_OF_STATISTICS 14336
#define SIZE ((size_t)1 << 16)

static struct doqallin_column two[2];
static uint8_t options[2], value[64], other[BUFFER];
static uint64_t starts[4];
static size_t n;
static struct doqallin_bound_lengths lengths;

static void cast(void) { doqallin_cast_column(&two[0], (uint8_t)(n % 8), buffer, BUFFER, &fault); }
static void front(void) { doqallin_cast_front(&two[0], (uint8_t)(n % 8), buffer, BUFFER, &fault); }
static void keys(void) { doqallin_row_keys(two, 2, options, 2, places, ROWS + 1, buffer, BUFFER, &count, &fault); }
static void bytes_bounds(void) { doqallin_column_bounds_bytes(value, sizeof value, starts, 4, n, buffer, BUFFER, other, BUFFER, &lengths); }
static void text_bounds(void) { doqallin_column_bounds_text(value, sizeof value, starts, 4, n, buffer, BUFFER, other, BUFFER, &lengths); }
static void upper_bound(void) { doqallin_upper_bound_text(value, sizeof value, n, buffer, BUFFER, &count); }

static uint8_t form[BUFFER];
static size_t form_length;
static struct doqallin_statistics_parts parts;
static void statistics(void) { doqallin_column_statistics(&two[0], n, buffer, BUFFER, &count, &fault); }
static void merge(void) {
    struct doqallin_kind kind = kind_of(&two[0]);
    doqallin_merge_typed(&kind, form, form_length, form, form_length, buffer, BUFFER, &count, &fault);
}
static void read_parts(void) {
    struct doqallin_kind kind = kind_of(&two[0]);
    doqallin_read_typed(&kind, form, form_length, buffer, BUFFER, other, BUFFER, &parts, &fault);
}

static uint8_t row_keys[BUFFER];
static uint64_t row_ends[ROWS + 2], ends[ROWS + 2];
static uint8_t more[BUFFER], values[BUFFER];
static size_t keys_length, rows_of_keys;
static void back(void) {
    const struct doqallin_kind kinds[] = {kind_of(&two[0]), kind_of(&two[1])};
    struct doqallin_column_buffers columns[] = {{other, BUFFER, buffer, BUFFER, places, ROWS + 2, 0}, {more, BUFFER, values, BUFFER, ends, ROWS + 2, 0}};
    doqallin_columns_of_typed_keys(kinds, 2, options, 2, row_ends, rows_of_keys + 1, row_keys, keys_length, columns, 2, &fault);
}

static void (*const calls[])(void) = {cast, front, keys, back, bytes_bounds, text_bounds, upper_bound, statistics, merge, read_parts};
#define CALLS (sizeof calls / sizeof *calls)
#define CALLS_OF_STATISTICS 3

static void *run(void *call) {
    (*(void (*const *)(void))call)();
    return NULL;
}

int main(int argc, char **argv) {
    long columns = begun(argc, argv);
    size_t most = 0;
    uint8_t *stack = new_stack(SIZE);
    for (long k = 0; k < columns; k++) {
        size_t rows = below(ROWS);
        two[0] = some_column(0, rows), two[1] = some_column(3, rows);
        options[0] = below(4), options[1] = below(4), n = below(40);
        for (size_t i = 0; i < sizeof value; i++) value[i] = below(9) ? 'a' + below(26) : below(256);
        for (int i = 1; i < 4; i++) starts[i] = starts[i - 1] + below(20);
        rows_of_keys = rows;
        if (doqallin_row_keys(two, 2, options, 2, row_ends, ROWS + 2, row_keys, BUFFER, &keys_length, &fault)) keys_length = 0;
        if (doqallin_column_statistics(&two[0], n, form, BUFFER, &form_length, &fault)) form_length = below(40);
        for (size_t i = 0; i < CALLS; i++) {
            size_t of = taken(stack, SIZE, run, (void *)&calls[i]);
            CHECK(of <= (i < CALLS - CALLS_OF_STATISTICS ? MOST : MOST_OF_STATISTICS));
            most = of > most ? of : most;
        }
        starts[0] = below(2);
    }
    printf("at most %zu bytes\n%ld passed, %ld failed\n", most, failed ? 0 : columns, failed);
    return failed != 0;
}
