// SPDX-License-Identifier: Apache-2.0
// Statistics of two pieces of a column, as an engine has them on two machines, and of the whole column by these.
#include "doqallin.h"
#include <stdio.h>
#include <stdlib.h>

#define BYTES(text) (const uint8_t *)(text), sizeof text - 1
#define NOTHING BYTES("")

static struct doqallin_fault fault;

static void need(uint32_t status) {
    if (status == DOQALLIN_GIVEN) return;
    fprintf(stderr, "status %u, column %zu, place %zu\n", status, fault.column, fault.place);
    exit(1);
}

int main(void) {
    // Bergen and Moss; Oslo and a null.
    static const int32_t first_ends[] = {0, 6, 10}, second_ends[] = {0, 4, 4};
    struct doqallin_column first = {DOQALLIN_UTF8, 0, 0, NOTHING, BYTES("BergenMoss"), (const uint8_t *)first_ends, sizeof first_ends, 0, 2};
    struct doqallin_column second = {DOQALLIN_UTF8, 0, 0, BYTES("\1"), BYTES("Oslo"), (const uint8_t *)second_ends, sizeof second_ends, 0, 2};

    // Bounds of at most 4 bytes: an encoding of 18 bytes, and of two keys of at most 10.
    uint8_t one[40], other[40], both[80];
    size_t one_length, other_length, length;
    need(doqallin_column_statistics(&first, 4, one, sizeof one, &one_length, &fault));
    need(doqallin_column_statistics(&second, 4, other, sizeof other, &other_length, &fault));
    need(doqallin_merge_statistics(DOQALLIN_UTF8, one, one_length, other, other_length, both, sizeof both, &length, &fault));

    uint8_t lower[80], upper[80];
    struct doqallin_statistics_parts parts = {0};
    need(doqallin_read_statistics(DOQALLIN_UTF8, both, length, lower, sizeof lower, upper, sizeof upper, &parts, &fault));
    printf("%llu rows, %llu null\n", (unsigned long long)parts.row_count, (unsigned long long)parts.null_count);
    printf("%s %.*s\n", parts.lower_is_exact ? "the least is" : "none is below", (int)parts.lower_length, lower);
    printf("%s %.*s\n", parts.upper_is_exact ? "the greatest is" : "none is above", (int)parts.upper_length, upper);
    return 0;
}
