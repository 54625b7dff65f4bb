// SPDX-License-Identifier: Apache-2.0
// Columns as Arrow lays them out: a cast of all rows or none, and keys that sort as the rows do.
#include "doqallin.h"
#include <stdio.h>
#include <stdlib.h>

#define BYTES(text) (const uint8_t *)(text), sizeof text - 1
#define NOTHING BYTES("")

static struct doqallin_fault fault;

static void need(uint32_t status) {
    if (status == DOQALLIN_GIVEN) return;
    fprintf(stderr, "status %u, column %zu, place %zu\n", status, fault.column, fault.place);
    exit(1);
}

int main(void) {
    // Fares of 40, a null and 3, and their cities.
    static const int64_t fares[] = {40, -1, 3};
    static const int32_t offsets[] = {0, 4, 8, 13};
    struct doqallin_column rows[] = {
        {DOQALLIN_UTF8, 0, 0, NOTHING, BYTES("osloosloskien"), (const uint8_t *)offsets, sizeof offsets, 0, 3},
        {DOQALLIN_I64, 0, 0, BYTES("\5"), (const uint8_t *)fares, sizeof fares, NOTHING, 0, 3},
    };

    uint8_t small[3];
    need(doqallin_cast_column(&rows[1], DOQALLIN_U8, small, 3, &fault));
    printf("as u8: %u %u %u\n", small[0], small[1], small[2]);

    // Cities first, and then fares, the greatest first and nulls before them.
    static const uint8_t options[] = {0, 3};
    uint64_t places[4];
    uint8_t keys[100];
    size_t count;
    need(doqallin_row_keys(rows, 2, options, 2, places, 4, keys, sizeof keys, &count, &fault));
    for (int row = 0; row < 3; row++) {
        printf("key %d: ", row);
        for (uint64_t at = places[row]; at < places[row + 1]; at++) printf("%02x", keys[at]);
        printf("\n");
    }
    return 0;
}
