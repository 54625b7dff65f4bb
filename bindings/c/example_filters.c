// SPDX-License-Identifier: Apache-2.0
// A filter in SQL's words: the zones that it rules out by their statistics, and the rows that match in one that is left.
#include "doqallin.h"
#include <stdio.h>
#include <stdlib.h>

#define BYTES(text) (const uint8_t *)(text), sizeof text - 1
#define NOTHING BYTES("")

static struct doqallin_fault fault;

static void need(uint32_t status) {
    if (status == DOQALLIN_GIVEN) return;
    fprintf(stderr, "status %u, column %zu, place %zu\n", status, fault.column, fault.place);
    exit(1);
}

int main(void) {
    // Two zones of a column of fares.
    static const uint16_t fares[2][3] = {{3, 5, 8}, {7, 90, 12}};
    struct doqallin_column zones[2];
    for (int zone = 0; zone < 2; zone++)
        zones[zone] = (struct doqallin_column){DOQALLIN_U16, 0, 0, NOTHING, (const uint8_t *)fares[zone], sizeof fares[zone], NOTHING, 0, 3};

    // The words are read once.
    static const struct doqallin_named_kind columns[] = {{BYTES("fare"), DOQALLIN_U16, 0, 0}};
    uint8_t filter[100];
    size_t filter_length;
    struct doqallin_mistake mistake;
    if (doqallin_prepare_filter(BYTES("fare > 10"), columns, 1, 32, filter, sizeof filter, &filter_length, &mistake)) return 1;

    // The statistics of the zones, one behind another.
    uint8_t statistics[80];
    uint64_t offsets[3] = {0};
    for (int zone = 0; zone < 2; zone++) {
        size_t length;
        need(doqallin_column_statistics(&zones[zone], 16, statistics + offsets[zone], sizeof statistics - offsets[zone], &length, &fault));
        offsets[zone + 1] = offsets[zone] + length;
    }
    uint8_t outcomes[2];
    need(doqallin_filter_outcomes(filter, filter_length, statistics, offsets[2], offsets, 3, 32, outcomes, 2, &fault));
    for (int zone = 0; zone < 2; zone++) {
        printf("zone %d: %s\n", zone, outcomes[zone] & 4 ? "is read" : "is skipped");
        if (!(outcomes[zone] & 4)) continue;
        uint8_t mask;
        need(doqallin_filter_mask(filter, filter_length, &zones[zone], 1, zones[zone].length, 32, &mask, 1, &fault));
        for (int row = 0; row < 3; row++)
            if (mask >> row & 1) printf("row %d: %u\n", row, fares[zone][row]);
    }
    return 0;
}
