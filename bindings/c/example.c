// SPDX-License-Identifier: Apache-2.0
// The bounds of a column of strings at 16 bytes, and what they rule out.
#include "doqallin.h"
#include <stdio.h>
#include <string.h>

int main(void) {
    const char *bytes = "banana" "apple" "cherry pie with cream";
    const uint64_t offsets[] = {0, 6, 11, 32};
    uint8_t lower[16], upper[16];
    struct doqallin_bound_lengths lengths = {0, 0, false};
    if (doqallin_column_bounds_text((const uint8_t *)bytes, strlen(bytes), offsets, 4, 16, lower, 16, upper, 16, &lengths)) return 1;
    printf("%.*s to %.*s\n", (int)lengths.lower, lower, (int)lengths.upper, upper);
    bool cherry = doqallin_may_contain_bytes(lower, lengths.lower, upper, lengths.upper, lengths.has_upper, (const uint8_t *)"cherry", 6);
    bool zucchini = doqallin_may_contain_bytes(lower, lengths.lower, upper, lengths.upper, lengths.has_upper, (const uint8_t *)"zucchini", 8);
    printf("cherry: %s\nzucchini: %s\n", cherry ? "maybe" : "no", zucchini ? "maybe" : "no");
    return 0;
}
