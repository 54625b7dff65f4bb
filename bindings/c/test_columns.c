// SPDX-License-Identifier: Apache-2.0
// Casts, keys, columns of keys and bounds of random columns, beside plain C: `test_columns COUNT` makes so many, with a page behind each buffer
// that nobody may read, and `test_columns COUNT malloc` with memory of its own for each.
#include "random_columns.h"

static uint64_t ends[ROWS + 2];

// What a cast answers, with the place and the bytes that it writes.
static uint32_t plain_cast(const struct doqallin_column *of, uint8_t to, size_t buffer_length, size_t *place) {
    if (of->kind >= DOQALLIN_BOOL) return *place = 0, DOQALLIN_UNKNOWN_KIND;
    uint32_t status = plain_check(of, place);
    if (status) return status;
    int width = 1 << to % 4, bits = 8 * width - (to >= DOQALLIN_I8);
    if (buffer_length < of->length * width) return DOQALLIN_BUFFER_TOO_SMALL;
    for (*place = 0; *place < of->length; ++*place) {
        __int128 number = is_valid(of, *place) ? number_at(of, *place) : 0;
        if (number >= (__int128)1 << bits || number < (to >= DOQALLIN_I8 ? -((__int128)1 << bits) : 0)) return DOQALLIN_NONE;
        memcpy(wanted + *place * width, &number, width);
    }
    return DOQALLIN_GIVEN;
}

static uint32_t of_cast(const struct doqallin_column *some) {
    uint8_t to = below(8);
    size_t buffer_length = below(6) ? BUFFER : below(64), place = 0;
    uint32_t status = plain_cast(some, to, buffer_length, &place);
    fresh();
    CHECK(doqallin_cast_column(some, to, buffer, buffer_length, &fault) == status);
    int is_told = status != DOQALLIN_GIVEN && status != DOQALLIN_BUFFER_TOO_SMALL;
    CHECK(is_told ? fault.column == 0 && fault.place == place : fault.column == 77 && fault.place == 78);
    size_t written = status ? 0 : some->length << to % 4;
    CHECK(!memcmp(buffer, wanted, written) && is_kept(written, 0));
    fresh();
    CHECK(doqallin_cast_front(some, to, buffer, buffer_length, &fault) == status);
    CHECK(is_told ? fault.column == 0 && fault.place == place : fault.column == 77 && fault.place == 78);
    if (status == DOQALLIN_NONE) written = place << to % 4;
    CHECK(!memcmp(buffer, wanted, written) && is_kept(written, 0));
    return status;
}

// What the keys of two columns answer, with where the mistake is.
static uint32_t plain_keys(const struct doqallin_column *two, const uint8_t *options, struct doqallin_fault *where) {
    for (where->column = 0; where->column < 2; where->column++) {
        uint32_t status = plain_check(&two[where->column], &where->place);
        if (status) return status;
        where->place = 0;
        if (options[where->column] > 3) return DOQALLIN_BAD_OPTIONS;
        if (two[where->column].length != two[0].length) return DOQALLIN_WRONG_LENGTH;
    }
    return DOQALLIN_GIVEN;
}

static uint32_t of_back(const struct doqallin_column *two, const uint8_t *options, size_t rows, size_t end);

static uint32_t of_keys(const struct doqallin_column *two) {
    uint8_t options[] = {below(50) ? below(4) : 4, below(4)};
    struct doqallin_fault where;
    uint32_t status = plain_keys(two, options, &where);
    fresh();
    if (status) {
        CHECK(doqallin_row_keys(two, 2, options, 2, places, ROWS + 2, buffer, BUFFER, &count, &fault) == status);
        CHECK(fault.column == where.column && fault.place == where.place && count == 77 && is_kept(0, 0));
        return status;
    }
    size_t rows = two[0].length, end = 0;
    for (size_t row = 0; row < rows; ends[++row] = end)
        for (int which = 0; which < 2; which++) end = plain_key(&two[which], row, options[which], end);
    CHECK(doqallin_row_keys(two, 2, options, 2, places, rows + 1, buffer, end, &count, &fault) == DOQALLIN_GIVEN);
    CHECK(count == end && !memcmp(buffer, wanted, end) && !memcmp(places, ends, 8 * rows + 8) && is_kept(end, rows + 1));
    fresh();
    size_t less = end ? below(end) : 0;
    CHECK(doqallin_row_keys(two, 2, options, 2, places, end ? rows + 1 : rows, buffer, less, &count, &fault) == DOQALLIN_BUFFER_TOO_SMALL);
    CHECK(count == end && fault.column == 77 && is_kept(0, 0));
    return of_back(two, options, rows, end);
}

// Whether the first bytes of the buffers are this column from a bitmap and values of its own: nulls as 0, false or no bytes.
static uint8_t bitmap[ROWS / 8 + 2];

static int is_column(const struct doqallin_column *of, size_t rows) {
    uint64_t at = 0;
    for (size_t row = 0; row < rows; row++) {
        int valid = is_valid(of, row);
        if (is_bit(bitmap, row) != valid) return 0;
        if (has_items(of->kind)) {
            __int128 item = valid ? item_of(of->kind, number_at(of, row)) : 0;
            if (memcmp(buffer + row * widths[of->kind], &item, widths[of->kind])) return 0;
        } else if (of->kind == DOQALLIN_BOOL) {
            if (is_bit(buffer, row) != (valid && is_bit(of->values, of->offset + row))) return 0;
        } else if (has_bytes(of->kind)) {
            uint64_t start = valid ? start_of(of, row) : 0, size = valid ? start_of(of, row + 1) - start : 0;
            if (places[row] != at || places[row + 1] != at + size || memcmp(buffer + at, of->values + start, size)) return 0;
            at += size;
        }
    }
    for (size_t row = rows; row < (rows + 7) / 8 * 8; row++)
        if (is_bit(bitmap, row) || (of->kind == DOQALLIN_BOOL && is_bit(buffer, row))) return 0;
    size_t bits = (rows + 7) / 8, size = has_items(of->kind) ? rows * widths[of->kind] : of->kind == DOQALLIN_BOOL ? bits : at;
    int has_offsets = has_bytes(of->kind);
    return count == size && bitmap[bits] == 'q' && is_kept(size, has_offsets ? rows + 1 : 0) && (!has_offsets || places[0] == 0);
}

// Reads both columns back, this one into `size` bytes of the buffer, and the other into buffers of its own.
static uint32_t column_back(const struct doqallin_kind *kinds, const uint8_t *options, const uint64_t *starts, size_t rows, const uint8_t *keys, size_t length, size_t which, size_t size) {
    static uint8_t spare_bits[sizeof bitmap], spare[BUFFER];
    static uint64_t spare_places[ROWS + 2];
    fresh();
    memset(bitmap, 'q', sizeof bitmap);
    struct doqallin_column_buffers both[2];
    both[which] = (struct doqallin_column_buffers){bitmap, sizeof bitmap, buffer, size, places, ROWS + 2, count};
    both[1 - which] = (struct doqallin_column_buffers){spare_bits, sizeof spare_bits, spare, BUFFER, spare_places, ROWS + 2, count};
    // The call takes codes alone, but of decimals: then it is that of the same name with kinds.
    uint8_t codes[] = {kinds[0].code, kinds[1].code};
    int is_typed = is_decimal(codes[0]) || is_decimal(codes[1]) || below(2);
    uint32_t status = is_typed ? doqallin_columns_of_typed_keys(kinds, 2, options, 2, starts, rows + 1, keys, length, both, 2, &fault)
                               : doqallin_columns_of_row_keys(codes, 2, options, 2, starts, rows + 1, keys, length, both, 2, &fault);
    count = both[which].count;
    return status;
}

// The columns of the keys in `wanted` are those of the rows. With a byte changed, keys are told as wrong, or give columns whose keys
// they are.
static uint32_t of_back(const struct doqallin_column *two, const uint8_t *options, size_t rows, size_t end) {
    static uint8_t made[2][2][BUFFER], offsets[2][8 * (ROWS + 2)], again[BUFFER];
    struct doqallin_kind kinds[] = {kind_of(&two[0]), kind_of(&two[1])};
    uint8_t keys[BUFFER];
    memcpy(keys, exactly(6, wanted, end), end);
    for (size_t which = 0; which < 2; which++) {
        CHECK(column_back(kinds, options, ends, rows, exactly(6, keys, end), end, which, BUFFER) == DOQALLIN_GIVEN && fault.column == 77);
        CHECK(is_column(&two[which], rows));
        size_t size = count;
        if (!size) continue;
        CHECK(column_back(kinds, options, ends, rows, exactly(6, keys, end), end, which, below(size)) == DOQALLIN_BUFFER_TOO_SMALL);
        CHECK(count == size && fault.column == 77 && is_kept(0, 0) && bitmap[0] == 'q');
    }
    if (!end) return DOQALLIN_GIVEN;
    keys[below(end)] ^= (uint8_t)(1 << below(8));
    struct doqallin_column read[2];
    for (size_t which = 0; which < 2; which++) {
        uint32_t status = column_back(kinds, options, ends, rows, exactly(6, keys, end), end, which, BUFFER);
        if (status) {
            int is_none = status == DOQALLIN_NOT_A_VALUE && fault.column < 2 && is_logical(kinds[fault.column].code) && fault.place < rows;
            int is_bad = status == DOQALLIN_BAD_BYTES && fault.column == 0 && fault.place <= end;
            CHECK((is_none || is_bad) && count == 77 && is_kept(0, 0) && bitmap[0] == 'q');
            return status;
        }
        memcpy(made[which][0], bitmap, sizeof bitmap);
        memcpy(made[which][1], buffer, BUFFER);
        memcpy(offsets[which], places, 8 * (rows + 1));
        uint8_t kind = kinds[which].code + is_small(kinds[which].code);
        read[which] = (struct doqallin_column){kind, kinds[which].precision, kinds[which].scale, made[which][0], (rows + 7) / 8, made[which][1], count, offsets[which], 8 * (rows + 1), 0, rows};
    }
    CHECK(doqallin_row_keys(read, 2, options, 2, places, rows + 1, again, BUFFER, &count, &fault) == DOQALLIN_GIVEN);
    CHECK(count == end && !memcmp(again, keys, end) && !memcmp(places, ends, 8 * rows + 8));
    return DOQALLIN_GIVEN;
}

#define TEXT_ROOM 40

static int is_before(const uint8_t *bytes, const uint64_t *offsets, size_t i, size_t k) {
    size_t size = offsets[i + 1] - offsets[i], other = offsets[k + 1] - offsets[k];
    int order = memcmp(bytes + offsets[i], bytes + offsets[k], size < other ? size : other);
    return order < 0 || (order == 0 && size < other);
}

// What the bounds of a column of values answer, and which values are the least and the greatest.
static uint32_t plain_bounds(const uint8_t *bytes, size_t length, const uint64_t *offsets, size_t many, int of_texts, size_t ends_of[2]) {
    for (size_t i = 1; i < many; i++)
        if (offsets[i - 1] > offsets[i] || offsets[i] > length) return DOQALLIN_BAD_OFFSETS;
    if (many < 2) return DOQALLIN_NONE;
    for (size_t i = ends_of[0] = ends_of[1] = 0; i + 1 < many; i++) {
        if (is_before(bytes, offsets, i, ends_of[0])) ends_of[0] = i;
        if (is_before(bytes, offsets, ends_of[1], i)) ends_of[1] = i;
    }
    for (int end = 0; of_texts && end < 2; end++)
        if (!is_utf8(bytes + offsets[ends_of[end]], offsets[ends_of[end] + 1] - offsets[ends_of[end]])) return DOQALLIN_NOT_UTF8;
    return DOQALLIN_GIVEN;
}

// Bounds of random values by offsets of 64 bits. Of one value, the bounds are those of the calls for one.
static uint32_t of_bounds(void) {
    uint8_t some[TEXT_ROOM], upper[TEXT_ROOM], upper_buffer[TEXT_ROOM];
    uint64_t starts[6] = {0}, at = below(3);
    size_t length = below(TEXT_ROOM), many = below(6), n = below(10) ? below(12) : SIZE_MAX, of[2] = {0}, lower = 0, above = 0;
    int of_texts = below(2);
    for (size_t i = 0; i < length; i++) some[i] = below(6) ? 'a' + below(3) : below(256);
    for (size_t i = 0; i < many; i++, at += below(12)) starts[i] = below(40) ? at : UINT64_MAX - below(3);
    const uint8_t *bytes = exactly(0, some, length);
    const uint64_t *offsets = many ? (const void *)exactly(1, (const uint8_t *)starts, 8 * many) : starts;
    size_t lower_length = below(6) ? TEXT_ROOM : below(4), upper_length = below(6) ? TEXT_ROOM : below(4);
    uint32_t status = plain_bounds(bytes, length, offsets, many, of_texts, of);
    int has_upper = 0;
    if (!status) {
        const uint8_t *least = bytes + offsets[of[0]], *greatest = bytes + offsets[of[1]];
        size_t size = offsets[of[0] + 1] - offsets[of[0]], other = offsets[of[1] + 1] - offsets[of[1]];
        if (of_texts) CHECK(!doqallin_lower_bound_text(least, size, n, &lower));
        if (!of_texts) lower = doqallin_lower_bound_bytes(least, size, n);
        has_upper = !(of_texts ? doqallin_upper_bound_text : doqallin_upper_bound_bytes)(greatest, other, n, upper, TEXT_ROOM, &above);
        memcpy(wanted, least, lower);
        if (lower > lower_length || above > upper_length) status = DOQALLIN_BUFFER_TOO_SMALL;
    }
    fresh();
    memset(upper_buffer, 'q', TEXT_ROOM);
    struct doqallin_bound_lengths lengths = {77, 78, true};
    CHECK((of_texts ? doqallin_column_bounds_text : doqallin_column_bounds_bytes)(bytes, length, offsets, many, n, buffer, lower_length, upper_buffer, upper_length, &lengths) == status);
    int is_told = status == DOQALLIN_GIVEN || status == DOQALLIN_BUFFER_TOO_SMALL;
    CHECK(is_told ? lengths.lower == lower && lengths.upper == above && lengths.has_upper == has_upper : lengths.lower == 77 && lengths.upper == 78 && lengths.has_upper);
    size_t written = status ? 0 : lower, written_above = status ? 0 : above;
    CHECK(!memcmp(buffer, wanted, written) && is_kept(written, 0) && !memcmp(upper_buffer, upper, written_above));
    for (size_t i = written_above; i < TEXT_ROOM; i++) CHECK(upper_buffer[i] == 'q');
    return status;
}

int main(int argc, char **argv) {
    long columns = begun(argc, argv), seen[STATUSES] = {0};
    for (long k = 0; k < columns; k++) {
        size_t rows = below(ROWS);
        struct doqallin_column two[] = {some_column(0, rows), some_column(3, rows)};
        seen[of_cast(&two[0])]++;
        seen[of_keys(two)]++;
        seen[of_bounds()]++;
    }
    static const uint32_t all[] = {DOQALLIN_GIVEN, DOQALLIN_NONE, DOQALLIN_BUFFER_TOO_SMALL, DOQALLIN_NOT_UTF8, DOQALLIN_BAD_OFFSETS, DOQALLIN_UNKNOWN_KIND,
                                   DOQALLIN_TOO_MANY_ROWS, DOQALLIN_TOO_SHORT, DOQALLIN_WRONG_LENGTH, DOQALLIN_BAD_OPTIONS, DOQALLIN_BAD_BYTES, DOQALLIN_NOT_A_VALUE};
    return ended(columns, seen, all, sizeof all / sizeof *all);
}
