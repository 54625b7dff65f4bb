// SPDX-License-Identifier: Apache-2.0
// Statistics of random columns, beside plain C: `test_statistics COUNT` makes so many, with a page behind each buffer that nobody
// may read, and `test_statistics COUNT malloc` with memory of its own for each. Their encodings are read, merged, and read again with
// any bytes changed.
#include "random_columns.h"

static uint8_t lower_buffer[BUFFER], upper_buffer[BUFFER];

// The bytes of a bound, and whether there is one that is exact.
struct bound {
    uint8_t bytes[64];
    size_t length;
    int is_there, is_exact;
};

struct statistics {
    uint64_t rows, nulls;
    struct bound lower, upper;
};

static int compare_rows(const struct doqallin_column *of, size_t i, size_t k) {
    if (has_items(of->kind)) {
        __int128 x = number_at(of, i), y = number_at(of, k);
        return x < y ? -1 : x > y;
    }
    if (of->kind == DOQALLIN_BOOL) return is_bit(of->values, of->offset + i) - is_bit(of->values, of->offset + k);
    size_t size = start_of(of, i + 1) - start_of(of, i), other = start_of(of, k + 1) - start_of(of, k);
    int order = memcmp(of->values + start_of(of, i), of->values + start_of(of, k), size < other ? size : other);
    return order ? order : size < other ? -1 : size > other;
}

// A bound of the value of a row, cut to so many bytes.
static struct bound bound_of(const struct doqallin_column *of, size_t row, size_t most, int is_upper) {
    struct bound made = {{0}, 0, 1, 1};
    if (of->kind == DOQALLIN_BOOL) {
        made.length = 1;
        made.bytes[0] = (uint8_t)is_bit(of->values, of->offset + row);
        return made;
    }
    if (has_items(of->kind)) {
        __int128 item = item_of(of->kind, number_at(of, row));
        made.length = widths[of->kind];
        memcpy(made.bytes, &item, made.length);
        return made;
    }
    const uint8_t *value = of->values + start_of(of, row);
    size_t length = start_of(of, row + 1) - start_of(of, row);
    if (is_upper) {
        made.is_there = !(is_text(of->kind) ? doqallin_upper_bound_text : doqallin_upper_bound_bytes)(value, length, most, made.bytes, sizeof made.bytes, &made.length);
    } else {
        if (is_text(of->kind)) CHECK(!doqallin_lower_bound_text(value, length, most, &made.length));
        if (!is_text(of->kind)) made.length = doqallin_lower_bound_bytes(value, length, most);
        memcpy(made.bytes, value, made.length);
    }
    made.is_exact = made.is_there && made.length == length && !memcmp(made.bytes, value, length);
    return made;
}

static struct statistics plain_statistics(const struct doqallin_column *of, size_t most) {
    struct statistics made = {of->length, 0, {{0}, 0, 0, 0}, {{0}, 0, 0, 0}};
    size_t least = SIZE_MAX, greatest = SIZE_MAX;
    if (of->kind == DOQALLIN_NULL) made.nulls = of->length;
    for (size_t row = 0; of->kind != DOQALLIN_NULL && row < of->length; row++) {
        if (!is_valid(of, row)) {
            made.nulls++;
            continue;
        }
        if (least == SIZE_MAX || compare_rows(of, row, least) < 0) least = row;
        if (greatest == SIZE_MAX || compare_rows(of, row, greatest) > 0) greatest = row;
    }
    if (least != SIZE_MAX) made.lower = bound_of(of, least, most, 0), made.upper = bound_of(of, greatest, most, 1);
    return made;
}

static size_t put_count(size_t at, uint64_t number) {
    for (int k = 7; k >= 0; k--) at = put(at, number >> 8 * k & 255, 0);
    return at;
}

static size_t put_bound(size_t at, const struct doqallin_column *column, const struct bound *of) {
    uint8_t ends_of[8] = {0}, kind = column->kind;
    uint8_t small = !has_bytes(kind) ? kind : is_text(kind) ? DOQALLIN_UTF8 : DOQALLIN_BINARY, bit = of->bytes[0];
    uint32_t length = (uint32_t)of->length;
    memcpy(ends_of + 4, &length, 4);
    struct doqallin_column one = {small, column->precision, column->scale, NULL, 0, kind == DOQALLIN_BOOL ? &bit : of->bytes, of->length, ends_of, 8, 0, 1};
    return of->is_there ? plain_key(&one, 0, 2, at) : at;
}

// The name of a logical type: its own number, the precision of decimals or the unit, the smallest first, and the scale or whether there
// is a zone.
static size_t put_name(size_t at, const struct doqallin_column *of) {
    static const uint8_t names[] = {2, 1, 4, 5, 5, 5, 5, 6, 6, 6, 6, 6, 6, 6, 6, 3, 3, 3};
    if (!is_logical(of->kind)) return at;
    int unit = 3 - (of->kind - DOQALLIN_TIME_S) % 4, is_zoned = of->kind >= DOQALLIN_TIMESTAMP_S_UTC;
    uint8_t number = names[of->kind - DOQALLIN_F32];
    at = put(put(at, 2, 0), number, 0);
    at = put(at, number == 3 ? of->precision : number == 4 ? 4 : number > 4 ? (unsigned)unit : 0, 0);
    return put(at, number == 3 ? of->scale : number == 6 ? (unsigned)is_zoned : 0, 0);
}

// Writes the encoding of the statistics; returns its length.
static size_t plain_form(const struct doqallin_column *column, const struct statistics *of) {
    size_t at = put(put_name(0, column), 1, 0);
    at = put(at, 1 + 2 * of->lower.is_there + 4 * of->lower.is_exact + 8 * of->upper.is_there + 16 * of->upper.is_exact, 0);
    at = put_count(put_count(at, of->rows), of->nulls);
    return put_bound(put_bound(at, column, &of->lower), column, &of->upper);
}

// The calls take a code alone, but of decimals: then they are those of the same name with a kind.
static uint32_t read_of(const struct doqallin_column *of, const uint8_t *bytes, size_t length, size_t lower_length, size_t upper_length,
                        struct doqallin_statistics_parts *parts) {
    struct doqallin_kind kind = kind_of(of);
    if (is_decimal(of->kind) || below(2))
        return doqallin_read_typed(&kind, bytes, length, lower_buffer, lower_length, upper_buffer, upper_length, parts, &fault);
    return doqallin_read_statistics(of->kind, bytes, length, lower_buffer, lower_length, upper_buffer, upper_length, parts, &fault);
}

static uint32_t merge_of(const struct doqallin_column *of, const uint8_t *one, size_t one_length, const uint8_t *other, size_t other_length, size_t size) {
    struct doqallin_kind kind = kind_of(of);
    if (is_decimal(of->kind) || below(2)) return doqallin_merge_typed(&kind, one, one_length, other, other_length, buffer, size, &count, &fault);
    return doqallin_merge_statistics(of->kind, one, one_length, other, other_length, buffer, size, &count, &fault);
}

static uint32_t of_statistics(const struct doqallin_column *some, size_t most, size_t *length) {
    size_t place = 0;
    uint32_t status = plain_check(some, &place);
    fresh();
    if (status) {
        CHECK(doqallin_column_statistics(some, most, buffer, BUFFER, &count, &fault) == status);
        CHECK(fault.column == 0 && fault.place == place && count == 77 && is_kept(0, 0));
        return status;
    }
    struct statistics told = plain_statistics(some, most);
    *length = plain_form(some, &told);
    CHECK(doqallin_column_statistics(some, most, buffer, *length, &count, &fault) == DOQALLIN_GIVEN);
    CHECK(count == *length && !memcmp(buffer, wanted, *length) && is_kept(*length, 0) && fault.column == 77);
    fresh();
    CHECK(doqallin_column_statistics(some, most, buffer, below(*length), &count, &fault) == DOQALLIN_BUFFER_TOO_SMALL);
    CHECK(count == *length && is_kept(0, 0) && fault.column == 77);
    return DOQALLIN_GIVEN;
}

static int is_told(const struct bound *of, int has, int is_exact, const uint8_t *from, size_t length) {
    if (has != of->is_there || is_exact != of->is_exact || length != of->length) return 0;
    for (size_t i = length; i < BUFFER; i++)
        if (from[i] != 'q') return 0;
    return !memcmp(from, of->bytes, length);
}

static void of_parts(const struct doqallin_column *some, size_t most, size_t length) {
    struct statistics told = plain_statistics(some, most);
    struct doqallin_statistics_parts parts = {77, 78, 79, 80, true, true, true, true, true};
    const uint8_t *form = exactly(6, wanted, length);
    if (!told.upper.is_there) told.upper.length = 0;
    fresh();
    memset(lower_buffer, 'q', BUFFER);
    memset(upper_buffer, 'q', BUFFER);
    CHECK(read_of(some, form, length, told.lower.length, told.upper.length, &parts) == DOQALLIN_GIVEN);
    CHECK(parts.row_count == told.rows && parts.has_null_count && parts.null_count == told.nulls && fault.column == 77);
    CHECK(is_told(&told.lower, parts.has_lower, parts.lower_is_exact, lower_buffer, parts.lower_length));
    CHECK(is_told(&told.upper, parts.has_upper, parts.upper_is_exact, upper_buffer, parts.upper_length));
    if (told.lower.length) {
        parts.lower_length = 0;
        CHECK(read_of(some, form, length, told.lower.length - 1, BUFFER, &parts) == DOQALLIN_BUFFER_TOO_SMALL);
        CHECK(parts.lower_length == told.lower.length && parts.upper_length == told.upper.length);
    }
    // Both pieces the same: twice the rows, and the same bounds.
    told.rows *= 2, told.nulls *= 2;
    size_t doubled = plain_form(some, &told);
    fresh();
    CHECK(merge_of(some, form, length, form, length, doubled) == DOQALLIN_GIVEN);
    CHECK(count == doubled && !memcmp(buffer, wanted, doubled) && is_kept(doubled, 0) && fault.column == 77);
}

// The statistics of two pieces of the column, merged: those of the whole. Bounds that were cut before can be looser then.
static void of_pieces(const struct doqallin_column *some, size_t most, const uint8_t *form, size_t length) {
    uint8_t first[BUFFER], rest[BUFFER];
    size_t first_length, rest_length;
    struct doqallin_column one = *some, other = *some;
    one.length = below(some->length + 1);
    other.offset += one.length, other.length -= one.length;
    CHECK(!doqallin_column_statistics(&one, most, first, BUFFER, &first_length, &fault));
    CHECK(!doqallin_column_statistics(&other, most, rest, BUFFER, &rest_length, &fault));
    fresh();
    const uint8_t *held = exactly(6, first, first_length), *also = exactly(7, rest, rest_length);
    CHECK(merge_of(some, held, first_length, also, rest_length, first_length + rest_length) == DOQALLIN_GIVEN);
    CHECK(count <= first_length + rest_length && is_kept(count, 0) && fault.column == 77);
    int is_cut = has_bytes(some->kind);
    CHECK(is_cut ? !memcmp(buffer + 2, form + 2, 16) : count == length && !memcmp(buffer, form, length));
}

// An encoding with bytes changed, or cut short: it is read, or the first byte is told that is not of it, or a bound is of no value.
static uint32_t of_any_bytes(const struct doqallin_column *some, const uint8_t *form, size_t length) {
    uint8_t changed[BUFFER];
    static const uint8_t likely[] = {0, 1, 2, 12, 13, 21, 22, 31, 255};
    memcpy(changed, form, length);
    for (uint64_t times = 1 + below(3); times; times--) changed[below(length)] = below(2) ? likely[below(sizeof likely)] : below(256);
    length = below(3) ? length : below(length + 1);
    const uint8_t *bytes = exactly(6, changed, length);
    struct doqallin_statistics_parts parts = {0, 0, 0, 0, false, false, false, false, false};
    fresh();
    uint32_t status = read_of(some, bytes, length, BUFFER, BUFFER, &parts);
    int is_none = status == DOQALLIN_NOT_A_VALUE && is_logical(some->kind) && fault.place == 0;
    CHECK(status == DOQALLIN_GIVEN ? fault.column == 77 : (status == DOQALLIN_BAD_BYTES || is_none) && fault.column == 0 && fault.place <= length);
    size_t place = fault.place;
    uint32_t merged = merge_of(some, bytes, length, bytes, length, BUFFER);
    CHECK(status == merged ? !status || (fault.column == 0 && fault.place == place) : !status && merged == DOQALLIN_TOO_MANY_ROWS);
    return merged;
}

int main(int argc, char **argv) {
    long columns = begun(argc, argv), seen[STATUSES] = {0};
    for (long k = 0; k < columns; k++) {
        struct doqallin_column some = some_column(0, below(ROWS));
        size_t most = below(12) ? below(40) : SIZE_MAX, length = 0;
        uint32_t status = of_statistics(&some, most, &length);
        seen[status]++;
        if (status) continue;
        uint8_t form[BUFFER];
        memcpy(form, wanted, length);
        of_parts(&some, most, length);
        of_pieces(&some, most, form, length);
        seen[of_any_bytes(&some, form, length)]++;
    }
    static const uint32_t all[] = {DOQALLIN_GIVEN, DOQALLIN_NOT_UTF8, DOQALLIN_BAD_OFFSETS, DOQALLIN_UNKNOWN_KIND, DOQALLIN_TOO_MANY_ROWS, DOQALLIN_TOO_SHORT, DOQALLIN_BAD_BYTES,
                                   DOQALLIN_NOT_A_VALUE};
    return ended(columns, seen, all, sizeof all / sizeof *all);
}
