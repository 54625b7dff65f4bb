// SPDX-License-Identifier: Apache-2.0
// Tests of the C interface: what each status says, and that it alone is written. `test` runs them, and says how many
// passed; `test memory N` makes the Nth call that takes memory once, between the lines `called` and `answered` on
// standard error, for tests/bindings, which refuses its allocations.
#include "doqallin.h"
#include <malloc.h>
#include <stdio.h>
#include <stdlib.h>
#include <string.h>
#include <unistd.h>

static int passed = 0, failed = 0;

static void check(int holds, int line) {
    if (holds) {
        passed++;
    } else {
        failed++;
        printf("test.c:%d does not hold\n", line);
    }
}
#define CHECK(condition) check(condition, __LINE__)

#define BYTES(text) (const uint8_t *)text, sizeof text - 1
#define BUFFER 32

// A buffer and a count as they are before each call, and what a call may not have written.
static uint8_t buffer[BUFFER], other[BUFFER];
static size_t count;
static struct doqallin_bound_lengths lengths;

static void fresh(void) {
    memset(buffer, 'q', BUFFER);
    memset(other, 'q', BUFFER);
    count = 77;
    lengths = (struct doqallin_bound_lengths){77, 78, true};
}

static int is_kept(const uint8_t *from, size_t after) {
    for (size_t i = after; i < BUFFER; i++)
        if (from[i] != 'q') return 0;
    return 1;
}

static int holds(const uint8_t *from, size_t length, const char *text) {
    return length == strlen(text) && !memcmp(from, text, length) && is_kept(from, length);
}

static int lengths_kept(void) { return lengths.lower == 77 && lengths.upper == 78 && lengths.has_upper; }

static void casts(void) {
    uint64_t out = 7;
    CHECK(doqallin_cast_integer(DOQALLIN_I8, (uint64_t)-5, DOQALLIN_I64, &out) == DOQALLIN_GIVEN && out == (uint64_t)-5);
    CHECK(doqallin_cast_integer(DOQALLIN_U64, UINT64_MAX, DOQALLIN_U64, &out) == DOQALLIN_GIVEN && out == UINT64_MAX);
    out = 7;
    CHECK(doqallin_cast_integer(DOQALLIN_I8, (uint64_t)-5, DOQALLIN_U64, &out) == DOQALLIN_NONE && out == 7);
    CHECK(doqallin_cast_integer(DOQALLIN_I8, 251, DOQALLIN_I64, &out) == DOQALLIN_NOT_A_NUMBER && out == 7);
    CHECK(doqallin_cast_integer(DOQALLIN_U8, 256, DOQALLIN_I64, &out) == DOQALLIN_NOT_A_NUMBER && out == 7);
    CHECK(doqallin_cast_integer(8, 0, DOQALLIN_I64, &out) == DOQALLIN_NOT_A_NUMBER && out == 7);
    CHECK(doqallin_cast_integer(DOQALLIN_I64, 0, 255, &out) == DOQALLIN_NOT_A_NUMBER && out == 7);
}

// A column of 5, a null and -2. A row of the buffers comes before its first.
static const uint8_t validity[] = {0x0b}, values[] = {0xff, 0xff, 5, 0, 0xff, 0xff, 0xfe, 0xff};
static const struct doqallin_column rows = {DOQALLIN_I16, 0, 0, validity, 1, values, 8, values, 0, 1, 3};

// The call that is tested: all rows or none, or those before the first without a number.
static uint32_t (*cast)(const struct doqallin_column *, uint8_t, uint8_t *, size_t, struct doqallin_fault *);

// Whether a cast of the column answers so, tells this of the mistake, and writes so many bytes, and no more.
static int casts_to(struct doqallin_column column, uint8_t to, size_t buffer_length, uint32_t status, size_t at, size_t place,
                    size_t written) {
    struct doqallin_fault fault = {77, 78};
    fresh();
    uint32_t answer = cast(&column, to, buffer, buffer_length, &fault);
    if (status == DOQALLIN_NONE && cast == doqallin_cast_front) written = place << to % 4;
    return answer == status && fault.column == at && fault.place == place && is_kept(buffer, written);
}

static void column_casts(void) {
    struct doqallin_column column = rows;
    CHECK(casts_to(rows, DOQALLIN_I32, 12, DOQALLIN_GIVEN, 77, 78, 12) && !memcmp(buffer, "\5\0\0\0\0\0\0\0\xfe\xff\xff\xff", 12));
    CHECK(casts_to(rows, DOQALLIN_I8, BUFFER, DOQALLIN_GIVEN, 77, 78, 3) && !memcmp(buffer, "\5\0\xfe", 3));
    CHECK(casts_to(rows, DOQALLIN_U64, BUFFER, DOQALLIN_NONE, 0, 2, 0));
    CHECK(casts_to(rows, DOQALLIN_I32, 11, DOQALLIN_BUFFER_TOO_SMALL, 77, 78, 0));
    // A buffer too small is told before a row without a number.
    CHECK(casts_to(rows, DOQALLIN_U64, 23, DOQALLIN_BUFFER_TOO_SMALL, 77, 78, 0));
    column.length = 2;
    CHECK(casts_to(column, DOQALLIN_U8, 2, DOQALLIN_GIVEN, 77, 78, 2) && !memcmp(buffer, "\5\0", 2));
    column.length = 0;
    CHECK(casts_to(column, DOQALLIN_U8, 0, DOQALLIN_GIVEN, 77, 78, 0));
    // Without rows an offset means nothing, and neither do buffers.
    column.offset = SIZE_MAX, column.values_length = 0;
    CHECK(casts_to(column, DOQALLIN_U8, 0, DOQALLIN_GIVEN, 77, 78, 0));
    column = rows;
    // Without a bitmap no row is null.
    column.length = 3, column.validity_length = 0;
    CHECK(casts_to(column, DOQALLIN_I8, BUFFER, DOQALLIN_GIVEN, 77, 78, 3) && !memcmp(buffer, "\5\xff\xfe", 3));
    CHECK(casts_to(column, DOQALLIN_U16, BUFFER, DOQALLIN_NONE, 0, 1, 0));
    CHECK(casts_to(rows, 8, BUFFER, DOQALLIN_UNKNOWN_KIND, 1, 0, 0));
    CHECK(casts_to(rows, 255, BUFFER, DOQALLIN_UNKNOWN_KIND, 1, 0, 0));
    column = rows, column.kind = 9;
    CHECK(casts_to(column, DOQALLIN_I32, BUFFER, DOQALLIN_UNKNOWN_KIND, 0, 0, 0));
    CHECK(casts_to(column, 8, BUFFER, DOQALLIN_UNKNOWN_KIND, 1, 0, 0));
    column = rows, column.offset = SIZE_MAX;
    CHECK(casts_to(column, DOQALLIN_I32, BUFFER, DOQALLIN_TOO_MANY_ROWS, 0, 0, 0));
    column.offset = SIZE_MAX - 3;
    CHECK(casts_to(column, DOQALLIN_I32, BUFFER, DOQALLIN_TOO_SHORT, 0, 0, 0));
    column.validity_length = 0;
    CHECK(casts_to(column, DOQALLIN_I32, BUFFER, DOQALLIN_TOO_SHORT, 0, 1, 0));
    column = rows, column.values_length = 7;
    CHECK(casts_to(column, DOQALLIN_I32, BUFFER, DOQALLIN_TOO_SHORT, 0, 1, 0));
    // The buffer is asked for once the buffers are long enough.
    CHECK(casts_to(column, DOQALLIN_I32, 0, DOQALLIN_TOO_SHORT, 0, 1, 0));
}

// The rows before the first without a number, and the buffer after them.
static void fronts(void) {
    CHECK(casts_to(rows, DOQALLIN_U64, BUFFER, DOQALLIN_NONE, 0, 2, 0) && !memcmp(buffer, "\5\0\0\0\0\0\0\0\0\0\0\0\0\0\0\0", 16));
    struct doqallin_column column = rows;
    column.validity_length = 0;
    CHECK(casts_to(column, DOQALLIN_U16, BUFFER, DOQALLIN_NONE, 0, 1, 0) && !memcmp(buffer, "\5\0", 2));
    column.offset = 0;
    CHECK(casts_to(column, DOQALLIN_U8, BUFFER, DOQALLIN_NONE, 0, 0, 0));
}

static void lower_bounds(void) {
    CHECK(doqallin_lower_bound_bytes(BYTES(""), 4) == 0);
    CHECK(doqallin_lower_bound_bytes(BYTES("apple"), 3) == 3);
    CHECK(doqallin_lower_bound_bytes(BYTES("apple"), SIZE_MAX) == 5);
    fresh();
    CHECK(doqallin_lower_bound_text(BYTES("a\xc3\xb1"), 2, &count) == DOQALLIN_GIVEN && count == 1);
    CHECK(doqallin_lower_bound_text(BYTES("a\xc3\xb1"), 3, &count) == DOQALLIN_GIVEN && count == 3);
    fresh();
    CHECK(doqallin_lower_bound_text(BYTES("a\xc3"), 1, &count) == DOQALLIN_NOT_UTF8 && count == 77);
}

static void upper_bounds(void) {
    fresh();
    CHECK(doqallin_upper_bound_bytes(BYTES("a\xff\xffz"), 3, buffer, BUFFER, &count) == DOQALLIN_GIVEN);
    CHECK(count == 3 && !memcmp(buffer, "b\0\0", 3) && is_kept(buffer, 3));
    fresh();
    CHECK(doqallin_upper_bound_bytes(BYTES("apple"), 5, buffer, 5, &count) == DOQALLIN_GIVEN && holds(buffer, count, "apple"));
    fresh();
    CHECK(doqallin_upper_bound_bytes(BYTES("\xff\xffz"), 2, buffer, BUFFER, &count) == DOQALLIN_NONE && count == 77 && is_kept(buffer, 0));
    CHECK(doqallin_upper_bound_bytes(BYTES("apple"), 3, buffer, 2, &count) == DOQALLIN_BUFFER_TOO_SMALL && count == 3 && is_kept(buffer, 0));
    CHECK(doqallin_upper_bound_bytes(BYTES(""), 0, buffer, 0, &count) == DOQALLIN_GIVEN && count == 0 && is_kept(buffer, 0));
    fresh();
    CHECK(doqallin_upper_bound_text(BYTES("a\xc3\xb1z"), 3, buffer, 3, &count) == DOQALLIN_GIVEN && holds(buffer, count, "a\xc3\xb2"));
    fresh();
    CHECK(doqallin_upper_bound_text(BYTES("\x7fz"), 1, buffer, BUFFER, &count) == DOQALLIN_NONE && count == 77 && is_kept(buffer, 0));
    CHECK(doqallin_upper_bound_text(BYTES("a\xff"), 1, buffer, BUFFER, &count) == DOQALLIN_NOT_UTF8 && count == 77 && is_kept(buffer, 0));
    CHECK(doqallin_upper_bound_text(BYTES("apple"), 3, buffer, 2, &count) == DOQALLIN_BUFFER_TOO_SMALL && count == 3 && is_kept(buffer, 0));
}

static void zones(void) {
    CHECK(doqallin_may_contain_bytes(BYTES("app"), BYTES("bao"), true, BYTES("banana")));
    CHECK(doqallin_may_contain_bytes(BYTES("app"), BYTES("bao"), true, BYTES("app")));
    CHECK(!doqallin_may_contain_bytes(BYTES("app"), BYTES("bao"), true, BYTES("ap")));
    CHECK(!doqallin_may_contain_bytes(BYTES("app"), BYTES("bao"), true, BYTES("bap")));
    CHECK(doqallin_may_contain_bytes(BYTES("app"), BYTES(""), false, BYTES("bap")));
    bool answer = true;
    CHECK(doqallin_may_contain_text(BYTES("app"), BYTES("bao"), true, BYTES("bap"), &answer) == DOQALLIN_GIVEN && !answer);
    CHECK(doqallin_may_contain_text(BYTES("app"), BYTES("bao"), true, BYTES("b"), &answer) == DOQALLIN_GIVEN && answer);
    CHECK(doqallin_may_contain_text(BYTES("app"), BYTES("\xff"), false, BYTES("b"), &answer) == DOQALLIN_GIVEN && answer);
    answer = true;
    CHECK(doqallin_may_contain_text(BYTES("app"), BYTES("\xff"), true, BYTES("a"), &answer) == DOQALLIN_NOT_UTF8 && answer);
    CHECK(doqallin_may_contain_text(BYTES("\xff"), BYTES("b"), true, BYTES("a"), &answer) == DOQALLIN_NOT_UTF8 && answer);
    CHECK(doqallin_may_contain_text(BYTES("app"), BYTES("b"), true, BYTES("\xc3"), &answer) == DOQALLIN_NOT_UTF8 && answer);
}

typedef uint32_t column_call(const uint8_t *, size_t, const uint64_t *, size_t, size_t, uint8_t *, size_t, uint8_t *, size_t,
                             struct doqallin_bound_lengths *);

static int nothing_written(void) { return lengths_kept() && is_kept(buffer, 0) && is_kept(other, 0); }

static void columns_of(column_call *call) {
    static const uint64_t offsets[] = {0, 4, 9, 12}, down[] = {0, 4, 3, 12}, past[] = {0, 4, 9, 13}, huge[] = {0, UINT64_MAX};
    const uint8_t *bytes = (const uint8_t *)"pearapplefig";
    fresh();
    CHECK(call(bytes, 12, offsets, 4, 2, buffer, 2, other, 2, &lengths) == DOQALLIN_GIVEN && lengths.has_upper);
    CHECK(holds(buffer, lengths.lower, "ap") && holds(other, lengths.upper, "pf"));
    fresh();
    CHECK(call(bytes, 12, offsets + 1, 3, 22, buffer, BUFFER, other, BUFFER, &lengths) == DOQALLIN_GIVEN && lengths.has_upper);
    CHECK(holds(buffer, lengths.lower, "apple") && holds(other, lengths.upper, "fig"));
    fresh();
    CHECK(call(bytes, 12, offsets, 1, 2, buffer, BUFFER, other, BUFFER, &lengths) == DOQALLIN_NONE && nothing_written());
    CHECK(call(bytes, 12, offsets, 0, 2, buffer, BUFFER, other, BUFFER, &lengths) == DOQALLIN_NONE && nothing_written());
    CHECK(call(bytes, 12, down, 4, 2, buffer, BUFFER, other, BUFFER, &lengths) == DOQALLIN_BAD_OFFSETS && nothing_written());
    CHECK(call(bytes, 12, past, 4, 2, buffer, BUFFER, other, BUFFER, &lengths) == DOQALLIN_BAD_OFFSETS && nothing_written());
    CHECK(call(bytes, 12, huge, 2, 2, buffer, BUFFER, other, BUFFER, &lengths) == DOQALLIN_BAD_OFFSETS && nothing_written());
    CHECK(call(bytes, 12, offsets, 4, 2, buffer, 1, other, 2, &lengths) == DOQALLIN_BUFFER_TOO_SMALL && is_kept(buffer, 0) && is_kept(other, 0));
    CHECK(lengths.lower == 2 && lengths.upper == 2 && lengths.has_upper);
    fresh();
    CHECK(call(bytes, 12, offsets, 4, 3, buffer, 3, other, 2, &lengths) == DOQALLIN_BUFFER_TOO_SMALL && is_kept(buffer, 0) && is_kept(other, 0));
    CHECK(lengths.lower == 3 && lengths.upper == 3 && lengths.has_upper);
}

static void columns(void) {
    static const uint64_t offsets[] = {0, 2, 5};
    columns_of(doqallin_column_bounds_bytes);
    columns_of(doqallin_column_bounds_text);
    fresh();
    CHECK(doqallin_column_bounds_bytes(BYTES("ab\xff\xff\xff"), offsets, 3, 2, buffer, BUFFER, other, BUFFER, &lengths) == DOQALLIN_GIVEN);
    CHECK(holds(buffer, lengths.lower, "ab") && !lengths.has_upper && lengths.upper == 0 && is_kept(other, 0));
    fresh();
    CHECK(doqallin_column_bounds_text(BYTES("ab\xff\xff\xff"), offsets, 3, 2, buffer, BUFFER, other, BUFFER, &lengths) == DOQALLIN_NOT_UTF8);
    CHECK(nothing_written());
    CHECK(doqallin_column_bounds_text(BYTES("ab\x7f\x7f\x7f"), offsets, 3, 2, buffer, BUFFER, other, BUFFER, &lengths) == DOQALLIN_GIVEN);
    CHECK(holds(buffer, lengths.lower, "ab") && !lengths.has_upper && lengths.upper == 0 && is_kept(other, 0));
    fresh();
    CHECK(doqallin_column_bounds_bytes(BYTES("ab\xff\xff\xff"), offsets, 3, 2, buffer, 1, other, BUFFER, &lengths) == DOQALLIN_BUFFER_TOO_SMALL);
    CHECK(lengths.lower == 2 && !lengths.has_upper && lengths.upper == 0 && is_kept(buffer, 0) && is_kept(other, 0));
    // A value is tested whole, and not as far as its bound.
    static const uint64_t all[] = {0, 3}, least[] = {0, 3, 4};
    fresh();
    CHECK(doqallin_column_bounds_text(BYTES("ab\xff"), all, 2, 2, buffer, BUFFER, other, BUFFER, &lengths) == DOQALLIN_NOT_UTF8);
    CHECK(doqallin_column_bounds_text(BYTES("ab\xff" "b"), least, 3, 2, buffer, BUFFER, other, BUFFER, &lengths) == DOQALLIN_NOT_UTF8);
    CHECK(nothing_written());
    // One offset is no value, wherever it is.
    static const uint64_t alone[] = {99};
    CHECK(doqallin_column_bounds_bytes(BYTES("ab"), alone, 1, 2, buffer, BUFFER, other, BUFFER, &lengths) == DOQALLIN_NONE && nothing_written());
}

static struct doqallin_fault fault;

static int at_fault(size_t column, size_t place) { return fault.column == column && fault.place == place; }

// Nothing is written but an error, if there is one.
static int no_keys(const uint64_t *starts) { return count == 77 && is_kept(buffer, 0) && starts[0] == 9 && starts[2] == 9; }

static void row_keys(void) {
    // The numbers -1 and 7 as i16, and "a" and a null after a first row that is passed over.
    static const uint8_t numbers[] = {0xff, 0xff, 7, 0}, valid[] = {3}, ends[] = {0, 0, 0, 0, 1, 0, 0, 0, 2, 0, 0, 0, 2, 0, 0, 0};
    struct doqallin_column two[] = {
        {DOQALLIN_I16, 0, 0, valid, 0, numbers, 4, ends, 0, 0, 2},
        {DOQALLIN_UTF8, 0, 0, valid, 1, (const uint8_t *)"xa", 2, ends, 16, 1, 2},
    };
    uint64_t starts[3] = {9, 9, 9};
    fresh();
    fault = (struct doqallin_fault){77, 78};
    CHECK(doqallin_row_keys(two, 2, BYTES("\0\1"), starts, 3, buffer, BUFFER, &count, &fault) == DOQALLIN_GIVEN && at_fault(77, 78));
    CHECK(count == 8 && is_kept(buffer, 8) && !memcmp(buffer, "\x0b\xfe\xea\x9e\xff\x0d\x07\xff", 8));
    CHECK(starts[0] == 0 && starts[1] == 5 && starts[2] == 8);
    fresh();
    starts[0] = starts[1] = starts[2] = 9;
    CHECK(doqallin_row_keys(two, 2, BYTES("\0\1"), starts, 3, buffer, 7, &count, &fault) == DOQALLIN_BUFFER_TOO_SMALL && count == 8);
    count = 77;
    CHECK(no_keys(starts) && at_fault(77, 78));
    CHECK(doqallin_row_keys(two, 2, BYTES("\0\1"), starts, 2, buffer, BUFFER, &count, &fault) == DOQALLIN_BUFFER_TOO_SMALL && count == 8);
    count = 77;
    CHECK(no_keys(starts) && at_fault(77, 78));
    CHECK(doqallin_row_keys(two, 2, BYTES("\0"), starts, 3, buffer, BUFFER, &count, &fault) == DOQALLIN_WRONG_LENGTH && at_fault(2, 0));
    CHECK(doqallin_row_keys(two, 2, BYTES("\0\4"), starts, 3, buffer, BUFFER, &count, &fault) == DOQALLIN_BAD_OPTIONS && at_fault(1, 0));
    two[1].length = 1;
    CHECK(doqallin_row_keys(two, 2, BYTES("\0\1"), starts, 3, buffer, BUFFER, &count, &fault) == DOQALLIN_WRONG_LENGTH && at_fault(1, 0));
    two[1].length = 2;
    two[1].offsets_length = 15;
    CHECK(doqallin_row_keys(two, 2, BYTES("\0\1"), starts, 3, buffer, BUFFER, &count, &fault) == DOQALLIN_TOO_SHORT && at_fault(1, 2));
    two[1].offset = SIZE_MAX;
    CHECK(doqallin_row_keys(two, 2, BYTES("\0\1"), starts, 3, buffer, BUFFER, &count, &fault) == DOQALLIN_TOO_MANY_ROWS && at_fault(1, 0));
    two[1] = (struct doqallin_column){DOQALLIN_UTF8, 0, 0, valid, 0, (const uint8_t *)"x\xff", 2, ends, 16, 0, 2};
    CHECK(doqallin_row_keys(two, 2, BYTES("\0\1"), starts, 3, buffer, BUFFER, &count, &fault) == DOQALLIN_NOT_UTF8 && at_fault(1, 1));
    two[1].values_length = 1;
    CHECK(doqallin_row_keys(two, 2, BYTES("\0\1"), starts, 3, buffer, BUFFER, &count, &fault) == DOQALLIN_BAD_OFFSETS && at_fault(1, 1));
    two[0].kind = 32;
    CHECK(doqallin_row_keys(two, 2, BYTES("\0\1"), starts, 3, buffer, BUFFER, &count, &fault) == DOQALLIN_UNKNOWN_KIND && at_fault(0, 0));
    CHECK(no_keys(starts));
    CHECK(doqallin_row_keys(two, 0, BYTES(""), starts, 3, buffer, BUFFER, &count, &fault) == DOQALLIN_GIVEN && count == 0 && starts[0] == 0);
    // Nulls need no memory, and are not counted one by one.
    two[0] = (struct doqallin_column){DOQALLIN_NULL, 0, 0, valid, 0, numbers, 0, ends, 0, 0, SIZE_MAX};
    CHECK(doqallin_row_keys(two, 1, BYTES("\2"), starts, 3, buffer, BUFFER, &count, &fault) == DOQALLIN_BUFFER_TOO_SMALL && count == SIZE_MAX);
}

// The columns of keys of these kinds, the column `which` into buffers of `values` and `starts` bytes and offsets, and any other into
// buffers that suffice; and that nothing but an error is written.
static uint64_t starts[3], spare_starts[3];
static uint8_t spare_bits[BUFFER], spare[BUFFER];
static struct doqallin_column_buffers made[2];

static uint32_t back_to(size_t many, const char *kinds, const char *options, const uint64_t *offsets, size_t ends, const char *keys, size_t length, size_t which, size_t bits, size_t values, size_t places) {
    fresh();
    starts[0] = starts[1] = starts[2] = 9;
    made[1 - which] = (struct doqallin_column_buffers){spare_bits, BUFFER, spare, BUFFER, spare_starts, 3, 77};
    made[which] = (struct doqallin_column_buffers){other, bits, buffer, values, starts, places, 77};
    uint32_t status = doqallin_columns_of_row_keys((const uint8_t *)kinds, strlen(kinds), (const uint8_t *)options, strlen(options), offsets, ends, (const uint8_t *)keys, length, made, many, &fault);
    count = made[which].count;
    return status;
}

static uint32_t back(const char *kinds, const char *options, const uint64_t *offsets, size_t ends, const char *keys, size_t length, size_t which, size_t bits, size_t values, size_t places) {
    return back_to(strlen(kinds), kinds, options, offsets, ends, keys, length, which, bits, values, places);
}

static int no_column(void) { return count == 77 && is_kept(buffer, 0) && is_kept(other, 0) && starts[0] == 9 && starts[1] == 9 && starts[2] == 9; }

static void columns_of_keys(void) {
    // The keys of the rows (-1, "a") and (7, null), as above: of an i16, and of a string by greater ones first.
    static const uint64_t offsets[] = {0, 5, 8}, down[] = {0, 5, 4}, past[] = {0, 5, 9}, short_of[] = {0, 5, 7};
    static const char keys[] = "\x0b\xfe\xea\x9e\xff\x0d\x07\xff", no_text[] = "\x0b\xfe\xea\x7f\xff\x0d\x07\xff", more[] = "\x0b\xfe\xea\x9e\xff\x0d\x07\xff\x0d";
    fault = (struct doqallin_fault){77, 78};
    CHECK(back("\5\x0a", "\4\1", offsets, 3, keys, 8, 0, BUFFER, BUFFER, 3) == DOQALLIN_BAD_OPTIONS && at_fault(0, 0) && no_column());
    fault = (struct doqallin_fault){77, 78};
    CHECK(back("\5\x0a", "\2\1", offsets, 3, keys, 8, 0, BUFFER, BUFFER, 0) == DOQALLIN_GIVEN && at_fault(77, 78));
    CHECK(count == 4 && !memcmp(buffer, "\xff\xff\7\0", 4) && is_kept(buffer, 4) && other[0] == 3 && is_kept(other, 1) && starts[0] == 9);
    CHECK(made[1].count == 1 && spare[0] == 'a' && spare_bits[0] == 1 && spare_starts[0] == 0 && spare_starts[1] == 1 && spare_starts[2] == 1);
    for (int kind = 9; kind <= 10; kind++) {
        const char kinds[] = {5, (char)kind, 0};
        CHECK(back(kinds, "\2\1", offsets, 3, keys, 8, 1, 1, BUFFER, 3) == DOQALLIN_GIVEN && at_fault(77, 78));
        CHECK(count == 1 && holds(buffer, count, "a") && other[0] == 1 && is_kept(other, 1));
        CHECK(starts[0] == 0 && starts[1] == 1 && starts[2] == 1);
    }
    CHECK(back("\5\x0a", "\2\1", offsets, 3, keys, 8, 0, 1, 3, 0) == DOQALLIN_BUFFER_TOO_SMALL && count == 4 && made[1].count == 1 && at_fault(77, 78));
    count = 77;
    CHECK(no_column());
    CHECK(back("\5\x0a", "\2\1", offsets, 3, keys, 8, 0, 0, 4, 0) == DOQALLIN_BUFFER_TOO_SMALL && count == 4);
    CHECK(back("\5\x0a", "\2\1", offsets, 3, keys, 8, 1, 1, 1, 2) == DOQALLIN_BUFFER_TOO_SMALL && count == 1);
    CHECK(back("\5\x0a", "\2\1", offsets, 3, keys, 8, 1, 1, 0, 3) == DOQALLIN_BUFFER_TOO_SMALL && count == 1);
    CHECK(back("\5\x0a", "\2", offsets, 3, keys, 8, 0, 1, 4, 0) == DOQALLIN_WRONG_LENGTH && at_fault(2, 0) && no_column());
    CHECK(back_to(1, "\5\x0a", "\2\1", offsets, 3, keys, 8, 0, 1, 4, 0) == DOQALLIN_WRONG_LENGTH && at_fault(2, 0) && no_column());
    CHECK(back("\5\x20", "\2\1", offsets, 3, keys, 8, 0, 1, 4, 0) == DOQALLIN_UNKNOWN_KIND && at_fault(1, 0) && no_column());
    CHECK(back("\5\x20", "\2\4", offsets, 3, keys, 8, 0, 1, 4, 0) == DOQALLIN_BAD_OPTIONS && at_fault(1, 0) && no_column());
    CHECK(back("\5\x0a", "\2\1", down, 3, keys, 8, 0, 1, 4, 0) == DOQALLIN_BAD_OFFSETS && at_fault(0, 1) && no_column());
    CHECK(back("\5\x0a", "\2\1", past, 3, keys, 8, 0, 1, 4, 0) == DOQALLIN_BAD_OFFSETS && at_fault(0, 1) && no_column());
    // A byte that no text has, the end of a key that is too short, one byte after a key, and a number that no i8 is.
    CHECK(back("\5\x0a", "\2\1", offsets, 3, no_text, 8, 0, 1, 4, 0) == DOQALLIN_BAD_BYTES && at_fault(0, 3) && no_column());
    CHECK(back("\5\x0a", "\2\1", short_of, 3, keys, 8, 0, 1, 4, 0) == DOQALLIN_BAD_BYTES && at_fault(0, 7) && no_column());
    CHECK(back("\5\x0a", "\2\1", past, 3, more, 9, 1, 1, BUFFER, 3) == DOQALLIN_BAD_BYTES && at_fault(0, 8) && no_column());
    CHECK(back("\4", "\2", offsets, 2, "\x0e\1\0\0\0", 5, 0, 1, 4, 0) == DOQALLIN_BAD_BYTES && at_fault(0, 0) && no_column());
    CHECK(back("\4", "\2", offsets, 2, "\x0d\x80\0\0\0", 5, 0, 1, 4, 0) == DOQALLIN_BAD_BYTES && at_fault(0, 1) && no_column());
    // No rows, and only nulls.
    fault = (struct doqallin_fault){77, 78};
    CHECK(back("\5\x0a", "\2\1", offsets, 1, keys, 8, 0, 0, 0, 0) == DOQALLIN_GIVEN && count == 0 && is_kept(other, 0));
    CHECK(back("\x0a", "\2", offsets, 0, keys, 0, 0, 0, 0, 1) == DOQALLIN_GIVEN && count == 0 && starts[0] == 0 && starts[1] == 9);
    CHECK(back("\x0d", "\2", short_of + 3, 0, keys, 0, 0, 0, 0, 0) == DOQALLIN_GIVEN && count == 0 && at_fault(77, 78));
}

// The statistics of 2, null and 5 as i32, of two such pieces, and of "apple" and "banana" at three bytes.
static const uint8_t three[] = "\1\x1f\0\0\0\0\0\0\0\3\0\0\0\0\0\0\0\1\x0d\2\x0d\5";
static const uint8_t six[] = "\1\x1f\0\0\0\0\0\0\0\6\0\0\0\0\0\0\0\2\x0d\2\x0d\5";
static const uint8_t fruits[] = "\1\x0b\0\0\0\0\0\0\0\2\0\0\0\0\0\0\0\0\x15" "app\0\x15" "bao";
// As many rows as 64 bits count, and nothing else.
static const uint8_t most[] = "\1\0\xff\xff\xff\xff\xff\xff\xff\xff";

static int nothing_given(void) { return count == 77 && is_kept(buffer, 0); }

static void column_statistics(void) {
    static const uint8_t numbers[] = {2, 0, 0, 0, 9, 9, 9, 9, 5, 0, 0, 0}, valid[] = {5};
    static const uint8_t ends[] = {0, 0, 0, 0, 5, 0, 0, 0, 11, 0, 0, 0};
    struct doqallin_column ints = {DOQALLIN_I32, 0, 0, valid, 1, numbers, 12, ends, 0, 0, 3};
    struct doqallin_column strings = {DOQALLIN_UTF8, 0, 0, valid, 0, (const uint8_t *)"applebanana", 11, ends, 12, 0, 2};
    fresh();
    fault = (struct doqallin_fault){77, 78};
    CHECK(doqallin_column_statistics(&ints, 3, buffer, BUFFER, &count, &fault) == DOQALLIN_GIVEN && at_fault(77, 78));
    CHECK(count == 22 && is_kept(buffer, 22) && !memcmp(buffer, three, 22));
    fresh();
    CHECK(doqallin_column_statistics(&ints, 3, buffer, 22, &count, &fault) == DOQALLIN_GIVEN && count == 22 && !memcmp(buffer, three, 22));
    fresh();
    CHECK(doqallin_column_statistics(&ints, 3, buffer, 21, &count, &fault) == DOQALLIN_BUFFER_TOO_SMALL && count == 22);
    CHECK(is_kept(buffer, 0) && at_fault(77, 78));
    fresh();
    CHECK(doqallin_column_statistics(&strings, 3, buffer, BUFFER, &count, &fault) == DOQALLIN_GIVEN && at_fault(77, 78));
    CHECK(count == 28 && is_kept(buffer, 28) && !memcmp(buffer, fruits, 28));
    // The rows from the second on: a null and 5.
    ints.offset = 1, ints.length = 2;
    fresh();
    CHECK(doqallin_column_statistics(&ints, 3, buffer, BUFFER, &count, &fault) == DOQALLIN_GIVEN && count == 22);
    CHECK(!memcmp(buffer, "\1\x1f\0\0\0\0\0\0\0\2\0\0\0\0\0\0\0\1\x0d\5\x0d\5", 22));
    ints.offset = 0, ints.length = 0;
    fresh();
    CHECK(doqallin_column_statistics(&ints, 3, buffer, BUFFER, &count, &fault) == DOQALLIN_GIVEN && count == 18);
    CHECK(!memcmp(buffer, "\1\1\0\0\0\0\0\0\0\0\0\0\0\0\0\0\0\0", 18) && is_kept(buffer, 18));
    fresh();
    strings.values_length = 10;
    CHECK(doqallin_column_statistics(&strings, 3, buffer, BUFFER, &count, &fault) == DOQALLIN_BAD_OFFSETS && at_fault(0, 1));
    // Strings of later rows are not looked at.
    strings.values = (const uint8_t *)"apple\xff\xff\xff\xff\xff\xff", strings.values_length = 11, strings.length = 1;
    CHECK(doqallin_column_statistics(&strings, 3, buffer, BUFFER, &count, &fault) == DOQALLIN_GIVEN && count == 28);
    fresh();
    strings.values = (const uint8_t *)"appl\xff" "banana";
    CHECK(doqallin_column_statistics(&strings, 3, buffer, BUFFER, &count, &fault) == DOQALLIN_NOT_UTF8 && at_fault(0, 0));
    ints.length = 3, ints.values_length = 11;
    CHECK(doqallin_column_statistics(&ints, 3, buffer, BUFFER, &count, &fault) == DOQALLIN_TOO_SHORT && at_fault(0, 1));
    ints.offset = SIZE_MAX;
    CHECK(doqallin_column_statistics(&ints, 3, buffer, BUFFER, &count, &fault) == DOQALLIN_TOO_MANY_ROWS && at_fault(0, 0));
    ints.kind = 32;
    CHECK(doqallin_column_statistics(&ints, 3, buffer, BUFFER, &count, &fault) == DOQALLIN_UNKNOWN_KIND && at_fault(0, 0));
    CHECK(nothing_given());
}

static void merged_statistics(void) {
    fresh();
    fault = (struct doqallin_fault){77, 78};
    CHECK(doqallin_merge_statistics(DOQALLIN_I32, three, 22, three, 22, buffer, BUFFER, &count, &fault) == DOQALLIN_GIVEN && at_fault(77, 78));
    CHECK(count == 22 && is_kept(buffer, 22) && !memcmp(buffer, six, 22));
    fresh();
    CHECK(doqallin_merge_statistics(DOQALLIN_I32, three, 22, three, 22, buffer, 0, &count, &fault) == DOQALLIN_BUFFER_TOO_SMALL && count == 22);
    CHECK(is_kept(buffer, 0) && at_fault(77, 78));
    fresh();
    CHECK(doqallin_merge_statistics(DOQALLIN_LARGE_UTF8, fruits, 28, (const uint8_t *)"\1\1\0\0\0\0\0\0\0\1\0\0\0\0\0\0\0\1", 18, buffer, BUFFER, &count, &fault) == DOQALLIN_GIVEN);
    CHECK(count == 28 && buffer[9] == 3 && buffer[17] == 1 && !memcmp(buffer + 18, fruits + 18, 10));
    fresh();
    CHECK(doqallin_merge_statistics(DOQALLIN_I32, three, 22, three, 21, buffer, BUFFER, &count, &fault) == DOQALLIN_BAD_BYTES && at_fault(1, 21));
    CHECK(doqallin_merge_statistics(DOQALLIN_I32, six + 1, 21, three, 21, buffer, BUFFER, &count, &fault) == DOQALLIN_BAD_BYTES && at_fault(0, 0));
    CHECK(doqallin_merge_statistics(DOQALLIN_UTF8, three, 22, three, 22, buffer, BUFFER, &count, &fault) == DOQALLIN_BAD_BYTES && at_fault(0, 18));
    CHECK(doqallin_merge_statistics(DOQALLIN_I32, most, 10, three, 22, buffer, BUFFER, &count, &fault) == DOQALLIN_TOO_MANY_ROWS && at_fault(0, 0));
    // Bytes that are no encoding are told before rows that are too many.
    CHECK(doqallin_merge_statistics(DOQALLIN_I32, most, 10, three, 1, buffer, BUFFER, &count, &fault) == DOQALLIN_BAD_BYTES && at_fault(1, 1));
    CHECK(doqallin_merge_statistics(32, three, 22, three, 22, buffer, BUFFER, &count, &fault) == DOQALLIN_UNKNOWN_KIND && at_fault(0, 0));
    CHECK(nothing_given());
}

static struct doqallin_statistics_parts parts;

// Whether the statistics have so many rows and nulls (-1: that is not known), and whether each bound is there (1), and exact (2).
static int tell(uint64_t rows, int nulls, int lower, int upper) {
    return parts.row_count == rows && parts.null_count == (uint64_t)(nulls < 0 ? 0 : nulls) && parts.has_null_count == (nulls >= 0)
           && parts.has_lower == (lower > 0) && parts.lower_is_exact == (lower == 2) && parts.has_upper == (upper > 0)
           && parts.upper_is_exact == (upper == 2) && (lower || !parts.lower_length) && (upper || !parts.upper_length);
}

static int bounds_are(const char *lower, size_t lower_length, const char *upper, size_t upper_length) {
    return parts.lower_length == lower_length && !memcmp(buffer, lower, lower_length) && is_kept(buffer, lower_length)
           && parts.upper_length == upper_length && !memcmp(other, upper, upper_length) && is_kept(other, upper_length);
}

static uint32_t read_as(uint8_t kind, const uint8_t *bytes, size_t length, size_t lower_buffer, size_t upper_buffer) {
    fresh();
    memset(&parts, 1, sizeof parts);
    fault = (struct doqallin_fault){77, 78};
    return doqallin_read_statistics(kind, bytes, length, buffer, lower_buffer, other, upper_buffer, &parts, &fault);
}

static int none_read(size_t place) {
    return at_fault(0, place) && is_kept(buffer, 0) && is_kept(other, 0) && parts.row_count == 0x0101010101010101 && parts.has_lower;
}

static void read_statistics(void) {
    CHECK(read_as(DOQALLIN_I32, three, 22, BUFFER, BUFFER) == DOQALLIN_GIVEN && at_fault(77, 78) && tell(3, 1, 2, 2));
    CHECK(bounds_are("\2\0\0\0", 4, "\5\0\0\0", 4));
    CHECK(read_as(DOQALLIN_U8, three, 22, 1, 1) == DOQALLIN_GIVEN && tell(3, 1, 2, 2) && bounds_are("\2", 1, "\5", 1));
    CHECK(read_as(DOQALLIN_I64, three, 22, 8, 8) == DOQALLIN_GIVEN && bounds_are("\2\0\0\0\0\0\0\0", 8, "\5\0\0\0\0\0\0\0", 8));
    CHECK(read_as(DOQALLIN_I16, BYTES("\1\x0e\0\0\0\0\0\0\0\2\x0a\xfe\xff\x0c"), BUFFER, BUFFER) == DOQALLIN_GIVEN && tell(2, -1, 2, 1));
    CHECK(bounds_are("\0\xff", 2, "\0\0", 2));
    CHECK(read_as(DOQALLIN_I32, three, 22, 3, BUFFER) == DOQALLIN_BUFFER_TOO_SMALL && at_fault(77, 78) && tell(3, 1, 2, 2));
    CHECK(parts.lower_length == 4 && parts.upper_length == 4 && is_kept(buffer, 0) && is_kept(other, 0));
    CHECK(read_as(DOQALLIN_I32, three, 22, 4, 3) == DOQALLIN_BUFFER_TOO_SMALL && is_kept(buffer, 0) && is_kept(other, 0));
    CHECK(read_as(DOQALLIN_UTF8, fruits, 28, BUFFER, BUFFER) == DOQALLIN_GIVEN && tell(2, 0, 1, 1) && bounds_are("app", 3, "bao", 3));
    CHECK(read_as(DOQALLIN_LARGE_UTF8, fruits, 28, 3, 3) == DOQALLIN_GIVEN && bounds_are("app", 3, "bao", 3));
    CHECK(read_as(DOQALLIN_BINARY, BYTES("\1\7\0\0\0\0\0\0\0\1\0\0\0\0\0\0\0\0\x16\1\1\0"), BUFFER, BUFFER) == DOQALLIN_GIVEN);
    CHECK(tell(1, 0, 2, 0) && bounds_are("\0", 1, "", 0));
    CHECK(read_as(DOQALLIN_BOOL, BYTES("\1\x1f\0\0\0\0\0\0\0\2\0\0\0\0\0\0\0\0\2\3"), BUFFER, BUFFER) == DOQALLIN_GIVEN);
    CHECK(tell(2, 0, 2, 2) && bounds_are("\0", 1, "\1", 1));
    CHECK(read_as(DOQALLIN_NULL, most, 10, 0, 0) == DOQALLIN_GIVEN && tell(UINT64_MAX, -1, 0, 0) && bounds_are("", 0, "", 0));
    // A bound that is null is none: it may come from anywhere.
    CHECK(read_as(DOQALLIN_I8, BYTES("\1\x0e\0\0\0\0\0\0\0\2\1\x0d\5"), BUFFER, BUFFER) == DOQALLIN_GIVEN && tell(2, -1, 0, 1));
    CHECK(bounds_are("", 0, "\5", 1));
    CHECK(read_as(DOQALLIN_UTF8, three, 22, BUFFER, BUFFER) == DOQALLIN_BAD_BYTES && none_read(18));
    CHECK(read_as(DOQALLIN_I32, three, 21, BUFFER, BUFFER) == DOQALLIN_BAD_BYTES && none_read(21));
    CHECK(read_as(DOQALLIN_I32, three, 23, BUFFER, BUFFER) == DOQALLIN_BAD_BYTES && none_read(22));
    CHECK(read_as(DOQALLIN_I32, three, 0, BUFFER, BUFFER) == DOQALLIN_BAD_BYTES && none_read(0));
    CHECK(read_as(DOQALLIN_I8, BYTES("\1\2\0\0\0\0\0\0\0\1\x0d\x80"), BUFFER, BUFFER) == DOQALLIN_BAD_BYTES && none_read(11));
    CHECK(read_as(32, three, 22, BUFFER, BUFFER) == DOQALLIN_UNKNOWN_KIND && none_read(0));
}

// A filter over n, an i16, and s, a string; and its encoding.
static const struct doqallin_named_kind schema[] = {{(const uint8_t *)"n", 1, DOQALLIN_I16, 0, 0}, {(const uint8_t *)"s", 1, DOQALLIN_UTF8, 0, 0}};
static struct doqallin_mistake mistake;
static uint8_t form[64];
static size_t form_length;
static const struct doqallin_column no_columns[1];

static int at_mistake(size_t place, uint32_t expected) { return mistake.place == place && mistake.expected == expected; }

static uint32_t prepare(const char *words, size_t columns) {
    fresh();
    mistake = (struct doqallin_mistake){77, 78};
    return doqallin_prepare_filter((const uint8_t *)words, strlen(words), schema, columns, 256, buffer, BUFFER, &count, &mistake);
}

static void prepared_filters(void) {
    static const uint8_t above_five[] = {1, 0, 0, 0, 0, 0, 0, 0, 1, 21, 5, 0, 0, 0, 0, 0, 0, 0, 0, 5, 13, 5};
    CHECK(prepare("n > 5", 1) == DOQALLIN_GIVEN && count == 22 && !memcmp(buffer, above_five, 22) && is_kept(buffer, 22) && at_mistake(77, 78));
    CHECK(doqallin_prepare_filter(BYTES("n > 5"), schema, 1, 256, other, 21, &count, &mistake) == DOQALLIN_BUFFER_TOO_SMALL && count == 22);
    CHECK(is_kept(other, 0) && at_mistake(77, 78));
    CHECK(prepare("n > 'a'", 2) == DOQALLIN_BAD_FILTER && at_mistake(4, DOQALLIN_TYPES_DIFFER) && count == 77 && is_kept(buffer, 0));
    CHECK(prepare("n > ", 2) == DOQALLIN_BAD_FILTER && at_mistake(4, DOQALLIN_EXPECTED_LITERAL));
    CHECK(prepare("n is not", 2) == DOQALLIN_BAD_FILTER && at_mistake(8, DOQALLIN_EXPECTED_NULL));
    CHECK(prepare("n > 5 or t = 1", 2) == DOQALLIN_BAD_FILTER && at_mistake(9, DOQALLIN_NO_COLUMN));
    CHECK(prepare("n > 1e20", 2) == DOQALLIN_BAD_FILTER && at_mistake(4, DOQALLIN_NUMBER_TOO_LONG));
    CHECK(prepare("n > 5 'a", 2) == DOQALLIN_BAD_FILTER && at_mistake(6, DOQALLIN_BAD_TEXT));
    CHECK(prepare("n > 5 n", 2) == DOQALLIN_BAD_FILTER && at_mistake(6, DOQALLIN_EXPECTED_END));
    CHECK(prepare("s = '\xff'", 2) == DOQALLIN_NOT_UTF8 && at_mistake(2, 0) && count == 77 && is_kept(buffer, 0));
    struct doqallin_named_kind wrong[] = {schema[0], {(const uint8_t *)"\xff", 1, DOQALLIN_BOOL, 0, 0}};
    CHECK(doqallin_prepare_filter(BYTES("\xff"), wrong, 2, 256, buffer, BUFFER, &count, &mistake) == DOQALLIN_NOT_UTF8 && at_mistake(1, 0));
    wrong[0].kind = 32;
    CHECK(doqallin_prepare_filter(BYTES("\xff"), wrong, 2, 256, buffer, BUFFER, &count, &mistake) == DOQALLIN_UNKNOWN_KIND && at_mistake(0, 0));
    // 256 levels are read. A number that the type lacks takes two more in the encoding.
    char deep[256 * 4 + 12];
    for (int i = 0; i < 256; i++) memcpy(deep + 4 * i, "not ", 4);
    memcpy(deep + 1024, "n < 99999", 10);
    CHECK(prepare(deep, 1) == DOQALLIN_BUFFER_TOO_SMALL && count == 10 + 256 + 1 + 1 + 9 + 1);
    memcpy(deep + 1024, "not true", 9);
    CHECK(prepare(deep, 1) == DOQALLIN_BAD_FILTER && at_mistake(1028, DOQALLIN_TOO_DEEP));
    CHECK(prepare("true", 0) == DOQALLIN_GIVEN && count == 10 && buffer[9] == 2 && is_kept(buffer, 10));
    // With one level less the same words nest too deep.
    CHECK(doqallin_prepare_filter(BYTES("not (not true)"), schema, 0, 3, buffer, BUFFER, &count, &mistake) == DOQALLIN_GIVEN && count == 12);
    CHECK(doqallin_prepare_filter(BYTES("not (not true)"), schema, 0, 2, buffer, BUFFER, &count, &mistake) == DOQALLIN_BAD_FILTER && at_mistake(9, DOQALLIN_TOO_DEEP));
}

static void filter_rows(void) {
    // n is 3, a null, 7 and 9; s is "ab", "", "b" and "abc".
    static const uint8_t numbers[] = {3, 0, 7, 0, 7, 0, 9, 0}, valid[] = {13}, ends[] = {0, 0, 0, 0, 2, 0, 0, 0, 2, 0, 0, 0, 3, 0, 0, 0, 6, 0, 0, 0};
    struct doqallin_column two[] = {
        {DOQALLIN_I16, 0, 0, valid, 1, numbers, 8, ends, 0, 0, 4},
        {DOQALLIN_UTF8, 0, 0, valid, 0, (const uint8_t *)"abbabc", 6, ends, 20, 0, 4},
    };
    CHECK(prepare("n > 5 and s like 'a%'", 2) == DOQALLIN_BUFFER_TOO_SMALL && count < sizeof form);
    CHECK(doqallin_prepare_filter(BYTES("n > 5 and s like 'a%'"), schema, 2, 256, form, sizeof form, &form_length, &mistake) == DOQALLIN_GIVEN);
    fault = (struct doqallin_fault){77, 78};
    fresh();
    CHECK(doqallin_filter_mask(form, form_length, two, 2, 4, 32, buffer, 1, &fault) == DOQALLIN_GIVEN && holds(buffer, 1, "\x08") && at_fault(77, 78));
    CHECK(doqallin_filter_mask(form, form_length, two, 2, 4, 32, other, 0, &fault) == DOQALLIN_BUFFER_TOO_SMALL && is_kept(other, 0) && at_fault(77, 78));
    CHECK(doqallin_filter_mask(form, form_length, two, 2, 4, 1, buffer, 1, &fault) == DOQALLIN_GIVEN && holds(buffer, 1, "\x08"));
    CHECK(doqallin_filter_mask(form, form_length - 1, two, 2, 4, 32, other, 1, &fault) == DOQALLIN_BAD_BYTES && at_fault(2, form_length - 1));
    CHECK(doqallin_filter_mask(form, form_length, two, 1, 4, 32, other, 1, &fault) == DOQALLIN_WRONG_LENGTH && at_fault(1, 0));
    two[0].kind = DOQALLIN_U16;
    CHECK(doqallin_filter_mask(form, form_length, two, 2, 4, 32, other, 1, &fault) == DOQALLIN_UNKNOWN_KIND && at_fault(0, 1));
    two[0].kind = 32;
    CHECK(doqallin_filter_mask(form, form_length, two, 2, 4, 32, other, 1, &fault) == DOQALLIN_UNKNOWN_KIND && at_fault(0, 0));
    two[0].kind = DOQALLIN_I16;
    CHECK(doqallin_filter_mask(form, form_length, two, 2, 5, 32, other, 1, &fault) == DOQALLIN_WRONG_LENGTH && at_fault(0, 0));
    two[1].length = 3;
    CHECK(doqallin_filter_mask(form, form_length, two, 2, 4, 32, other, 1, &fault) == DOQALLIN_WRONG_LENGTH && at_fault(1, 0));
    two[1].offset = 2;
    CHECK(doqallin_filter_mask(form, form_length, two, 2, 4, 32, other, 1, &fault) == DOQALLIN_TOO_SHORT && at_fault(1, 2));
    CHECK(is_kept(other, 0));
    // The rows from the third on, of which there are two.
    two[0].offset = two[1].offset = 2;
    two[0].length = two[1].length = 2;
    CHECK(doqallin_filter_mask(form, form_length, two, 2, 2, 32, buffer, 1, &fault) == DOQALLIN_GIVEN && holds(buffer, 1, "\x02"));
    two[0].length = two[1].length = 0;
    CHECK(doqallin_filter_mask(form, form_length, two, 2, 0, 32, other, 0, &fault) == DOQALLIN_GIVEN);
}

// Of no columns the caller says how many rows there are. Of words that nest n deep an encoding may nest 2 * n + 5 deep.
static void filter_of_no_columns(void) {
    CHECK(doqallin_prepare_filter(BYTES("true"), schema, 0, 0, form, sizeof form, &form_length, &mistake) == DOQALLIN_GIVEN);
    fresh();
    CHECK(doqallin_filter_mask(form, form_length, no_columns, 0, 10, 0, buffer, 2, &fault) == DOQALLIN_GIVEN && holds(buffer, 2, "\xff\x03"));
    CHECK(doqallin_filter_mask(form, form_length, no_columns, 0, 0, 0, other, 0, &fault) == DOQALLIN_GIVEN && is_kept(other, 0));
    CHECK(doqallin_filter_mask(form, form_length, no_columns, 0, 17, 0, other, 2, &fault) == DOQALLIN_BUFFER_TOO_SMALL && is_kept(other, 0));
    CHECK(doqallin_filter_mask(form, form_length, no_columns, 0, SIZE_MAX, 0, other, 2, &fault) == DOQALLIN_BUFFER_TOO_SMALL && is_kept(other, 0));
    CHECK(doqallin_prepare_filter(BYTES("not not not not not not false"), schema, 0, 6, form, sizeof form, &form_length, &mistake) == DOQALLIN_GIVEN);
    fresh();
    CHECK(doqallin_filter_mask(form, form_length, no_columns, 0, 3, 1, buffer, 1, &fault) == DOQALLIN_GIVEN && !buffer[0] && is_kept(buffer, 1));
    CHECK(doqallin_filter_mask(form, form_length, no_columns, 0, 3, 0, other, 1, &fault) == DOQALLIN_BAD_BYTES && at_fault(0, 14));
    // A day past the year 9999 is no value of a date.
    CHECK(doqallin_filter_mask(BYTES("\2\0\0\0\0\0\0\0\0\7\0\0\0\0\0\0\0\0 \25vortex.date\0\26\4\0\6\17\230\226\200"), no_columns, 0, 3, 0, other, 1, &fault) == DOQALLIN_BAD_BYTES && at_fault(0, 36));
    static const uint64_t starts[] = {0};
    CHECK(doqallin_filter_outcomes(form, form_length, buffer, 0, starts, 1, 0, other, 1, &fault) == DOQALLIN_BAD_BYTES && at_fault(1, 14));
    CHECK(doqallin_filter_outcomes(form, form_length, buffer, 0, starts, 1, 1, buffer, 1, &fault) == DOQALLIN_GIVEN && buffer[0] == 1);
    CHECK(is_kept(other, 0));
}

// A test that nests none in the words may nest 4 in the encoding.
static void filters_that_nest(void) {
    static const char *const parts[] = {"n = 1", "n is not null", "n not in (1)", "n not between -99999 and 99999"};
    static uint8_t encoding[4096];
    for (size_t part = 0; part < sizeof parts / sizeof *parts; part++) {
        char words[2048] = "";
        for (int i = 0; i < 33; i++) strcat(strcat(words, i ? " and " : ""), parts[part]);
        size_t length;
        CHECK(doqallin_prepare_filter((const uint8_t *)words, strlen(words), schema, 1, 31, encoding, sizeof encoding, &length, &mistake) == DOQALLIN_BAD_FILTER);
        CHECK(mistake.expected == DOQALLIN_TOO_DEEP && mistake.place > 0);
        CHECK(doqallin_prepare_filter((const uint8_t *)words, strlen(words), schema, 1, 32, encoding, sizeof encoding, &length, &mistake) == DOQALLIN_GIVEN);
        static const uint8_t two[] = {2, 0}, none[] = {0};
        struct doqallin_column n = {DOQALLIN_I16, 0, 0, none, 0, two, 2, none, 0, 0, 1};
        CHECK(doqallin_filter_mask(encoding, length, &n, 1, 1, 32, buffer, 1, &fault) == DOQALLIN_GIVEN && buffer[0] == (part == 1 || part == 2));
        static const uint64_t starts[] = {0, 0};
        CHECK(doqallin_filter_outcomes(encoding, length, buffer, 0, starts, 2, 32, buffer, 1, &fault) == DOQALLIN_GIVEN && buffer[0] & 1 << (part == 1 || part == 2 ? 2 : 0));
    }
    // Here each level of the words is two of the encoding, and the first is seven: no more can be.
    char words[2048] = "not n not between -99999 and 99999 and n = 1 or n = 1", deeper[sizeof words + 22];
    for (size_t level = 1; level <= 32; level++) {
        size_t length;
        CHECK(doqallin_prepare_filter((const uint8_t *)words, strlen(words), schema, 1, level - 1, encoding, sizeof encoding, &length, &mistake) == DOQALLIN_BAD_FILTER);
        CHECK(mistake.expected == DOQALLIN_TOO_DEEP && mistake.place < strlen(words));
        CHECK(doqallin_prepare_filter((const uint8_t *)words, strlen(words), schema, 1, level, encoding, sizeof encoding, &length, &mistake) == DOQALLIN_GIVEN);
        static const uint8_t two[] = {2, 0}, none[] = {0};
        struct doqallin_column n = {DOQALLIN_I16, 0, 0, none, 0, two, 2, none, 0, 0, 1};
        CHECK(doqallin_filter_mask(encoding, length, &n, 1, 1, level, buffer, 1, &fault) == DOQALLIN_GIVEN && !buffer[0]);
        CHECK(doqallin_filter_mask(encoding, length, &n, 1, 1, level - 1, buffer, 1, &fault) == DOQALLIN_BAD_BYTES && at_fault(1, fault.place) && fault.place < length);
        sprintf(deeper, "(%s) and n = 1 or n = 1", words);
        strcpy(words, deeper);
    }
}

static void filter_zones(void) {
    // n from 3 to 5; nothing of s; then n from 6 to 9, and no s but nulls.
    static const uint8_t low[] = {1, 31, 0, 0, 0, 0, 0, 0, 0, 2, 0, 0, 0, 0, 0, 0, 0, 0, 13, 3, 13, 5};
    static const uint8_t high[] = {1, 31, 0, 0, 0, 0, 0, 0, 0, 2, 0, 0, 0, 0, 0, 0, 0, 0, 13, 6, 13, 9};
    static const uint8_t nulls[] = {1, 1, 0, 0, 0, 0, 0, 0, 0, 2, 0, 0, 0, 0, 0, 0, 0, 2};
    uint8_t known[62];
    memcpy(known, low, 22);
    memcpy(known + 22, high, 22);
    memcpy(known + 44, nulls, 18);
    uint64_t starts[] = {0, 22, 22, 44, 62};
    CHECK(doqallin_prepare_filter(BYTES("n > 5 or s = 'a'"), schema, 2, 256, form, sizeof form, &form_length, &mistake) == DOQALLIN_GIVEN);
    fault = (struct doqallin_fault){77, 78};
    fresh();
    CHECK(doqallin_filter_outcomes(form, form_length, known, 62, starts, 5, 32, buffer, 2, &fault) == DOQALLIN_GIVEN && holds(buffer, 2, "\7\4") && at_fault(77, 78));
    CHECK(doqallin_filter_outcomes(form, form_length, known, 62, starts, 3, 32, buffer, 1, &fault) == DOQALLIN_GIVEN && buffer[0] == 7);
    CHECK(doqallin_filter_outcomes(form, form_length, known, 62, starts, 1, 32, buffer, 0, &fault) == DOQALLIN_GIVEN);
    CHECK(doqallin_filter_outcomes(form, form_length, known, 62, starts, 5, 0, buffer, 2, &fault) == DOQALLIN_GIVEN);
    CHECK(doqallin_filter_outcomes(form, form_length - 1, known, 62, starts, 5, 32, buffer, 2, &fault) == DOQALLIN_BAD_BYTES && at_fault(5, form_length - 1));
    CHECK(doqallin_filter_outcomes(form, form_length, known, 62, starts, 4, 32, buffer, 2, &fault) == DOQALLIN_WRONG_LENGTH && at_fault(4, 0));
    CHECK(doqallin_filter_outcomes(form, form_length, known, 62, starts, 0, 32, buffer, 0, &fault) == DOQALLIN_WRONG_LENGTH && at_fault(0, 0));
    CHECK(doqallin_filter_outcomes(form, form_length, known, 61, starts, 5, 32, buffer, 2, &fault) == DOQALLIN_BAD_OFFSETS && at_fault(3, 0));
    starts[3] = 43;
    CHECK(doqallin_filter_outcomes(form, form_length, known, 62, starts, 5, 32, buffer, 2, &fault) == DOQALLIN_BAD_BYTES && at_fault(2, 21));
    starts[3] = 45;
    CHECK(doqallin_filter_outcomes(form, form_length, known, 62, starts, 5, 32, buffer, 2, &fault) == DOQALLIN_BAD_BYTES && at_fault(2, 22));
    known[1] = 64;
    CHECK(doqallin_filter_outcomes(form, form_length, known, 62, starts, 5, 32, buffer, 2, &fault) == DOQALLIN_BAD_BYTES && at_fault(0, 1));
}

// The statistics of 1.5, a NaN with its sign set and -0.0: from 0.0 to NaN.
static const uint8_t prices[] = "\2\1\0\0\1\x1f\0\0\0\0\0\0\0\3\0\0\0\0\0\0\0\0\x0c\x14\x7f\xf0\0\0\0\0\0\1";
// Those of 12.34 as a decimal of 20 digits with two behind the point: 16 bytes that sort, of which those below 2 are escaped.
#define STORED_FARE "\x16\x80\1\1\1\1\1\1\1\1\1\1\1\1\1\1\1\1\1\1\1\1\1\1\1\1\1\1\4\xd2\0"
static const uint8_t fares[] = "\2\3\x14\2\1\x1f\0\0\0\0\0\0\0\1\0\0\0\0\0\0\0\0" STORED_FARE STORED_FARE;

// Of floats 1.5, a NaN with its sign set and -0.0; 12.34 as a decimal; a day, and one after the year 9999.
static const uint64_t some_floats[] = {0x3ff8000000000000, 0xfff8000000000000, 0x8000000000000000};
static const uint8_t fare[16] = {0xd2, 4}, none[] = {0};
static const int32_t some_days[] = {20512, 2932897};
static const struct doqallin_column wide = {DOQALLIN_F64, 0, 0, none, 0, (const uint8_t *)some_floats, sizeof some_floats, none, 0, 0, 3};
static const struct doqallin_column decimal = {DOQALLIN_DECIMAL128, 20, 2, none, 0, fare, sizeof fare, none, 0, 0, 1};
static const struct doqallin_column late = {DOQALLIN_DATE32, 0, 0, none, 0, (const uint8_t *)some_days, sizeof some_days, none, 0, 0, 2};
static const struct doqallin_kind of_fares = {DOQALLIN_DECIMAL128, 20, 2}, no_kind = {DOQALLIN_DECIMAL64, 19, 2}, of_time = {DOQALLIN_TIME_S, 0, 0};
static uint8_t room[256];

static void columns_of_logical_types(void) {
    struct doqallin_column wrong = decimal;
    fault = (struct doqallin_fault){77, 78};
    CHECK(doqallin_column_statistics(&wide, 0, room, sizeof room, &count, &fault) == DOQALLIN_GIVEN && at_fault(77, 78));
    CHECK(count == sizeof prices - 1 && !memcmp(room, prices, sizeof prices - 1));
    CHECK(doqallin_column_statistics(&decimal, 0, room, sizeof room, &count, &fault) == DOQALLIN_GIVEN);
    CHECK(count == sizeof fares - 1 && !memcmp(room, fares, sizeof fares - 1));
    CHECK(doqallin_column_statistics(&late, 0, buffer, BUFFER, &count, &fault) == DOQALLIN_NOT_A_VALUE && at_fault(0, 1));
    wrong.scale = 21;
    CHECK(doqallin_column_statistics(&wrong, 0, buffer, BUFFER, &count, &fault) == DOQALLIN_UNKNOWN_KIND && at_fault(0, 0));
    wrong.scale = 2, wrong.precision = 3;
    CHECK(doqallin_column_statistics(&wrong, 0, buffer, BUFFER, &count, &fault) == DOQALLIN_NOT_A_VALUE && at_fault(0, 0));
    CHECK(doqallin_cast_column(&wide, DOQALLIN_I64, buffer, BUFFER, &fault) == DOQALLIN_UNKNOWN_KIND && at_fault(0, 0));
}

// Statistics read back: a zero has no sign, and NaN is one.
static void statistics_of_logical_types(void) {
    CHECK(read_as(DOQALLIN_F64, prices, sizeof prices - 1, 8, 8) == DOQALLIN_GIVEN && tell(3, 0, 2, 2));
    CHECK(bounds_are("\0\0\0\0\0\0\0\0", 8, "\1\0\0\0\0\0\xf0\x7f", 8));
    CHECK(read_as(DOQALLIN_F32, prices, sizeof prices - 1, 8, 8) == DOQALLIN_BAD_BYTES && none_read(1));
    CHECK(read_as(DOQALLIN_I64, prices, sizeof prices - 1, 8, 8) == DOQALLIN_BAD_BYTES && none_read(0));
    CHECK(read_as(DOQALLIN_DECIMAL128, fares, sizeof fares - 1, 16, 16) == DOQALLIN_UNKNOWN_KIND && none_read(0));
    CHECK(read_as(DOQALLIN_TIME_S, BYTES("\2\5\3\0\1\2\0\0\0\0\0\0\0\1\x0f\1\x51\x80"), 8, 8) == DOQALLIN_NOT_A_VALUE && none_read(0));
    fresh();
    CHECK(doqallin_read_typed(&of_fares, fares, sizeof fares - 1, buffer, 16, other, 16, &parts, &fault) == DOQALLIN_GIVEN && tell(1, 0, 2, 2));
    CHECK(bounds_are((const char *)fare, 16, (const char *)fare, 16));
    CHECK(doqallin_read_typed(&no_kind, fares, sizeof fares - 1, buffer, 16, other, 16, &parts, &fault) == DOQALLIN_UNKNOWN_KIND && at_fault(0, 0));
    CHECK(doqallin_merge_typed(&of_fares, fares, sizeof fares - 1, fares, sizeof fares - 1, room, sizeof room, &count, &fault) == DOQALLIN_GIVEN);
    CHECK(count == sizeof fares - 1 && room[13] == 2 && !memcmp(room + 14, fares + 14, sizeof fares - 15));
    CHECK(doqallin_merge_typed(&of_fares, fares, sizeof fares - 1, prices, sizeof prices - 1, room, sizeof room, &count, &fault) == DOQALLIN_BAD_BYTES && at_fault(1, 1));
    CHECK(doqallin_merge_typed(&no_kind, fares, sizeof fares - 1, fares, sizeof fares - 1, room, sizeof room, &count, &fault) == DOQALLIN_UNKNOWN_KIND && at_fault(0, 0));
}

// The key of a number that is no time of day is read as a number alone.
static void keys_of_logical_types(void) {
    static const int32_t times[] = {0, 86400};
    static const struct doqallin_column seconds = {DOQALLIN_I32, 0, 0, none, 0, (const uint8_t *)times, sizeof times, none, 0, 0, 2};
    struct doqallin_column_buffers into = {other, BUFFER, spare, BUFFER, starts, 3, 77};
    uint64_t ends[3];
    CHECK(doqallin_row_keys(&seconds, 1, BYTES("\2"), ends, 3, buffer, BUFFER, &count, &fault) == DOQALLIN_GIVEN && count == 5);
    CHECK(doqallin_columns_of_typed_keys(&of_time, 1, BYTES("\2"), ends, 3, buffer, count, &into, 1, &fault) == DOQALLIN_NOT_A_VALUE && at_fault(0, 1));
    CHECK(doqallin_columns_of_typed_keys(&no_kind, 1, BYTES("\2"), ends, 3, buffer, count, &into, 1, &fault) == DOQALLIN_UNKNOWN_KIND && at_fault(0, 0));
    CHECK(doqallin_columns_of_typed_keys(&of_time, 1, BYTES("\2"), ends, 2, buffer, count, &into, 1, &fault) == DOQALLIN_GIVEN && into.count == 4);
}

// A mask of these columns by words over x, of floats, and y, of decimals.
static uint32_t mask_by(const char *words, const struct doqallin_column *two, size_t rows) {
    static const struct doqallin_named_kind named[] = {{(const uint8_t *)"x", 1, DOQALLIN_F64, 0, 0}, {(const uint8_t *)"y", 1, DOQALLIN_DECIMAL128, 20, 2}};
    uint32_t status = doqallin_prepare_filter((const uint8_t *)words, strlen(words), named, 2, 32, room, sizeof room, &count, &mistake);
    return status ? status : doqallin_filter_mask(room, count, two, 2, rows, 32, other, 1, &fault);
}

// A column that the filter does not name may be anything.
static void filters_of_logical_types(void) {
    static const struct doqallin_column odd = {200, 0, 0, none, 0, none, 0, none, 0, SIZE_MAX, 9};
    struct doqallin_column two[] = {wide, odd};
    CHECK(mask_by("x > 0 and x <= 1.5", two, 3) == DOQALLIN_GIVEN && other[0] == 1);
    CHECK(mask_by("x > 1.5", two, 3) == DOQALLIN_GIVEN && other[0] == 2);
    CHECK(mask_by("x = 0", two, 3) == DOQALLIN_GIVEN && other[0] == 4);
    two[0] = odd, two[1] = decimal;
    CHECK(mask_by("y = 12.34", two, 1) == DOQALLIN_GIVEN && other[0] == 1);
    CHECK(mask_by("y > 12.335 and y < 12.345", two, 1) == DOQALLIN_GIVEN && other[0] == 1);
    two[1].precision = 21;
    CHECK(mask_by("y = 12.34", two, 1) == DOQALLIN_UNKNOWN_KIND && at_fault(1, 1));
    CHECK(mask_by("y = 'a'", two, 1) == DOQALLIN_BAD_FILTER && at_mistake(4, DOQALLIN_TYPES_DIFFER));
}

static void calls(void) {
    fresh();
    CHECK(doqallin_call(BYTES("cast i32:1000i32 i16"), buffer, BUFFER, &count) == DOQALLIN_GIVEN && holds(buffer, count, "i16:1000i16"));
    fresh();
    CHECK(doqallin_call(BYTES("cast i32:1000i32 i8"), buffer, 10, &count) == DOQALLIN_GIVEN && holds(buffer, count, "CannotCast"));
    fresh();
    CHECK(doqallin_call(BYTES("cast i32:1000i32 i8"), buffer, 9, &count) == DOQALLIN_BUFFER_TOO_SMALL && count == 10 && is_kept(buffer, 0));
    CHECK(doqallin_call(BYTES("cast i32:1000i32 i8"), buffer, 0, &count) == DOQALLIN_BUFFER_TOO_SMALL && count == 10 && is_kept(buffer, 0));
    CHECK(doqallin_call(BYTES("cast i32:1i32 i8 => 7"), buffer, BUFFER, &count) == DOQALLIN_GIVEN && holds(buffer, count, "i8:1i8"));
    fresh();
    CHECK(doqallin_call(BYTES(""), buffer, BUFFER, &count) == DOQALLIN_GIVEN && holds(buffer, count, "bad line"));
    fresh();
    CHECK(doqallin_call(BYTES("clone utf8:\"\xff\""), buffer, BUFFER, &count) == DOQALLIN_GIVEN && holds(buffer, count, "bad line"));
    fresh();
    CHECK(doqallin_call_within(BYTES("zero list(list(u8))"), 2, buffer, BUFFER, &count) == DOQALLIN_GIVEN && holds(buffer, count, "list(list(u8)):[]"));
    fresh();
    CHECK(doqallin_call_within(BYTES("zero list(list(u8))"), 1, buffer, BUFFER, &count) == DOQALLIN_GIVEN && holds(buffer, count, "TooDeep"));
    fresh();
    CHECK(doqallin_call_within(BYTES("zero list(list(u8))"), 1, buffer, 6, &count) == DOQALLIN_BUFFER_TOO_SMALL && count == 7 && is_kept(buffer, 0));
}

#define LONG "0123456789012345678901234567"

// The encoding of the filter "b = true", of a column of booleans.
static const uint8_t is_true[] = {1, 0, 0, 0, 0, 0, 0, 0, 1, 24, 3, 0, 0, 0, 0, 0, 0, 0, 0, 8, 3};

// The encoding of the filter "d = '1970-01-02'", of a column of dates.
static const uint8_t is_next_day[] = "\2\0\0\0\0\0\0\0\1 \25vortex.date\0\26\4\0\26\3\0\0\0\0\0\0\0\0 \25vortex.date\0\26\4\0\26\15\1";

// The calls that take memory: of bounds at more than 22 bytes, of a line that makes lists, of keys, of statistics, of filters, and of
// columns of keys; and those that take it for a logical type.
static uint32_t take_memory(int which) {
    static const uint64_t offsets[] = {0, 28};
    static const struct doqallin_column bools = {DOQALLIN_BOOL, 0, 0, (const uint8_t *)"", 0, (const uint8_t *)"\1", 1, (const uint8_t *)"", 0, 0, 1};
    static const uint8_t lowest[] = "\1\3\0\0\0\0\0\0\0\1\0\0\0\0\0\0\0\0\x15" LONG;
    static const struct doqallin_named_kind flags[] = {{(const uint8_t *)"b", 1, DOQALLIN_BOOL, 0, 0}};
    static const uint64_t offsets_of_none[] = {0, 0}, ends_of_key[] = {0, 30}, ends_of_fare[] = {0, 31};
    static const struct doqallin_column days = {DOQALLIN_DATE32, 0, 0, (const uint8_t *)"", 0, (const uint8_t *)"\1\0\0\0", 4, (const uint8_t *)"", 0, 0, 1};
    static const uint8_t noon[] = "\2\5\3\0\1\2\0\0\0\0\0\0\0\1\x0e\xa8\xc0";
    static const struct doqallin_named_kind dates[] = {{(const uint8_t *)"d", 1, DOQALLIN_DATE32, 0, 0}};
    switch (which) {
    case 0: return doqallin_upper_bound_bytes(BYTES(LONG), 24, buffer, BUFFER, &count);
    case 1: return doqallin_upper_bound_text(BYTES(LONG), 24, buffer, BUFFER, &count);
    case 2: return doqallin_column_bounds_bytes(BYTES(LONG), offsets, 2, 24, buffer, BUFFER, other, BUFFER, &lengths);
    case 3: return doqallin_column_bounds_text(BYTES(LONG), offsets, 2, 24, buffer, BUFFER, other, BUFFER, &lengths);
    case 4: return doqallin_call(BYTES("cast list(i32):[1i32, 2i32] list(i64)"), buffer, BUFFER, &count);
    case 5: return doqallin_row_keys(&bools, 1, BYTES("\0"), starts, 2, buffer, BUFFER, &count, &fault);
    case 6: return doqallin_column_statistics(&bools, 0, buffer, BUFFER, &count, &fault);
    case 7: return doqallin_merge_statistics(DOQALLIN_I32, three, 22, three, 22, buffer, BUFFER, &count, &fault);
    case 8: return doqallin_read_statistics(DOQALLIN_UTF8, lowest, sizeof lowest, buffer, BUFFER, other, BUFFER, &parts, &fault);
    case 9: return doqallin_prepare_filter(BYTES("b = true"), flags, 1, 256, buffer, BUFFER, &count, &mistake);
    case 10: return doqallin_filter_mask(is_true, sizeof is_true, &bools, 1, 1, 32, buffer, 1, &fault);
    case 11: return doqallin_filter_outcomes(is_true, sizeof is_true, buffer, 0, offsets_of_none, 2, 32, buffer, 1, &fault);
    case 12:
        made[0] = (struct doqallin_column_buffers){other, BUFFER, buffer, BUFFER, starts, 3, 77};
        uint32_t status = doqallin_columns_of_row_keys(BYTES("\x09"), BYTES("\2"), ends_of_key, 2, BYTES("\x15" LONG "\0"), made, 1, &fault);
        count = made[0].count;
        return status;
    case 13: return doqallin_column_statistics(&days, 0, buffer, BUFFER, &count, &fault);
    case 14: return doqallin_merge_typed(&of_time, noon, sizeof noon - 1, noon, sizeof noon - 1, buffer, BUFFER, &count, &fault);
    case 15: return doqallin_read_typed(&of_fares, fares, sizeof fares - 1, buffer, BUFFER, other, BUFFER, &parts, &fault);
    case 16:
        made[0] = (struct doqallin_column_buffers){other, BUFFER, buffer, BUFFER, starts, 3, 77};
        return doqallin_columns_of_typed_keys(&of_fares, 1, BYTES("\2"), ends_of_fare, 2, (const uint8_t *)STORED_FARE, 31, made, 1, &fault);
    case 17: return doqallin_prepare_filter(BYTES("d = '1970-01-02'"), dates, 1, 32, room, sizeof room, &count, &mistake);
    case 18: return doqallin_filter_mask(is_next_day, sizeof is_next_day - 1, &days, 1, 1, 32, buffer, 1, &fault);
    default: exit(2);
    }
}

// Writes by `write` itself, which tests/refuse_nth.c listens to.
static void say(const char *line) {
    if (write(2, line, strlen(line)) < 0) exit(2);
}

// Of what was given: 0 if it is the bound, the cast list, the key, the statistics, the encoding, the mask or the outcomes; 3 if it says
// that the cast found no memory; 1 otherwise.
static int given(int which) {
    if (which == 4) return holds(buffer, count, "list(i64):[1i64, 2i64]") ? 0 : holds(buffer, count, "OutOfMemory") ? 3 : 1;
    if (which == 5) return holds(buffer, count, "\3") ? 0 : 1;
    if (which == 6) return count == 20 && !memcmp(buffer, "\1\x1f\0\0\0\0\0\0\0\1\0\0\0\0\0\0\0\0\3\3", 20) ? 0 : 1;
    if (which == 7) return count == 22 && !memcmp(buffer, six, 22) ? 0 : 1;
    if (which == 8) return parts.lower_length == 28 && !memcmp(buffer, LONG, 28) ? 0 : 1;
    if (which == 9) return count == sizeof is_true && !memcmp(buffer, is_true, count) && is_kept(buffer, count) ? 0 : 1;
    if (which == 10 || which == 18) return buffer[0] == 1 && is_kept(buffer, 1) ? 0 : 1;
    if (which == 12) return holds(buffer, count, LONG) && other[0] == 1 && is_kept(other, 1) && starts[1] == 28 ? 0 : 1;
    if (which == 11) return buffer[0] == 7 && is_kept(buffer, 1) ? 0 : 1;
    if (which == 13) return count == 26 && !memcmp(buffer, "\2\4\4\0\1\x1f\0\0\0\0\0\0\0\1\0\0\0\0\0\0\0\0\x0d\1\x0d\1", 26) ? 0 : 1;
    if (which == 14) return count == 17 && !memcmp(buffer, "\2\5\3\0\1\2\0\0\0\0\0\0\0\2\x0e\xa8\xc0", 17) ? 0 : 1;
    if (which == 15) return parts.lower_length == 16 && !memcmp(buffer, fare, 16) && !memcmp(other, fare, 16) ? 0 : 1;
    if (which == 16) return made[0].count == 16 && !memcmp(buffer, fare, 16) && other[0] == 1 && is_kept(other, 1) ? 0 : 1;
    if (which == 17) return count == sizeof is_next_day - 1 && !memcmp(room, is_next_day, count) ? 0 : 1;
    return memcmp(which < 2 ? buffer : other, "012345678901234567890124", 24) ? 1 : 0;
}

// 0 if the call gives what it is to give, 3 if it finds no memory and writes nothing else, 1 if it does neither, or leaks.
static int memory(int which) {
    // What the allocator takes for itself counts as in use: so a first call has it take that.
    take_memory(which);
    fresh();
    size_t before = mallinfo2().uordblks;
    say("called\n");
    uint32_t status = take_memory(which);
    say("answered\n");
    if (mallinfo2().uordblks != before) return 1;
    // Without memory the byte of outcomes may be any.
    size_t any = which == 11;
    if (status == DOQALLIN_NO_MEMORY) return count == 77 && lengths_kept() && is_kept(buffer, any) && is_kept(other, 0) ? 3 : 1;
    return status == DOQALLIN_GIVEN ? given(which) : 1;
}

int main(int argc, char **argv) {
    if (argc == 3) return memory(atoi(argv[2]));
    CHECK(doqallin_version() == DOQALLIN_VERSION);
    casts();
    cast = doqallin_cast_column, column_casts();
    cast = doqallin_cast_front, column_casts(), fronts();
    lower_bounds();
    upper_bounds();
    zones();
    columns();
    row_keys();
    columns_of_keys();
    column_statistics();
    merged_statistics();
    read_statistics();
    prepared_filters();
    filter_rows();
    filter_of_no_columns();
    filters_that_nest();
    filter_zones();
    columns_of_logical_types();
    statistics_of_logical_types();
    keys_of_logical_types();
    filters_of_logical_types();
    calls();
    printf("%d passed, %d failed\n", passed, failed);
    return failed != 0;
}
