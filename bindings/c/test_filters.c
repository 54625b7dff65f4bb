// SPDX-License-Identifier: Apache-2.0
// Filters over random columns, beside plain C: `test_filters COUNT` makes so many, with a page behind each buffer that nobody may
// read, and `test_filters COUNT malloc` with memory of its own for each. Prepared filters, statistics and offsets are asked again
// with any bytes changed.
#include "random_columns.h"

enum { NO, MAYBE, YES };

// A test of one column, by its number: its words, and what it says of a row.
struct test {
    int is_null_test;
    long number;
};

static const long numbers[] = {0, 1, -1, 5, 100, 40000, -129};

static int is_number(uint8_t kind) { return kind < DOQALLIN_BOOL || kind == DOQALLIN_F32 || kind == DOQALLIN_F64 || is_decimal(kind); }

static size_t words_of(const struct test *of, uint8_t kind, char name, char *words) {
    if (of->is_null_test || kind == DOQALLIN_NULL) return (size_t)sprintf(words, "%c is null", name);
    if (kind == DOQALLIN_BOOL) return (size_t)sprintf(words, "%c = true", name);
    if (is_number(kind)) return (size_t)sprintf(words, "%c < %ld", name, of->number);
    if (kind == DOQALLIN_DATE32) return (size_t)sprintf(words, "%c < '1970-01-02'", name);
    if (kind < DOQALLIN_DATE32) return (size_t)sprintf(words, is_text(kind) ? "%c >= 'a'" : "%c >= x'61'", name);
    if (kind < DOQALLIN_TIMESTAMP_S) return (size_t)sprintf(words, "%c < '00:00:01'", name);
    return (size_t)sprintf(words, "%c < '1970-01-01T00:00:01%s'", name, kind < DOQALLIN_TIMESTAMP_S_UTC ? "" : "Z");
}

// Whether the integer that a number is compared as has more than 38 digits: then it is no literal.
static int is_too_long(const struct test *of, struct doqallin_kind kind) {
    return is_decimal(kind.code) && labs(of->number) >= power(38 - kind.scale);
}

// The integer that the literal is compared as.
static __int128 literal_of(const struct test *of, const struct doqallin_column *in) {
    float narrow = (float)of->number;
    double wide = (double)of->number;
    uint64_t bits = 0;
    if (in->kind == DOQALLIN_F32) return memcpy(&bits, &narrow, 4), stored_float(bits, 4);
    if (in->kind == DOQALLIN_F64) return memcpy(&bits, &wide, 8), stored_float(bits, 8);
    if (is_decimal(in->kind)) return of->number * power(in->scale);
    if (in->kind == DOQALLIN_DATE32) return 1;
    return is_logical(in->kind) ? power(3 * ((in->kind - DOQALLIN_TIME_S) % 4)) : of->number;
}

static int truth_of(const struct test *of, const struct doqallin_column *in, size_t row) {
    if (of->is_null_test || in->kind == DOQALLIN_NULL) return is_valid(in, row) ? NO : YES;
    if (!is_valid(in, row)) return MAYBE;
    if (in->kind == DOQALLIN_BOOL) return is_bit(in->values, in->offset + row) ? YES : NO;
    if (has_items(in->kind)) return number_at(in, row) < literal_of(of, in) ? YES : NO;
    return start_of(in, row) < start_of(in, row + 1) && in->values[start_of(in, row)] >= 'a' ? YES : NO;
}

static const struct test *tests;
static int joins, negates;

static int truth_at(const struct doqallin_column *two, size_t row) {
    int first = truth_of(&tests[0], &two[0], row), second = truth_of(&tests[1], &two[1], row);
    int least = first < second ? first : second, greatest = first < second ? second : first;
    int both = joins ? least : greatest;
    return negates ? YES - both : both;
}

static uint8_t form[BUFFER];
static size_t form_length;

// Prepares a filter over columns of these kinds.
static void prepare(const struct doqallin_kind *kinds) {
    char words[200];
    static const char *const before[] = {"", "not ("}, *const after[] = {"", ")"}, *const between[] = {" or ", " and "};
    size_t at = (size_t)sprintf(words, "%s", before[negates]);
    at += words_of(&tests[0], kinds[0].code, 'a', words + at);
    at += (size_t)sprintf(words + at, "%s", between[joins]);
    at += words_of(&tests[1], kinds[1].code, 'b', words + at);
    at += (size_t)sprintf(words + at, "%s", after[negates]);
    struct doqallin_named_kind named[2];
    for (int which = 0; which < 2; which++)
        named[which] = (struct doqallin_named_kind){(const uint8_t *)(which ? "b" : "a"), 1, kinds[which].code, kinds[which].precision, kinds[which].scale};
    struct doqallin_mistake mistake = {77, 78};
    const uint8_t *text = exactly(6, (const uint8_t *)words, at);
    fresh();
    CHECK(doqallin_prepare_filter(text, at, named, 2, 256, buffer, 0, &form_length, &mistake) == DOQALLIN_BUFFER_TOO_SMALL && is_kept(0, 0));
    CHECK(doqallin_prepare_filter(text, at, named, 2, 256, buffer, form_length, &count, &mistake) == DOQALLIN_GIVEN);
    CHECK(count == form_length && is_kept(form_length, 0) && mistake.place == 77 && mistake.expected == 78);
    memcpy(form, buffer, form_length);
    // Cut short it is no filter, or another one.
    size_t less = below(at);
    text = exactly(6, (const uint8_t *)words, less);
    uint32_t status = doqallin_prepare_filter(text, less, named, 2, 256, buffer, BUFFER, &count, &mistake);
    CHECK(!status || (status == DOQALLIN_BAD_FILTER && mistake.place <= less && mistake.expected <= DOQALLIN_TOO_DEEP));
}

static int type_of(struct doqallin_kind kind) {
    if (is_decimal(kind.code)) return DOQALLIN_DECIMAL32 + 256 * kind.precision + 65536 * kind.scale;
    return is_text(kind.code) ? DOQALLIN_UTF8 : kind.code == DOQALLIN_LARGE_BINARY ? DOQALLIN_BINARY : kind.code;
}

// What a mask of two columns answers, with where the mistake is.
static uint32_t plain_fault(const struct doqallin_column *two, const struct doqallin_kind *kinds, size_t rows, struct doqallin_fault *where) {
    for (where->column = 0; where->column < 2; where->column++) {
        uint32_t status = plain_check(&two[where->column], &where->place);
        if (status) return status;
        where->place = 1;
        if (type_of(kind_of(&two[where->column])) != type_of(kinds[where->column])) return DOQALLIN_UNKNOWN_KIND;
        where->place = 0;
        if (two[where->column].length != rows) return DOQALLIN_WRONG_LENGTH;
    }
    return DOQALLIN_GIVEN;
}

static uint32_t of_mask(const struct doqallin_column *two, const struct doqallin_kind *kinds) {
    struct doqallin_fault where;
    size_t rows = below(20) ? two[0].length : below(9), length = rows / 8 + !!(rows % 8);
    uint32_t status = plain_fault(two, kinds, rows, &where);
    const uint8_t *filter = exactly(6, form, form_length);
    fresh();
    if (length > BUFFER) {
        CHECK(doqallin_filter_mask(filter, form_length, two, 2, rows, 256, buffer, BUFFER, &fault) == DOQALLIN_BUFFER_TOO_SMALL);
        CHECK(fault.column == 77 && is_kept(0, 0));
        return DOQALLIN_BUFFER_TOO_SMALL;
    }
    if (status) {
        CHECK(doqallin_filter_mask(filter, form_length, two, 2, rows, 256, buffer, BUFFER, &fault) == status);
        CHECK(fault.column == where.column && fault.place == where.place && is_kept(0, 0));
        return status;
    }
    memset(wanted, 0, length);
    for (size_t row = 0; row < rows; row++) wanted[row / 8] |= (truth_at(two, row) == YES) << row % 8;
    CHECK(doqallin_filter_mask(filter, form_length, two, 2, rows, 256, buffer, length, &fault) == DOQALLIN_GIVEN);
    CHECK(!memcmp(buffer, wanted, length) && is_kept(length, 0) && fault.column == 77);
    fresh();
    if (length) CHECK(doqallin_filter_mask(filter, form_length, two, 2, rows, 256, buffer, length - 1, &fault) == DOQALLIN_BUFFER_TOO_SMALL && is_kept(0, 0));
    CHECK(doqallin_filter_mask(filter, form_length, two, 1, rows, 256, buffer, BUFFER, &fault) == DOQALLIN_WRONG_LENGTH && fault.column == 1 && is_kept(0, 0));
    return status;
}

static uint8_t pieces[BUFFER], zones[2];
static uint64_t offsets[5];

// The outcomes of a zone of these rows, and of one without statistics.
static void of_zones(const struct doqallin_column *two) {
    for (int which = 0; which < 2; which++) {
        CHECK(!doqallin_column_statistics(&two[which], below(9), pieces + offsets[which], BUFFER - offsets[which], &count, &fault));
        offsets[which + 1] = offsets[which] + count;
    }
    offsets[3] = offsets[4] = offsets[2];
    const uint8_t *filter = exactly(6, form, form_length), *bytes = exactly(7, pieces, offsets[4]);
    fresh();
    CHECK(doqallin_filter_outcomes(filter, form_length, bytes, offsets[4], offsets, 5, 256, zones, 2, &fault) == DOQALLIN_GIVEN && fault.column == 77);
    CHECK(zones[0] < 8 && zones[1] < 8);
    for (size_t row = 0; row < two[0].length; row++) CHECK(zones[0] & zones[1] & 1 << truth_at(two, row));
    CHECK(doqallin_filter_outcomes(filter, form_length, bytes, offsets[4], offsets, 5, 256, zones, 1, &fault) == DOQALLIN_WRONG_LENGTH && fault.column == 5);
}

static size_t change(uint8_t *bytes, size_t length) {
    static const uint8_t likely[] = {0, 1, 2, 13, 14, 15, 21, 22, 255};
    for (uint64_t times = below(4); times && length; times--) bytes[below(length)] = below(2) ? likely[below(sizeof likely)] : below(256);
    return below(3) ? length : below(length + 1);
}

// The filter, the statistics and the offsets with anything changed: an answer, or a refusal.
static uint32_t of_any_bytes(const struct doqallin_column *two) {
    size_t length = change(form, form_length), end = change(pieces, offsets[4]);
    if (!below(3)) offsets[below(5)] = below(3) ? below(offsets[4] + 2) : UINT64_MAX - below(2);
    const uint8_t *filter = exactly(6, form, length), *bytes = exactly(7, pieces, end);
    size_t many = below(4);
    fresh();
    uint32_t status = doqallin_filter_mask(filter, length, two, 2, two[0].length, 256, buffer, BUFFER, &fault);
    CHECK(!status || status == DOQALLIN_BAD_BYTES || status == DOQALLIN_WRONG_LENGTH || status == DOQALLIN_UNKNOWN_KIND);
    CHECK(status != DOQALLIN_BAD_BYTES || (fault.column == 2 && fault.place <= length));
    uint32_t told = doqallin_filter_outcomes(filter, length, bytes, end, offsets, below(8) ? 5 : below(6), 256, zones, below(8) ? 2 : many % 3, &fault);
    CHECK(!told || told == DOQALLIN_BAD_BYTES || told == DOQALLIN_WRONG_LENGTH || told == DOQALLIN_BAD_OFFSETS || told == DOQALLIN_NOT_A_VALUE);
    return told;
}

int main(int argc, char **argv) {
    long columns = begun(argc, argv), seen[STATUSES] = {0};
    for (long k = 0; k < columns; k++) {
        size_t rows = below(ROWS);
        struct doqallin_column two[] = {some_column(0, rows), some_column(3, rows)};
        struct test some[] = {{!below(4), numbers[below(7)]}, {!below(4), numbers[below(7)]}};
        struct doqallin_kind kinds[2];
        for (int which = 0; which < 2; which++) {
            kinds[which] = is_kind(&two[which]) && below(20) ? kind_of(&two[which]) : (struct doqallin_kind){below(29), 0, 0};
            some[which].is_null_test |= is_too_long(&some[which], kinds[which]);
        }
        tests = some, joins = below(2), negates = below(2);
        prepare(kinds);
        uint32_t status = of_mask(two, kinds);
        seen[status]++;
        if (status) continue;
        of_zones(two);
        seen[of_any_bytes(two)]++;
        offsets[0] = 0;
    }
    static const uint32_t all[] = {DOQALLIN_GIVEN, DOQALLIN_NOT_UTF8, DOQALLIN_BAD_OFFSETS, DOQALLIN_UNKNOWN_KIND, DOQALLIN_TOO_MANY_ROWS,
                                   DOQALLIN_TOO_SHORT, DOQALLIN_BAD_BYTES, DOQALLIN_WRONG_LENGTH, DOQALLIN_BUFFER_TOO_SMALL,
                                   DOQALLIN_NOT_A_VALUE};
    return ended(columns, seen, all, sizeof all / sizeof *all);
}
