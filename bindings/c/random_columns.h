// SPDX-License-Identifier: Apache-2.0
// Random columns, and what plain C says of them: for test_columns.c, test_statistics.c and test_filters.c. Any bytes stand in the
// buffers, some are cut short, and offsets and lengths go up to the greatest. Each buffer has exactly its bytes, with a page behind
// it that nobody may read; or memory of its own from malloc, for AddressSanitizer and valgrind.
#define _GNU_SOURCE
#include "doqallin.h"
#include <stdio.h>
#include <stdlib.h>
#include <string.h>
#include <sys/mman.h>

static long failed = 0;

static inline void check(int holds, int line) {
    if (!holds && failed++ < 10) printf("line %d does not hold\n", line);
}
#define CHECK(condition) check(condition, __LINE__)

#define BUFFER 2048
#define ROWS 24

// What a call may write, as it is before.
static uint8_t buffer[BUFFER], wanted[BUFFER];
static uint64_t places[ROWS + 2];
static size_t count;
static struct doqallin_fault fault;

static inline void fresh(void) {
    memset(buffer, 'q', BUFFER);
    for (int i = 0; i < ROWS + 2; i++) places[i] = 99;
    count = 77;
    fault = (struct doqallin_fault){77, 78};
}

static inline int is_kept(size_t after, size_t after_place) {
    for (size_t i = after; i < BUFFER; i++)
        if (buffer[i] != 'q') return 0;
    for (size_t i = after_place; i < ROWS + 2; i++)
        if (places[i] != 99) return 0;
    return 1;
}

static uint64_t state = 88172645463325252u;

static inline uint64_t below(uint64_t end) {
    state ^= state << 13;
    state ^= state >> 7;
    state ^= state << 17;
    return state % end;
}

#define PAGE ((size_t)4096)
static int in_malloc = 0;

// Exactly these bytes: behind them is a page that nobody may read, or what malloc has there.
static inline const uint8_t *exactly(int which, const uint8_t *bytes, size_t length) {
    static uint8_t *pages[8];
    if (in_malloc) {
        free(pages[which]);
        pages[which] = malloc(length ? length : 1);
        if (!pages[which]) exit(2);
        return memcpy(pages[which] + (length ? 0 : 1), bytes, length);
    }
    if (!pages[which]) {
        pages[which] = mmap(NULL, 2 * PAGE, PROT_READ | PROT_WRITE, MAP_PRIVATE | MAP_ANONYMOUS, -1, 0);
        if (pages[which] == MAP_FAILED || mprotect(pages[which] + PAGE, PAGE, PROT_NONE)) exit(2);
    }
    return memcpy(pages[which] + PAGE - length, bytes, length);
}

// The bytes of an item of each kind, or 0 if it has bits, bytes or nothing; and how many digits decimals have at most.
static const size_t widths[] = {1, 2, 4, 8, 1, 2, 4, 8, 0, 0, 0, 0, 0, 0, 4, 8, 4, 4, 4, 8, 8, 8, 8, 8, 8, 8, 8, 8, 8, 4, 8, 16};
static const uint8_t digits[] = {9, 18, 38};

static inline int has_items(uint8_t kind) { return kind <= DOQALLIN_DECIMAL128 && widths[kind]; }
static inline int is_logical(uint8_t kind) { return kind > DOQALLIN_NULL; }
static inline int is_decimal(uint8_t kind) { return kind >= DOQALLIN_DECIMAL32; }
static inline int has_bytes(uint8_t kind) { return kind > DOQALLIN_BOOL && kind < DOQALLIN_NULL; }

static inline int is_kind(const struct doqallin_column *of) {
    if (of->kind > DOQALLIN_DECIMAL128) return 0;
    if (!is_decimal(of->kind)) return 1;
    return of->precision && of->precision <= digits[of->kind - DOQALLIN_DECIMAL32] && of->scale <= of->precision;
}

static inline struct doqallin_kind kind_of(const struct doqallin_column *of) { return (struct doqallin_kind){of->kind, of->precision, of->scale}; }

static inline int is_small(uint8_t kind) { return kind == DOQALLIN_UTF8 || kind == DOQALLIN_BINARY; }
static inline int is_text(uint8_t kind) { return kind == DOQALLIN_UTF8 || kind == DOQALLIN_LARGE_UTF8; }

static inline int is_bit(const uint8_t *bits, size_t place) { return bits[place / 8] >> place % 8 & 1; }

static inline int is_valid(const struct doqallin_column *of, size_t row) {
    return of->kind != DOQALLIN_NULL && (!of->validity_length || is_bit(of->validity, of->offset + row));
}

static inline uint64_t start_of(const struct doqallin_column *of, size_t row) {
    size_t width = is_small(of->kind) ? 4 : 8;
    uint64_t found = 0;
    memcpy(&found, of->offsets + (of->offset + row) * width, width);
    return found;
}

static inline int is_utf8(const uint8_t *at, uint64_t length) {
    static const uint32_t least[] = {0, 0x80, 0x800, 0x10000};
    for (uint64_t i = 0; i < length;) {
        int more = at[i] < 0x80 ? 0 : at[i] < 0xc0 ? -1 : at[i] < 0xe0 ? 1 : at[i] < 0xf0 ? 2 : at[i] < 0xf8 ? 3 : -1;
        if (more < 0 || i + more >= length) return 0;
        uint32_t code = more ? at[i] & (0x3f >> more) : at[i];
        for (int k = 1; k <= more; k++) {
            if ((at[i + k] & 0xc0) != 0x80) return 0;
            code = code << 6 | (at[i + k] & 0x3f);
        }
        if (code < least[more] || code > 0x10ffff || (code >= 0xd800 && code < 0xe000)) return 0;
        i += 1 + more;
    }
    return 1;
}

// The integer that stores a float: its bits without the sign, negated if the sign is set. All NaNs are one.
static inline __int128 stored_float(uint64_t bits, int width) {
    uint64_t size = bits & (width == 4 ? INT32_MAX : INT64_MAX), nan = width == 4 ? 0x7f800001 : 0x7ff0000000000001;
    if (size >= nan) return nan;
    return bits >> (8 * width - 1) ? -(__int128)size : (__int128)size;
}

// The integer of a row, or the one that stores its value.
static inline __int128 number_at(const struct doqallin_column *of, size_t row) {
    size_t width = widths[of->kind];
    const uint8_t *at = of->values + (of->offset + row) * width;
    int is_signed = of->kind >= DOQALLIN_I8 && of->kind != DOQALLIN_F32 && of->kind != DOQALLIN_F64;
    __int128 bits = is_signed && at[width - 1] > 127 ? -1 : 0;
    memcpy(&bits, at, width);
    return of->kind == DOQALLIN_F32 || of->kind == DOQALLIN_F64 ? stored_float((uint64_t)bits, (int)width) : bits;
}

static inline __int128 power(int digits) { return digits ? 10 * power(digits - 1) : 1; }

// Whether a number stores a value of the column's logical type. Years are from -9999 to 9999.
static inline int is_value(const struct doqallin_column *of, __int128 number) {
    if (of->kind < DOQALLIN_DATE32) return 1;
    if (of->kind == DOQALLIN_DATE32) return number >= -4371587 && number <= 2932896;
    if (is_decimal(of->kind)) return number > -power(of->precision) && number < power(of->precision);
    __int128 unit = power(3 * ((of->kind - DOQALLIN_TIME_S) % 4));
    if (of->kind < DOQALLIN_TIMESTAMP_S) return number >= 0 && number < 86400 * unit;
    return number >= -377705116800 * unit && number < 253402300800 * unit;
}

// What a call over the column answers, and the place.
static inline uint32_t plain_check(const struct doqallin_column *of, size_t *place) {
    unsigned __int128 end = (unsigned __int128)of->offset + of->length;
    *place = 0;
    if (!is_kind(of)) return DOQALLIN_UNKNOWN_KIND;
    if (of->kind == DOQALLIN_NULL || !of->length) return DOQALLIN_GIVEN;
    if (end >> 64) return DOQALLIN_TOO_MANY_ROWS;
    if (of->validity_length && of->validity_length < (end + 7) / 8) return DOQALLIN_TOO_SHORT;
    *place = 1;
    if (has_items(of->kind) && of->values_length < end * widths[of->kind]) return DOQALLIN_TOO_SHORT;
    if (of->kind == DOQALLIN_BOOL && of->values_length < (end + 7) / 8) return DOQALLIN_TOO_SHORT;
    for (*place = 0; is_logical(of->kind) && *place < of->length; ++*place)
        if (is_valid(of, *place) && !is_value(of, number_at(of, *place))) return DOQALLIN_NOT_A_VALUE;
    if (!has_bytes(of->kind)) return DOQALLIN_GIVEN;
    *place = 2;
    if (of->offsets_length < (end + 1) * (is_small(of->kind) ? 4 : 8)) return DOQALLIN_TOO_SHORT;
    for (*place = 0; *place < of->length; ++*place)
        if (start_of(of, *place) > start_of(of, *place + 1) || start_of(of, *place + 1) > of->values_length) return DOQALLIN_BAD_OFFSETS;
    for (*place = 0; is_text(of->kind) && *place < of->length; ++*place) {
        uint64_t start = start_of(of, *place);
        if (is_valid(of, *place) && !is_utf8(of->values + start, start_of(of, *place + 1) - start)) return DOQALLIN_NOT_UTF8;
    }
    return DOQALLIN_GIVEN;
}

// The bytes of an item that a number is written as. A float is written by its bits: a zero has no sign, and all NaNs are one.
static inline __int128 item_of(uint8_t kind, __int128 number) {
    int is_float = kind == DOQALLIN_F32 || kind == DOQALLIN_F64;
    return is_float && number < 0 ? -number | (__int128)1 << (8 * widths[kind] - 1) : number;
}

static inline size_t put(size_t at, unsigned byte, uint8_t option) {
    wanted[at] = (uint8_t)(option & 1 ? ~byte : byte);
    return at + 1;
}

// Writes the key of a row at this offset; returns its end.
static inline size_t plain_key(const struct doqallin_column *of, size_t row, uint8_t option, size_t at) {
    if (!is_valid(of, row)) return put(at, option & 2 ? 1 : 255, 0);
    if (of->kind == DOQALLIN_BOOL) return put(at, 2 + is_bit(of->values, of->offset + row), option);
    // Decimals of more than 18 digits are keyed as 16 bytes that sort.
    if (is_decimal(of->kind) && of->precision > 18) {
        unsigned __int128 bits = (unsigned __int128)number_at(of, row) ^ (unsigned __int128)1 << 127;
        at = put(at, 22, option);
        for (int k = 15; k >= 0; k--) {
            unsigned byte = (unsigned)(bits >> 8 * k) & 255;
            if (byte < 2) at = put(at, 1, option);
            at = put(at, byte < 2 ? byte + 1 : byte, option);
        }
        return put(at, 0, option);
    }
    if (has_items(of->kind)) {
        __int128 number = number_at(of, row);
        uint64_t distance = (uint64_t)(number < 0 ? -number : number);
        int size = 0;
        while (size < 8 && distance >> 8 * size) size++;
        at = put(at, number < 0 ? 12 - size : 12 + size, option);
        while (size-- > 0) at = put(at, (distance >> 8 * size & 255) ^ (number < 0 ? 255 : 0), option);
        return at;
    }
    at = put(at, is_text(of->kind) ? 21 : 22, option);
    for (uint64_t k = start_of(of, row); k < start_of(of, row + 1); k++) {
        if (of->values[k] < 2) at = put(at, 1, option);
        at = put(at, of->values[k] < 2 ? of->values[k] + 1 : of->values[k], option);
    }
    return put(at, 0, option);
}

// A column in the buffers from this one on. Most have their bytes, and few have not.
static inline struct doqallin_column some_column(int first, size_t rows) {
    static const uint64_t lengths[] = {UINT64_MAX, UINT64_MAX - 7, (uint64_t)1 << 61, (uint64_t)1 << 32, 0, 1};
    uint8_t kind = below(20) ? below(32) : 32 + below(224), bytes[3][1024];
    uint8_t precision = below(20) ? 1 + below(is_decimal(kind) && kind < 32 ? digits[kind - DOQALLIN_DECIMAL32] : 38) : below(256);
    uint8_t scale = below(20) ? below(precision + 1) : below(256);
    size_t offset = below(12), size[3], width = is_small(kind) ? 4 : 8, item = kind < 32 ? widths[kind] : 8;
    int has_offsets = has_bytes(kind);
    size[0] = below(3) ? (offset + rows + 7) / 8 : 0;
    size[1] = has_offsets ? below(40) : kind == DOQALLIN_BOOL ? (offset + rows + 7) / 8 : (offset + rows) * item;
    size[2] = has_offsets ? (offset + rows + 1) * width : 0;
    // Of logical types most items are small numbers with a sign, and of floats some end in an exponent.
    int is_odd = !below(12);
    for (int which = 0; which < 3; which++) {
        if (!below(8)) size[which] = below(size[which] + 2);
        for (size_t i = 0; i < size[which]; i++) bytes[which][i] = which == 1 && (kind > DOQALLIN_NULL ? !is_odd : below(12)) ? below(3) : below(256);
        for (size_t i = 0; which == 1 && kind > DOQALLIN_NULL && !is_odd && i + item <= size[1]; i += item) {
            int is_negative = kind != DOQALLIN_F32 && kind != DOQALLIN_F64 && (kind < DOQALLIN_TIME_S || kind > DOQALLIN_TIME_NS) && below(3) == 0;
            memset(bytes[1] + i + 1, is_negative ? 255 : 0, item - 1);
            if (is_negative) bytes[1][i] |= 128;
            if (is_decimal(kind) && precision == 1) bytes[1][i] = is_negative ? 255 : 9;
            if ((kind == DOQALLIN_F32 || kind == DOQALLIN_F64) && below(2)) bytes[1][i + item - 1] = below(2) ? 128 : 127, bytes[1][i + item - 2] = (uint8_t)(255 * below(2));
        }
    }
    uint64_t at = 0;
    for (size_t i = 0; has_offsets && (i + 1) * width <= size[2]; i++, at += below(2 + size[1] / (rows + offset + 1)))
        if (below(200)) memcpy(bytes[2] + i * width, &at, width);
    struct doqallin_column made = {kind, precision, scale, exactly(first, bytes[0], size[0]), size[0], exactly(first + 1, bytes[1], size[1]), size[1],
                                   exactly(first + 2, bytes[2], size[2]), size[2], offset, rows};
    if (!below(16)) made.offset = lengths[below(6)];
    if (!below(16) && kind != DOQALLIN_NULL) made.length = lengths[below(6)];
    return made;
}

// How many columns to make, by the program's words.
static inline long begun(int argc, char **argv) {
    if (argc < 2) exit(2);
    in_malloc = argc > 2;
    return atol(argv[1]);
}

// Says how the tests of so many columns went. Each of these statuses must have been seen.
static inline int ended(long columns, const long *seen, const uint32_t *all, size_t statuses) {
    for (size_t i = 0; i < statuses; i++) CHECK(seen[all[i]] > columns / 1000);
    printf("%ld passed, %ld failed\n", failed ? 0 : columns, failed);
    return failed != 0;
}
#define STATUSES 15
