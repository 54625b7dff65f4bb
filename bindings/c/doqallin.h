/* SPDX-License-Identifier: Apache-2.0
 * SPDX-FileCopyrightText: Copyright the Vortex contributors; ported to Rattle and changed
 *
 * Doqallin for C: casts that never change a value, bounds for bytes and strings, pruning by these, keys of rows,
 * statistics of columns, filters, and searches in CSV files. The calls are proved against the contracts in
 * crates/vortex_c and crates/vortex_call. This header is written by hand.
 *
 * Link with -ldoqallin. The calls by a line, doqallin_call and doqallin_call_within, are in a library of their own:
 * link with -ldoqallin_call for them.
 *
 * A string is UTF-8. A call that can do anything other than succeed answers a status. If its comment names a field of
 * `fault` or of `mistake` under a status, that field is written then, and the fields that are not named are 0. What the
 * comment does not name is not written.
 *
 * What the caller owes, at each call:
 * - A pointer is not null and is aligned for its type, even if its length is 0.
 * - From a pointer with a length so many items may be read, or written if it is a buffer.
 * - What is written (a buffer, a count, lengths) overlaps nothing else that is passed. What is only read may overlap.
 * - A `bool` is 0 or 1, even one that is to be written.
 * - What is read does not change during the call, and nobody else uses what is written until it returns.
 * - `malloc`, `realloc` and `free` belong to one allocator, and no call comes from a signal handler.
 * Calls on different threads need no lock: nothing is kept from one call to the next.
 *
 * Stack: a call takes at most 6 kilobytes, or 14 for statistics and indexes, whatever it is given. That was measured
 * on x86-64; no contract speaks of stack. The comment of doqallin_call says what it takes. Calls with filters take more
 * for each level that nests, and `depth` limits the levels. With 32 none ends a process on a thread of 256 kilobytes. */
#ifndef DOQALLIN_H
#define DOQALLIN_H
#include <stdbool.h>
#include <stddef.h>
#include <stdint.h>
#ifdef __cplusplus
extern "C" {
#endif

/* The version of this header, as a string and as one number. The number is 65536 times the major version, plus 256 times the
 * minor one, plus the patch. doqallin_version() is that number for the library that runs. */
#define DOQALLIN_VERSION_TEXT "0.1.0"
#define DOQALLIN_VERSION 0x000100
uint32_t doqallin_version(void);

/* The statuses that a call answers. */
enum {
    DOQALLIN_GIVEN = 0,         /* what was asked for is written */
    DOQALLIN_NONE = 1,          /* there is no such value, or the cast is refused */
    DOQALLIN_NO_MEMORY = 2,     /* an allocation was refused */
    DOQALLIN_BUFFER_TOO_SMALL = 3, /* a buffer is too small: the lengths that are needed are written, if any */
    DOQALLIN_NOT_UTF8 = 4,      /* a string is not UTF-8 */
    DOQALLIN_NOT_A_NUMBER = 5,  /* a code names no integer type, or the bits are no number of the type */
    DOQALLIN_BAD_OFFSETS = 6,   /* offsets go down, or past the end of the bytes */
    DOQALLIN_UNKNOWN_KIND = 7,  /* a code is of no kind that the call takes */
    DOQALLIN_TOO_MANY_ROWS = 8, /* offset and length of a column, or the rows of two pieces, are together 2^64 or more */
    DOQALLIN_TOO_SHORT = 9,     /* a buffer of a column is too short for its rows */
    DOQALLIN_BAD_BYTES = 10,    /* bytes are not in the encoding that is read */
    DOQALLIN_BAD_FILTER = 11,   /* a text is no filter */
    DOQALLIN_WRONG_LENGTH = 12, /* there are more or fewer columns, rows or options than there have to be */
    DOQALLIN_BAD_OPTIONS = 13,  /* a byte of options is above 3 */
    DOQALLIN_NOT_A_VALUE = 14,  /* a number is no value of the column's logical type */
    DOQALLIN_REFUSED = 15       /* a record is no row of the columns */
};

/* The integer types. The 64 bits of a number of a signed type are in two's complement: (uint64_t)(int64_t)-5. */
enum { DOQALLIN_U8, DOQALLIN_U16, DOQALLIN_U32, DOQALLIN_U64, DOQALLIN_I8, DOQALLIN_I16, DOQALLIN_I32, DOQALLIN_I64 };

/* Casts a number of the type `from` to the type `to`.
 * GIVEN: *out has the bits of the same number in that type.
 * NONE: that type does not have the number.
 * NOT_A_NUMBER: a code is not below 8, or `bits` are no number of the type `from`, as 256 for U8. */
uint32_t doqallin_cast_integer(uint8_t from, uint64_t bits, uint8_t to, uint64_t *out);

/* Kinds of columns: the codes of the integer types, and then these. Strings and bytes have offsets of 32 bits, and the large ones
 * of 64. */
enum { DOQALLIN_BOOL = 8, DOQALLIN_UTF8, DOQALLIN_LARGE_UTF8, DOQALLIN_BINARY, DOQALLIN_LARGE_BINARY, DOQALLIN_NULL };

/* Kinds of columns of logical types. Floats sort as in PostgreSQL: a NaN equals each other NaN and is above infinity,
 * and both zeros are equal. Dates are days since 1970-01-01, in 32 bits. Times count from midnight, in 32 bits for
 * seconds and milliseconds and in 64 bits for the other units. Timestamps count from 1970-01-01T00:00:00, in 64 bits;
 * those with a zone count in UTC, whatever its name is. Decimals are stored as integers of 32, 64 or 128 bits, each the
 * value times 10 to the scale. Only they have a precision: to 9, 18 and 38 digits. Arrow's date64 is read as
 * DOQALLIN_TIMESTAMP_MS. */
enum {
    DOQALLIN_F32 = 14, DOQALLIN_F64, DOQALLIN_DATE32,
    DOQALLIN_TIME_S, DOQALLIN_TIME_MS, DOQALLIN_TIME_US, DOQALLIN_TIME_NS,
    DOQALLIN_TIMESTAMP_S, DOQALLIN_TIMESTAMP_MS, DOQALLIN_TIMESTAMP_US, DOQALLIN_TIMESTAMP_NS,
    DOQALLIN_TIMESTAMP_S_UTC, DOQALLIN_TIMESTAMP_MS_UTC, DOQALLIN_TIMESTAMP_US_UTC, DOQALLIN_TIMESTAMP_NS_UTC,
    DOQALLIN_DECIMAL32, DOQALLIN_DECIMAL64, DOQALLIN_DECIMAL128
};

/* A kind by its code. Only decimals have a precision, which is how many digits a number has at most, and a scale, which
 * is how many of these are behind the point. For other kinds neither is read. Decimals without them are no kind: a call
 * that takes only a code takes no decimals, and one with `typed` in its name takes a doqallin_kind. */
struct doqallin_kind {
    uint8_t code;
    uint8_t precision;
    uint8_t scale;
};

/* A column as the Arrow C data interface lays it out: its rows are offset to offset + length of its buffers. `validity`
 * has a bit for each row, 0 for a null, or no byte if there are no nulls. `values` are the items, the bits of bools, or
 * the bytes of all rows. Only strings and bytes have `offsets`. A column without rows may have any offset, and no bytes
 * in a buffer. A row of a logical type is tested if it is not null: a time of 25 hours, or too many digits, is
 * NOT_A_VALUE. Each bit pattern is a float. Buffers may have any alignment. */
struct doqallin_column {
    uint8_t kind;
    uint8_t precision; /* for decimals alone, as in doqallin_kind; it is where there was padding */
    uint8_t scale;
    const uint8_t *validity;
    size_t validity_length;
    const uint8_t *values;
    size_t values_length;
    const uint8_t *offsets;
    size_t offsets_length;
    size_t offset;
    size_t length;
};

/* Where a mistake is: which column, and which row of it (the first such one), or which buffer: 0 validity, 1 values, 2
 * offsets. For statistics in bytes it is which of them, and the offset of which byte. */
struct doqallin_fault {
    size_t column;
    size_t place;
};

/* Casts a column of integers to the type `to`, all rows or none. A column of a logical type is not a column of
 * integers. Takes no memory. If several statuses fit, the first of these comes:
 * UNKNOWN_KIND: exactly if a code is not below 8. fault->column is 1 if it is `to`, and 0 if only column->kind is not
 * below 8. fault->place is 0.
 * TOO_MANY_ROWS: exactly if there is a row and column->offset + column->length is 2^64 or more. fault->column and
 * fault->place are 0.
 * TOO_SHORT: exactly if a buffer is too short: fault->place is 0 for the validity, 1 for the values. fault->column is
 * 0.
 * BUFFER_TOO_SMALL: exactly if the buffer has fewer bytes than column->length times the width of `to`. Here nothing is
 * written.
 * NONE: exactly if that type lacks the number of a row that is not null: fault->place is the first. fault->column is 0.
 * GIVEN: the buffer begins with a number of that type for each row, 0 for a null; the bytes after them are as they
 * were. */
uint32_t doqallin_cast_column(const struct doqallin_column *column, uint8_t to, uint8_t *buffer, size_t buffer_length,
                              struct doqallin_fault *fault);

/* The same with less work, in one pass if there is no validity. One status differs:
 * NONE: the buffer begins with a number of that type for each row before fault->place, 0 for a null; the bytes after them are as
 * they were. */
uint32_t doqallin_cast_front(const struct doqallin_column *column, uint8_t to, uint8_t *buffer, size_t buffer_length,
                             struct doqallin_fault *fault);

/* The lower bound of bytes at n bytes: the whole value if it has at most n bytes, otherwise its first n bytes. These
 * are the greatest bytes of at most that length that are not above the value. Returns how many of the first bytes the
 * bound has: min(n, value_length). */
size_t doqallin_lower_bound_bytes(const uint8_t *value, size_t value_length, size_t n);

/* The lower bound of a string at n bytes, by whole characters.
 * GIVEN: the bound is the first *count bytes: the longest beginning that has whole characters and at most n bytes.
 * NOT_UTF8: the value is not UTF-8. */
uint32_t doqallin_lower_bound_text(const uint8_t *value, size_t value_length, size_t n, size_t *count);

/* The upper bound of bytes at n bytes: the whole value if it has at most n bytes, otherwise the least bytes above it
 * that have length n. A buffer of min(n, value_length) bytes suffices.
 * GIVEN: the bound is in the first *count bytes of the buffer; those after it are as they were.
 * NONE: the value has more than n bytes, and no n bytes are above it (its first n are all 255).
 * BUFFER_TOO_SMALL: *count, more than buffer_length, is how many bytes the bound has.
 * NO_MEMORY: only if n is above 22 and value_length above n. */
uint32_t doqallin_upper_bound_bytes(const uint8_t *value, size_t value_length, size_t n, uint8_t *buffer,
                                    size_t buffer_length, size_t *count);

/* The upper bound of a string at n bytes. A string of at most n bytes is its own bound. For a longer one the bound is
 * the least string above it that has as many bytes as its lower bound. The statuses are as for
 * doqallin_upper_bound_bytes, except for these:
 * NONE: the value has more than n bytes. Its lower bound is empty, or the code point after the lower bound's last
 * character is no character of as many bytes.
 * NOT_UTF8: the value is not UTF-8. */
uint32_t doqallin_upper_bound_text(const uint8_t *value, size_t value_length, size_t n, uint8_t *buffer,
                                   size_t buffer_length, size_t *count);

/* The next four calls are deprecated, since they know no nulls: a null counts as an empty string. Use
 * doqallin_column_statistics, which gives the bounds of a column and counts its nulls, and doqallin_filter_outcomes,
 * which takes statistics. */

/* Whether a zone with these bounds may hold the bytes. The answer is false exactly if they are below the lower bound,
 * or if has_upper is true and they are above the upper one. Without has_upper, `upper` is not read. */
bool doqallin_may_contain_bytes(const uint8_t *lower, size_t lower_length, const uint8_t *upper, size_t upper_length,
                                bool has_upper, const uint8_t *value, size_t value_length);

/* Whether a zone with these bounds may hold the string, by the order of bytes.
 * GIVEN: *answer is false exactly if the string is below the lower bound, or if has_upper is true and it is above the
 * upper one.
 * NOT_UTF8: the value, the lower bound or, with has_upper, the upper bound is not UTF-8. */
uint32_t doqallin_may_contain_text(const uint8_t *lower, size_t lower_length, const uint8_t *upper, size_t upper_length,
                                   bool has_upper, const uint8_t *value, size_t value_length, bool *answer);

/* How many bytes each bound of a column has, and whether there is an upper one (if not, `upper` is 0). */
struct doqallin_bound_lengths {
    size_t lower;
    size_t upper;
    bool has_upper;
};

/* The lower bound at n bytes of a column's least value, and the upper bound of its greatest one. Value k is the bytes
 * from offsets[k] to offsets[k + 1], so that m values have m + 1 offsets; the first offset may be above 0. Two buffers
 * of min(n, bytes_length) bytes suffice.
 * GIVEN: the bounds are in the first bytes of the buffers, as `lengths` says; the bytes after them are as they were.
 * NONE: exactly if there is no value (fewer than 2 offsets).
 * BUFFER_TOO_SMALL: a buffer has fewer bytes than its bound; `lengths` says how many each bound has.
 * BAD_OFFSETS: exactly if an offset is below the one before it, or one after the first is past the end of the bytes.
 * NO_MEMORY: only if n is above 22 and bytes_length above n. */
uint32_t doqallin_column_bounds_bytes(const uint8_t *bytes, size_t bytes_length, const uint64_t *offsets,
                                      size_t offsets_length, size_t n, uint8_t *lower_buffer, size_t lower_buffer_length,
                                      uint8_t *upper_buffer, size_t upper_buffer_length,
                                      struct doqallin_bound_lengths *lengths);

/* The bounds of a column of strings, by whole characters. The statuses are as for doqallin_column_bounds_bytes, and:
 * NOT_UTF8: exactly if the least or the greatest value is not UTF-8, whole. The other values are not tested. */
uint32_t doqallin_column_bounds_text(const uint8_t *bytes, size_t bytes_length, const uint64_t *offsets,
                                     size_t offsets_length, size_t n, uint8_t *lower_buffer, size_t lower_buffer_length,
                                     uint8_t *upper_buffer, size_t upper_buffer_length,
                                     struct doqallin_bound_lengths *lengths);

/* The keys of the rows of some columns (docs/KEYS.md): bytes that compare as the rows do, column by column. The key of
 * row k is the bytes of the buffer from offsets_buffer[k] to offsets_buffer[k + 1]. A float, a date or a decimal has
 * the key of the integer or the bytes that store it. Only the kind says which it is, when the key is read back. A
 * column has a byte of options: 1 for greater values first, 2 for nulls first, or the sum. If several statuses other
 * than GIVEN fit, the first of these comes: WRONG_LENGTH for the options, the mistake of the first column that has one,
 * BUFFER_TOO_SMALL.
 * GIVEN: the keys have the first *count bytes of the buffer; those after it are as they were.
 * BUFFER_TOO_SMALL: only *count is written. It is how many bytes the keys have. Either that is above buffer_length, or
 * offsets_buffer has too few items: it needs one for each row and one more. To ask for it, give a buffer of length 0.
 * WRONG_LENGTH: there are more or fewer options than columns, and fault->column is the number of columns. Or the column
 * fault->column has another number of rows than the first.
 * BAD_OPTIONS: the byte of fault->column is above 3.
 * UNKNOWN_KIND, TOO_MANY_ROWS, TOO_SHORT, BAD_OFFSETS, NOT_UTF8, NOT_A_VALUE: fault->column cannot be read, because of
 * what is at fault->place.
 * NO_MEMORY: only if each column and its options are right. Memory is asked for each column. */
uint32_t doqallin_row_keys(const struct doqallin_column *columns, size_t column_count, const uint8_t *options,
                           size_t options_length, uint64_t *offsets_buffer, size_t offsets_buffer_length, uint8_t *buffer,
                           size_t buffer_length, size_t *count, struct doqallin_fault *fault);

/* Where a column is written, in Arrow's layout: buffers for its validity, its values and its offsets. `count` is
 * written: how many bytes the values have. */
struct doqallin_column_buffers {
    uint8_t *validity;
    size_t validity_length;
    uint8_t *values;
    size_t values_length;
    uint64_t *offsets;
    size_t offsets_length;
    size_t count;
};

/* Reads the keys of rows back into columns of these kinds. Each kind is given by its code, with its byte of options, as
 * for doqallin_row_keys. The key of row k goes from offsets[k] to offsets[k + 1], so that n rows have n + 1 offsets; no
 * rows may have none. Keys may come from anywhere: each is tested first, and read once.
 * GIVEN: for each column `validity` has a bit for each row, 0 for a null, in its first (n + 7) / 8 bytes. `values`
 * begins with `count` bytes: items of the kind, 0 for a null; bits of bools; or the bytes of all strings, none for a
 * null. A float that is 0 has no sign, and each NaN has the same bits. For strings and bytes `offsets` begins with
 * n + 1 offsets of 64 bits, even if the kind has offsets of 32 bits. For other kinds it is not written. What follows
 * stays as it was.
 * BUFFER_TOO_SMALL: a buffer is too short. Only the counts are written: how many bytes the values of each column have.
 * To ask for them, give buffers of length 0.
 * WRONG_LENGTH: there are more or fewer options than kinds, or columns than kinds. fault->column is the number of
 * kinds.
 * BAD_OPTIONS: the byte of fault->column is above 3.
 * UNKNOWN_KIND: the code of fault->column is of no kind.
 * BAD_OFFSETS: the offsets of the key fault->place go down, or past the end of the bytes.
 * BAD_BYTES: a key is of no row of these kinds. fault->place is the offset, in all bytes, of the first one that no such
 * key has there, or the end of a key that ends too early. Of these two statuses the first key decides.
 * NOT_A_VALUE: the key fault->place stores no value of the logical type of fault->column.
 * NO_MEMORY: only if each kind and its options are right. Memory is asked for each column, and for the values of all
 * rows at once.
 * Under each status other than GIVEN the buffers stay as they were. */
uint32_t doqallin_columns_of_row_keys(const uint8_t *kinds, size_t kinds_length, const uint8_t *options, size_t options_length,
                                      const uint64_t *offsets, size_t offsets_length, const uint8_t *bytes, size_t bytes_length,
                                      struct doqallin_column_buffers *columns, size_t column_count, struct doqallin_fault *fault);

/* The same for any kinds, decimals too. */
uint32_t doqallin_columns_of_typed_keys(const struct doqallin_kind *kinds, size_t kinds_length, const uint8_t *options,
                                        size_t options_length, const uint64_t *offsets, size_t offsets_length,
                                        const uint8_t *bytes, size_t bytes_length, struct doqallin_column_buffers *columns,
                                        size_t column_count, struct doqallin_fault *fault);

/* The statistics of a column in their stable encoding (docs/STATISTICS.md): its counts, and its least and its greatest
 * value. If these are strings or bytes, they are cut to max_length bytes, and are then bounds rather than values. Among
 * floats a NaN is the greatest value, if there is one. Statistics of a logical type name it.
 * GIVEN: the encoding has the first *count bytes of the buffer; those after it are as they were.
 * BUFFER_TOO_SMALL: only *count is written. It is how many bytes the encoding has, above buffer_length. To ask for it,
 * give a buffer of length 0.
 * UNKNOWN_KIND, TOO_MANY_ROWS, TOO_SHORT, BAD_OFFSETS, NOT_UTF8, NOT_A_VALUE: the column cannot be read, because of
 * what is at fault->place. fault->column is 0.
 * NO_MEMORY: only if the column can be read. No clause says more. The code asks for memory for the encoding, and for a
 * least and a greatest value of more than 22 bytes, but not for each row. */
uint32_t doqallin_column_statistics(const struct doqallin_column *column, size_t max_length, uint8_t *buffer,
                                    size_t buffer_length, size_t *count, struct doqallin_fault *fault);

/* The statistics of two pieces of a column together, `one` and then `other`, from the encodings of both. `kind` is that
 * of the column. If both are right, so is the result, and pieces may be merged in any grouping. A buffer as long as
 * both encodings together suffices.
 * GIVEN, BUFFER_TOO_SMALL: as from doqallin_column_statistics.
 * UNKNOWN_KIND: exactly if `kind` is of no kind. fault->column and fault->place are 0.
 * BAD_BYTES: fault->column is 0 or 1, the first piece that is no encoding of statistics of the kind. fault->place is
 * the offset of its first byte that no such encoding has there, or its length if it ends too early.
 * NOT_A_VALUE: a bound of the piece fault->column is no value of the logical type. fault->place is 0.
 * TOO_MANY_ROWS: both are such encodings, and 64 bits do not count the rows of both. fault->column and fault->place are
 * 0.
 * NO_MEMORY: only if one of these holds. The kind is of a logical type; the first piece says a bound; the first is such
 * an encoding, and the second says a bound; both can be merged. */
uint32_t doqallin_merge_statistics(uint8_t kind, const uint8_t *one, size_t one_length, const uint8_t *other,
                                   size_t other_length, uint8_t *buffer, size_t buffer_length, size_t *count,
                                   struct doqallin_fault *fault);

/* The same for any kind, decimals too. */
uint32_t doqallin_merge_typed(const struct doqallin_kind *kind, const uint8_t *one, size_t one_length, const uint8_t *other,
                              size_t other_length, uint8_t *buffer, size_t buffer_length, size_t *count,
                              struct doqallin_fault *fault);

/* What statistics say, without the bytes of the bounds: the row count, and the null count (0 if it is not known). A
 * bound is exact if some value is equal to it. A missing bound is not exact, and has no bytes. */
struct doqallin_statistics_parts {
    uint64_t row_count;
    uint64_t null_count;
    size_t lower_length;
    size_t upper_length;
    bool has_null_count;
    bool has_lower;
    bool lower_is_exact;
    bool has_upper;
    bool upper_is_exact;
};

/* The statistics of a column of this kind that have this encoding. If they were written for a column, no value in it is
 * below the lower bound or above the upper one. A bound that is an integer, a float, a decimal, a date or a time is an
 * item of the kind, its low byte first. A bool is a byte, 0 or 1, and strings and bytes are as they are. In bytes from
 * anywhere a bound may be null: it is reported as missing, which says less. Two buffers of 8 bytes (16 for decimals),
 * or of bytes_length if that is more, suffice.
 * GIVEN: the bounds are in the first bytes of the buffers, as *parts says; the bytes after them are as they were.
 * BUFFER_TOO_SMALL: a buffer has fewer bytes than its bound. *parts is written all the same, with the length of each
 * bound.
 * UNKNOWN_KIND: exactly if `kind` is of no kind. fault->column and fault->place are 0.
 * BAD_BYTES: the bytes are no encoding of statistics of the kind. fault->place is the offset of the first byte that no
 * such encoding has there, or bytes_length if they end too early. fault->column is 0.
 * NOT_A_VALUE: a bound is no value of the logical type. fault->column and fault->place are 0.
 * NO_MEMORY: only if the bytes say that there is a bound, or the kind is of a logical type. */
uint32_t doqallin_read_statistics(uint8_t kind, const uint8_t *bytes, size_t bytes_length, uint8_t *lower_buffer,
                                  size_t lower_buffer_length, uint8_t *upper_buffer, size_t upper_buffer_length,
                                  struct doqallin_statistics_parts *parts, struct doqallin_fault *fault);

/* The same for any kind, decimals too. */
uint32_t doqallin_read_typed(const struct doqallin_kind *kind, const uint8_t *bytes, size_t bytes_length, uint8_t *lower_buffer,
                             size_t lower_buffer_length, uint8_t *upper_buffer, size_t upper_buffer_length,
                             struct doqallin_statistics_parts *parts, struct doqallin_fault *fault);

/* A column that a filter may name: its name, in UTF-8, and its kind. A literal has the kind of its column
 * (docs/FILTERS.md). */
struct doqallin_named_kind {
    const uint8_t *name;
    size_t name_length;
    uint8_t kind;
    uint8_t precision; /* for decimals alone, as in doqallin_kind; it is where there was padding */
    uint8_t scale;
};

/* Where a text is no filter, as an offset, and what is wrong there: one of these codes. */
struct doqallin_mistake {
    size_t place;
    uint32_t expected;
};
enum {
    DOQALLIN_EXPECTED_FILTER,    /* one of these had to come: a filter */
    DOQALLIN_EXPECTED_COLUMN,    /* a column */
    DOQALLIN_EXPECTED_OPERATOR,  /* an operator */
    DOQALLIN_EXPECTED_LITERAL,   /* a literal */
    DOQALLIN_EXPECTED_PATTERN,   /* a pattern that its escape does not end */
    DOQALLIN_EXPECTED_ESCAPE,    /* a string of one character */
    DOQALLIN_EXPECTED_NULL,      /* null */
    DOQALLIN_EXPECTED_AND,       /* and */
    DOQALLIN_EXPECTED_OPENING,   /* ( */
    DOQALLIN_EXPECTED_CLOSING,   /* ) */
    DOQALLIN_EXPECTED_COMMA,     /* a comma */
    DOQALLIN_EXPECTED_END,       /* the end */
    DOQALLIN_NO_COLUMN,          /* no column has this name */
    DOQALLIN_TYPES_DIFFER,       /* the literal is of another type than the column */
    DOQALLIN_NO_LITERAL,         /* null is the only literal for the column's type */
    DOQALLIN_NUMBER_TOO_LONG,    /* no value of the column's type is written as the number */
    DOQALLIN_BAD_TEXT,           /* no token begins here, or it does not end */
    DOQALLIN_TOO_DEEP            /* more connectives and parentheses nest than may */
};

/* Prepares a filter: reads `words`, its text (docs/FILTERS.md), over columns by name and kind, and writes its stable
 * encoding (docs/FILTER_ENCODING.md). The calls below take the encoding, at the same `depth`: so many connectives and
 * parentheses may nest in the text. A text that nests n deep nests at most 2 * n + 5 deep in the encoding, and the
 * calls read so much. 32 suffices for most. If several statuses other than GIVEN fit, the first of these comes:
 * UNKNOWN_KIND, NOT_UTF8: mistake->place is the first column that is of no kind, or has a name that is not UTF-8.
 * NOT_UTF8: the text is not, and mistake->place is column_count. These two come exactly so, however little memory there
 * is.
 * BAD_FILTER: mistake->place is the offset in the text where something else had to come, or its length, and
 * mistake->expected says what. If a text can be read at this depth, so can its encoding.
 * BUFFER_TOO_SMALL: only *count is written. It is how many bytes the encoding has, above buffer_length. To ask for it,
 * give a buffer of length 0.
 * GIVEN: the encoding has the first *count bytes of the buffer; those after it are as they were.
 * NO_MEMORY: may come in place of BAD_FILTER, BUFFER_TOO_SMALL and GIVEN. */
uint32_t doqallin_prepare_filter(const uint8_t *words, size_t words_length, const struct doqallin_named_kind *columns,
                                 size_t column_count, size_t depth, uint8_t *buffer, size_t buffer_length, size_t *count,
                                 struct doqallin_mistake *mistake);

/* What a prepared filter can be for the rows of zones, by their statistics: a byte of `outcomes` for each zone. It is 1
 * if the filter can be false for a row, plus 2 if it can be unknown, plus 4 if it can be true. A piece is the
 * statistics of one column in one zone, in their stable encoding (docs/STATISTICS.md): piece k is the bytes from
 * offsets[k] to offsets[k + 1]. Pieces come zone by zone, one for each column that the filter was prepared for. An
 * empty piece excludes nothing. The piece of a column that the filter does not name is not read: its bytes may be any,
 * and its offsets any numbers. `depth` is that with which the filter was prepared, or more.
 * GIVEN: each zone has its byte. Under each other status the outcomes may have any bytes, and the first of these comes:
 * BAD_BYTES: the filter is no encoding that nests so deep at most. fault->column is offsets_length. fault->place is the
 * offset of the first byte that no such encoding has there, or the filter's length if it ends too early. Or a literal
 * in it is no value of its logical type, as a day past the year 9999: fault->place is where its key begins.
 * WRONG_LENGTH: there are not as many offsets as pieces, and one more. fault->column is offsets_length.
 * BAD_OFFSETS: an offset of the piece fault->column is below the one before it, or past the end of the statistics.
 * BAD_BYTES: the piece fault->column is no encoding of statistics of its column's kind; fault->place is as above, in
 * the piece. Of the last two statuses the first piece decides, of those whose columns the filter names.
 * NO_MEMORY: may come in place of each other status, but only if the filter's first byte is 1 or 2. Memory is asked for
 * the filter and its columns, and for one zone at a time. */
uint32_t doqallin_filter_outcomes(const uint8_t *filter, size_t filter_length, const uint8_t *statistics,
                                  size_t statistics_length, const uint64_t *offsets, size_t offsets_length, size_t depth,
                                  uint8_t *outcomes, size_t outcomes_length, struct doqallin_fault *fault);

/* Which of row_count rows match a prepared filter: a bit for each, 1 if the filter is true for it, from the least
 * significant bit on. The columns are those that it was prepared for, in their order, and each that the filter names
 * has so many rows. Strings and bytes may have either width of offsets, and decimals any width that has their
 * precision. A column that the filter does not name is not looked at: it may be of any kind, also of none. A filter
 * that names no column is the same for each row. `depth` is as above.
 * GIVEN: the buffer begins with the bits of the rows. Those after them in their last byte are 0, and the bytes after it
 * are as they were. Under each other status the whole buffer is as it was, and the first of these comes:
 * BAD_BYTES: the filter is no encoding that nests so deep at most, or has such a literal. fault->column is
 * column_count, and fault->place is as above.
 * BUFFER_TOO_SMALL: exactly if the filter was read, for which memory is asked, and the buffer has fewer bytes than a
 * bit for each row takes. Here `fault` is not written.
 * WRONG_LENGTH: there are more or fewer columns than the filter was prepared for. fault->column is column_count.
 * UNKNOWN_KIND, TOO_MANY_ROWS, TOO_SHORT, BAD_OFFSETS, NOT_UTF8, NOT_A_VALUE: fault->column cannot be read, because of
 * what is at fault->place.
 * UNKNOWN_KIND: fault->column is of another kind than the filter's, and fault->place is 1.
 * WRONG_LENGTH: fault->column has another number of rows than row_count. Of the last three the first column decides,
 * among those that the filter names.
 * NO_MEMORY: may come in place of each other status, but only if the filter's first byte is 1 or 2. Memory is asked for
 * the filter and for each column, and for no value. */
uint32_t doqallin_filter_mask(const uint8_t *filter, size_t filter_length, const struct doqallin_column *columns,
                              size_t column_count, size_t row_count, size_t depth, uint8_t *buffer, size_t buffer_length,
                              struct doqallin_fault *fault);

/* Searches in CSV files (docs/SEARCHES.md). The library opens nothing: the caller reads the bytes of the file and of
 * its index, as it likes. An index is made by `zone_map index` or by doqallin_write_index. First the caller reads the
 * root of the index, and then the blocks that a filter needs. Then it reads the ranges of the file that a plan names,
 * and searches them. `words` is the text of a filter, and it and `depth` are as for doqallin_prepare_filter. In
 * addition, a name without quotes that no column has exactly means the one column that has it in another case.
 *
 * A setup is a text in UTF-8 that says how records are read. Each of its lines ends with a line feed. The first are
 * `null WORD`, for each word that is a null. Then comes a line of four numbers with a blank between two. The first is
 * the delimiter's byte, or 255 if each line is one field. The second is 1 if records are read leniently, otherwise 0.
 * The last two, which may be 0, are how many bytes a bound has at most, and how many records a zone has. Then each
 * column has a line: its kind, as --columns has it without blanks inside, a blank, and its name. An example has the
 * lines `44 0 0 0`, `i64 id` and `utf8? first name`. */

/* How many bytes of an index say how long its root is. */
#define DOQALLIN_INDEX_HEAD 16

/* So many bytes of a file from an offset on, which is `place`. */
struct doqallin_byte_range {
    uint64_t place;
    uint64_t length;
};

/* What the root of an index says: how long the file was, when it changed last (nanoseconds since 1970), and the offset
 * of its first record. It also says how many zones and blocks there are. Each column has a block. */
struct doqallin_index_parts {
    uint64_t file_length;
    uint64_t changed;
    uint64_t start;
    size_t zone_count;
    size_t block_count;
};

/* What is wrong with what a search was given, or with a record.
 * BAD_BYTES: `column` says which part is wrong, one of the DOQALLIN_PART_... `reason` says what is wrong with it, one
 * of the DOQALLIN_INDEX_..; for a setup and for statistics it is 0.
 * NOT_UTF8: the text of the filter is not. All three are 0.
 * BAD_FILTER: `place` is the offset in the text of the filter, and `reason` a code as in doqallin_mistake.
 * BAD_OFFSETS: `place` is the first zone to be read that ends at 2^64 or behind it. If a text is indexed, all three are
 * 0.
 * REFUSED: `place` is the offset in the file at which the record begins, and `reason` one of the DOQALLIN_REFUSED_...
 * `column` is the column, from 0, that does not take its field.
 * WRONG_LENGTH, UNKNOWN_KIND: as the call says. */
struct doqallin_search_fault {
    uint64_t place;
    uint64_t column;
    uint32_t reason;
};
enum { DOQALLIN_PART_ROOT, DOQALLIN_PART_BLOCKS, DOQALLIN_PART_SETUP, DOQALLIN_PART_STATISTICS };
enum {
    DOQALLIN_INDEX_SHORT,   /* a field passes the end */
    DOQALLIN_INDEX_MAGIC,   /* the bytes are no index */
    DOQALLIN_INDEX_VERSION, /* they are from an index of another version */
    DOQALLIN_INDEX_DAMAGED, /* the root or a block is not what was written */
    DOQALLIN_INDEX_TRAILING /* bytes follow the last field */
};
enum {
    DOQALLIN_REFUSED_FIELD,       /* a column does not take its field */
    DOQALLIN_REFUSED_FIELD_COUNT, /* there are more fields than columns, or fewer */
    DOQALLIN_REFUSED_LONE_RETURN  /* a carriage return ends a row inside of the record */
};

/* How many bytes the root of an index has, by its first DOQALLIN_INDEX_HEAD bytes. What follows them is not looked at.
 * Takes no memory.
 * GIVEN: *count is how many, at most 2^64 - 1.
 * BAD_BYTES: there are fewer, or they are not from an index of this version. */
uint32_t doqallin_index_root_length(const uint8_t *head, size_t head_length, uint64_t *count, struct doqallin_search_fault *fault);

/* What a root says, and its setup. What follows the root is not looked at.
 * GIVEN: the setup has the first *count bytes of the buffer; those after it are as they were.
 * BUFFER_TOO_SMALL: *count is how many bytes it has, above buffer_length. *parts is written all the same.
 * BAD_BYTES: the bytes do not begin with a root.
 * NO_MEMORY: may come in place of each other status. */
uint32_t doqallin_index_root(const uint8_t *root, size_t root_length, uint8_t *buffer, size_t buffer_length, size_t *count,
                             struct doqallin_index_parts *parts, struct doqallin_search_fault *fault);

/* Which ranges of an index a filter needs beside its root: the blocks of the columns that it names. No range is empty,
 * and none begins where the one before it ends. As many ranges as there are blocks suffice.
 * GIVEN: the first *count of `ranges`; those after them are as they were.
 * BUFFER_TOO_SMALL: only *count is written. It is how many there are.
 * BAD_BYTES, NOT_UTF8, BAD_FILTER: the first of these that is wrong, in this order: the root, the UTF-8 of `words`, the
 * setup, the filter.
 * NO_MEMORY: may come in place of each other status. */
uint32_t doqallin_search_blocks(const uint8_t *root, size_t root_length, const uint8_t *words, size_t words_length, size_t depth,
                                struct doqallin_byte_range *ranges, size_t ranges_length, size_t *count,
                                struct doqallin_search_fault *fault);

/* A zone: its offset in the file, and how many bytes, records and rows it has. An empty line is a record without a row.
 * `number` is how many records come before it, `way` what is to be done with it, and `decision` what its statistics
 * decide. */
struct doqallin_zone {
    uint64_t place;
    uint64_t length;
    uint64_t records;
    uint64_t rows;
    uint64_t number;
    uint8_t way;
    uint8_t decision;
};
enum { DOQALLIN_WAY_SKIP, DOQALLIN_WAY_WHOLE, DOQALLIN_WAY_SEARCH };     /* no record matches; each does; it is to be searched */
enum { DOQALLIN_NONE_MATCH, DOQALLIN_ALL_MATCH, DOQALLIN_UNKNOWN };      /* no row matches; each does; nothing is decided */

/* How many zones and ranges a plan has. */
struct doqallin_plan_lengths {
    size_t zones;
    size_t ranges;
};

/* What is to be done with each zone in a search by a filter, and what is to be read of the file. `blocks` are the bytes
 * of the ranges that doqallin_search_blocks gives for the same filter, one after another. The ranges cover, in order,
 * exactly the zones that are not skipped. With is_count they cover only the zones for which the statistics decide
 * nothing: in the others as many records match as there are rows, or none. No range is empty, and none begins where the
 * one before it ends. As many zones and ranges as the index has zones suffice.
 * GIVEN: the first lengths->zones of `zones` and lengths->ranges of `ranges`; those after them are as they were.
 * BUFFER_TOO_SMALL: only *lengths is written. It says how many there are of each.
 * BAD_BYTES, NOT_UTF8, BAD_FILTER: as from doqallin_search_blocks, and after these BAD_BYTES for the blocks.
 * BAD_OFFSETS: a zone that is to be read ends at 2^64 or behind it.
 * NO_MEMORY: may come in place of each other status. */
uint32_t doqallin_search_plan(const uint8_t *root, size_t root_length, const uint8_t *blocks, size_t blocks_length,
                              const uint8_t *words, size_t words_length, size_t depth, bool is_count,
                              struct doqallin_zone *zones, size_t zones_length, struct doqallin_byte_range *ranges,
                              size_t ranges_length, struct doqallin_plan_lengths *lengths, struct doqallin_search_fault *fault);

/* A record that matches: the offset of its first byte in the file, how many bytes it has with its line end, and its number. */
struct doqallin_found {
    uint64_t place;
    uint64_t length;
    uint64_t number;
};

/* Where a record begins: its offset in the file, and its number. */
struct doqallin_position {
    uint64_t place;
    uint64_t number;
};

/* The records of a text that match. The text begins with a record, which has the place and the number of *position. `is_end` says
 * that a zone or the file ends with it. If not, its last record is left, since it may be cut; the others are the next ones of the
 * file, whatever follows. What is found zone by zone is what is found in the whole file.
 * GIVEN: the first *count of `found` are the records that match, in order; those after them are as they were. *position is where
 * the first record begins that was not judged: behind the text, if all were. Else there is no room for it in `found`, and it
 * matches; or it is the last one, and not is_end. Give the text from there again, with more room or with what follows.
 * REFUSED: *position is where the first record begins that has fields that are no row. The first *count of `found` are the
 * records before it that match; those after them are as they were.
 * BAD_BYTES, NOT_UTF8, BAD_FILTER: of the words, the setup and the filter, the first that is wrong.
 * NO_MEMORY: may come in place of each but NOT_UTF8. Memory is asked for the filter and a row, and none for each record found. The
 * first of `found` may be records that match; those after them are as they were.
 * Under each status but GIVEN and REFUSED, *count and *position are as they were. */
uint32_t doqallin_search_records(const uint8_t *setup, size_t setup_length, const uint8_t *words, size_t words_length, size_t depth,
                                 const uint8_t *text, size_t text_length, bool is_end, struct doqallin_position *position,
                                 struct doqallin_found *found, size_t found_length, size_t *count,
                                 struct doqallin_search_fault *fault);

/* The kinds that doqallin_search_columns gives to the columns of a setup. Integers keep their type, strings and bytes have
 * offsets of 64 bits, and decimals 128 bits. Floats, days, times and timestamps keep their kinds.
 * GIVEN: the first *count items of `kinds` are written, one for each column. Those behind them stay as they were.
 * BUFFER_TOO_SMALL: *count is how many columns there are. Nothing else is written.
 * BAD_BYTES: `setup` is none. NO_MEMORY: *fault is not written. */
uint32_t doqallin_column_kinds(const uint8_t *setup, size_t setup_length, struct doqallin_kind *kinds, size_t kinds_length,
                               size_t *count, struct doqallin_search_fault *fault);

/* The columns of the rows in a text that match. `wanted` has the places of the wanted columns in the setup, from 0, in any
 * order. The text is at `place` in the file. It begins with a record and ends with one, as a zone does. Each record is read
 * once. The columns of several zones, one behind another, are those of the whole file.
 * GIVEN: *rows is how many rows match. Each column is written as doqallin_columns_of_row_keys does, in the kind that
 * doqallin_column_kinds gives, so that it may have nulls.
 * BUFFER_TOO_SMALL: a buffer is too short. *rows is how many rows match, and each count is how many bytes the values have.
 * Nothing else is written. A call without buffers asks for these numbers.
 * BAD_BYTES, NOT_UTF8, BAD_FILTER: the first of these that is wrong: the filter's text, the setup, the filter.
 * WRONG_LENGTH: the columns are not as many as the wanted ones. fault->place is how many are wanted.
 * UNKNOWN_KIND: the item fault->column of `wanted` is no column of the setup.
 * REFUSED: a record has fields and is no row. *fault describes the first such record.
 * NO_MEMORY: may come in place of each status but NOT_UTF8. Memory is asked for the filter and for the rows that match.
 * Under each status but GIVEN the buffers stay as they were. */
uint32_t doqallin_search_columns(const uint8_t *setup, size_t setup_length, const uint8_t *words, size_t words_length, size_t depth,
                                 uint64_t place, const uint8_t *text, size_t text_length, const size_t *wanted,
                                 size_t wanted_length, struct doqallin_column_buffers *columns, size_t column_count, size_t *rows,
                                 struct doqallin_search_fault *fault);

/* A setup for a file without an index, whose columns are guessed from its first records. `text` is how the file begins,
 * or all of it if is_all. Without is_all its last record is not looked at, since it may be cut. At most a thousand
 * records are looked at. `setup` is a setup's text with the delimiter, the words that are nulls, and the columns whose
 * kinds are known, perhaps none: "44 0 0 0\n". With has_header the first record has the names of the columns, and a
 * byte order mark in front of them is no part of a name. If no column is given, all are guessed. If the header names
 * each that is given and more, the others are guessed. Otherwise the columns stay. Those that are given stay as they
 * are, and those that are guessed take nulls. All else in the setup stays.
 * GIVEN: the setup has the first *count bytes of the buffer. *start is how many bytes the header has: 0 without one, or
 * if the text has no record that is certain to be whole.
 * BUFFER_TOO_SMALL: *count is how many bytes the setup has; *start is written, too.
 * BAD_BYTES: `setup` is none of this library, or no file can have its delimiter (a line feed, a carriage return or a
 * quote). `column` is DOQALLIN_PART_SETUP.
 * NO_MEMORY: *fault is not written. */
uint32_t doqallin_guess_setup(const uint8_t *setup, size_t setup_length, const uint8_t *text, size_t text_length, bool has_header,
                              bool is_all, uint8_t *buffer, size_t buffer_length, size_t *count, uint64_t *start,
                              struct doqallin_search_fault *fault);

/* A zone of an index that is made: the offset of its first byte, how many bytes, records and rows it has, and how many
 * bytes its statistics have. The statistics of all zones follow one another. */
struct doqallin_index_zone {
    uint64_t first;
    uint64_t length;
    uint64_t records;
    uint64_t rows;
    size_t statistics;
};

/* How many zones and bytes of statistics were made, and how many bytes of the text the zones have (`taken`). `nulls` is
 * how many words in these bytes became nulls, since their columns do not take them. `longer` is how many records have
 * more fields than columns. Both go as far as 64 bits count, and are 0 if records are not read leniently. */
struct doqallin_index_lengths {
    size_t zones;
    size_t statistics;
    size_t taken;
    uint64_t nulls;
    uint64_t longer;
};

/* The zones of an index that a text has. The text begins with a record, at the offset `start` of the file. Each zone
 * has as many records as the setup says, or one if it says 0, and the bounds have at most as many bytes as it says.
 * With decimals of more than 18 digits say 16 at least, so that none is cut. `is_end` says that the file ends with the
 * text: then the zones are all of it, and the last one may have fewer records. If not, they are those that are certain
 * to be full, each record with its line feed, whatever follows. Give the text behind them again with what follows, and
 * more of it if there was no zone. The zones and statistics of all calls, one after another, are those of the whole
 * file, however it is cut.
 * GIVEN: the first lengths->zones of `zones` and lengths->statistics of `statistics`; those after them are as they
 * were.
 * BUFFER_TOO_SMALL: only *lengths is written. It says how many there are of each.
 * REFUSED: this is the first record in these zones that has fields that are no row.
 * BAD_OFFSETS: the text ends at 2^64 or behind it.
 * BAD_BYTES: the setup is wrong.
 * NO_MEMORY: may come in place of each. Memory is asked for a zone's text, and for all that is given. */
uint32_t doqallin_index_records(const uint8_t *setup, size_t setup_length, uint64_t start, const uint8_t *text, size_t text_length,
                                bool is_end, struct doqallin_index_zone *zones, size_t zones_length, uint8_t *statistics,
                                size_t statistics_length, struct doqallin_index_lengths *lengths,
                                struct doqallin_search_fault *fault);

/* The bytes of an index, as `zone_map index` writes them to FILE.zones. The file has file_length bytes, and was changed
 * last at `changed` (nanoseconds since 1970). Its first record begins at `start`, and it has these zones, from there to
 * its end, one after another. That they are its zones is not tested. So many bytes suffice: 96, those of the setup and
 * of the statistics, 32 for each zone and 40 for each column.
 * GIVEN: the index has the first *count bytes of the buffer; those after it are as they were.
 * BUFFER_TOO_SMALL: only *count is written. It is how many bytes the index has.
 * BAD_BYTES: the setup is wrong, or the statistics of a zone are not a piece for each column.
 * WRONG_LENGTH: there are more or fewer bytes of statistics than the zones say. *fault is not written.
 * NO_MEMORY: *fault is not written. */
uint32_t doqallin_write_index(const uint8_t *setup, size_t setup_length, uint64_t file_length, uint64_t changed, uint64_t start,
                              const struct doqallin_index_zone *zones, size_t zones_length, const uint8_t *statistics,
                              size_t statistics_length, uint8_t *buffer, size_t buffer_length, size_t *count,
                              struct doqallin_search_fault *fault);

/* Nearly any call of the library, by a line of text. In the library doqallin_call. The line has the call's name and
 * what it is given, as the worked cases in crates/scalar_cases/stdin: `cast i32:1000i32 i16` answers `i16:1000i16`. A
 * refusal is an answer, as `CannotCast`, and so is `bad line`, to bytes that are no line. An arrow, ` => `, and what
 * follows it is passed over. The answer is `TooDeep` if more than 32 brackets nest in a type or a value, or more than
 * 32 connectives and parentheses in a filter.
 * GIVEN: the answer is in the first *count bytes of the buffer, and is UTF-8; those after it are as they were. No
 * clause says which answer comes: the stored cases are run.
 * BUFFER_TOO_SMALL: *count, above buffer_length, is how many bytes the whole answer has. To ask for it, give a buffer
 * of length 0. That the next call has the same answer, and so fits in that buffer, is only tested.
 * NO_MEMORY: there is no memory to read the line or to write the answer. If the call itself finds none, the answer is
 * `OutOfMemory`.
 * Stack: 40 kilobytes and 2.3 more for each level that nests, or, if that is more, 20 and 3.1 more for each level. So
 * no line of 32 levels ends a process on a thread of 128 kilobytes. */
uint32_t doqallin_call(const uint8_t *line, size_t line_length, uint8_t *buffer, size_t buffer_length, size_t *count);

/* The same, for lines that nest at most `depth` deep. */
uint32_t doqallin_call_within(const uint8_t *line, size_t line_length, size_t depth, uint8_t *buffer, size_t buffer_length,
                              size_t *count);

#ifdef __cplusplus
}
#endif
#endif
