// SPDX-License-Identifier: Apache-2.0
#include "cells.h"

#include <math.h>
#include <stdlib.h>
#include <string.h>

SQLITE_EXTENSION_INIT3

enum { MOST_ROWS = FOUND_AT_ONCE, LAST_BIT = 63 };

static bool lacks_memory(char **message) {
    *message = sqlite3_mprintf("out of memory");
    return false;
}

// How many bytes an item of a column has; 0 of strings and bytes.
static size_t width_of(uint8_t kind) {
    switch (kind) {
    case DOQALLIN_U8:
    case DOQALLIN_I8:
        return 1;
    case DOQALLIN_U16:
    case DOQALLIN_I16:
        return 2;
    case DOQALLIN_U32:
    case DOQALLIN_I32:
    case DOQALLIN_F32:
        return 4;
    case DOQALLIN_LARGE_UTF8:
    case DOQALLIN_LARGE_BINARY:
        return 0;
    default:
        return 8;
    }
}

static bool is_used(uint64_t used, size_t column) {
    return used >> (column < LAST_BIT ? column : LAST_BIT) & 1;
}

static bool write_setup(struct cells *cells, const struct source *source, char **message) {
    size_t count = cells->wanted_count == 0 ? 1 : cells->wanted[cells->wanted_count - 1] + 1;
    sqlite3_str *setup = sqlite3_str_new(NULL);
    sqlite3_str_appendall(setup, source->cell_lines);
    for (size_t column = 0; column < count && column < source->column_count; column++)
        sqlite3_str_appendall(setup, source->columns[column].cell_line);
    cells->setup = sqlite3_str_finish(setup);
    return cells->setup != NULL || lacks_memory(message);
}

bool begin_cells(struct cells *cells, const struct source *source, uint64_t used, char **message) {
    end_cells(cells);
    size_t count = source->column_count;
    cells->wanted = calloc(count + 1, sizeof *cells->wanted);
    cells->places = calloc(count + 1, sizeof *cells->places);
    cells->buffers = calloc(count + 1, sizeof *cells->buffers);
    if (cells->wanted == NULL || cells->places == NULL || cells->buffers == NULL)
        return lacks_memory(message);
    for (size_t column = 0; column < count; column++) {
        cells->places[column] = is_used(used, column) ? (int)cells->wanted_count : -1;
        if (!is_used(used, column))
            continue;
        struct doqallin_column_buffers *buffers = &cells->buffers[cells->wanted_count];
        size_t width = width_of(source->columns[column].cell_kind);
        cells->wanted[cells->wanted_count++] = column;
        *buffers = (struct doqallin_column_buffers){.validity_length = MOST_ROWS / 8, .values_length = width * MOST_ROWS, .offsets_length = width == 0 ? MOST_ROWS + 1 : 0};
        buffers->validity = malloc(buffers->validity_length);
        buffers->values = malloc(buffers->values_length + 1);
        buffers->offsets = malloc((buffers->offsets_length + 1) * sizeof *buffers->offsets);
        if (buffers->validity == NULL || buffers->values == NULL || buffers->offsets == NULL)
            return lacks_memory(message);
    }
    return write_setup(cells, source, message);
}

void end_cells(struct cells *cells) {
    for (size_t place = 0; place < cells->wanted_count; place++) {
        free(cells->buffers[place].validity);
        free(cells->buffers[place].values);
        free(cells->buffers[place].offsets);
    }
    free(cells->wanted);
    free(cells->places);
    free(cells->buffers);
    free(cells->text.at);
    sqlite3_free(cells->setup);
    memset(cells, 0, sizeof *cells);
}

// Strings together have no more bytes than the records.
static bool make_room(struct cells *cells, size_t length, char **message) {
    if (length <= cells->room)
        return true;
    for (size_t place = 0; place < cells->wanted_count; place++) {
        struct doqallin_column_buffers *buffers = &cells->buffers[place];
        if (buffers->offsets_length == 0)
            continue;
        uint8_t *values = realloc(buffers->values, length);
        if (values == NULL)
            return lacks_memory(message);
        buffers->values = values;
        buffers->values_length = length;
    }
    cells->room = length;
    return true;
}

// The records that were found, one behind another: where they lie, if nothing is between them, or else copied.
static const uint8_t *records_of(struct cells *cells, const struct search *search, size_t *length, char **message) {
    const struct doqallin_found *first = search->found, *last = &search->found[search->found_count - 1];
    *length = 0;
    for (const struct doqallin_found *found = first; found <= last; found++)
        *length += found->length;
    const uint8_t *text = search->text.at + (first->place - search->text_start);
    if (first->place + *length == last->place + last->length)
        return text;
    uint8_t *copied = realloc(cells->text.at, *length);
    if (copied == NULL) {
        lacks_memory(message);
        return NULL;
    }
    cells->text.at = copied;
    for (const struct doqallin_found *found = first; found <= last; found++) {
        memcpy(copied, search->text.at + (found->place - search->text_start), found->length);
        copied += found->length;
    }
    return cells->text.at;
}

// Reads the columns of the records that were found together.
static bool read_cells(struct cells *cells, const struct search *search, char **message) {
    const struct source *source = search->source;
    struct doqallin_search_fault fault = {0};
    size_t length, rows = 0;
    const uint8_t *text = records_of(cells, search, &length, message);
    if (text == NULL || !make_room(cells, length, message))
        return false;
    uint32_t status = doqallin_search_columns((const uint8_t *)cells->setup, strlen(cells->setup), (const uint8_t *)EVERY_ROW, strlen(EVERY_ROW), 1, 0, text,
                                              length, cells->wanted, cells->wanted_count, cells->buffers, cells->wanted_count, &rows, &fault);
    cells->block = search->block;
    if (status == DOQALLIN_NO_MEMORY)
        return lacks_memory(message);
    if (status == DOQALLIN_GIVEN && rows == search->found_count)
        return true;
    *message = sqlite3_mprintf("%s: status %u of %llu records", source->path, status, (unsigned long long)search->found_count);
    return false;
}

// ---- values as SQLite has them

// A table of SQLite's has no zero with a sign, and no NaN.
static void give_float(sqlite3_context *context, double value) {
    if (!isnan(value))
        sqlite3_result_double(context, value + 0.0);
}

// A number beyond 64 bits with a sign is its nearest float.
static void give_unsigned(sqlite3_context *context, uint64_t number) {
    if (number > INT64_MAX)
        sqlite3_result_double(context, (double)number);
    else
        sqlite3_result_int64(context, (sqlite3_int64)number);
}

static void give_item(sqlite3_context *context, uint8_t kind, const uint8_t *item) {
    union {
        uint8_t u8;
        uint16_t u16;
        uint32_t u32;
        uint64_t u64;
        int8_t i8;
        int16_t i16;
        int32_t i32;
        int64_t i64;
        float f32;
        double f64;
    } value;
    memcpy(&value, item, width_of(kind));
    switch (kind) {
    case DOQALLIN_U8:
        sqlite3_result_int64(context, value.u8);
        return;
    case DOQALLIN_U16:
        sqlite3_result_int64(context, value.u16);
        return;
    case DOQALLIN_U32:
        sqlite3_result_int64(context, value.u32);
        return;
    case DOQALLIN_U64:
        give_unsigned(context, value.u64);
        return;
    case DOQALLIN_I8:
        sqlite3_result_int64(context, value.i8);
        return;
    case DOQALLIN_I16:
        sqlite3_result_int64(context, value.i16);
        return;
    case DOQALLIN_I32:
        sqlite3_result_int64(context, value.i32);
        return;
    case DOQALLIN_I64:
        sqlite3_result_int64(context, value.i64);
        return;
    case DOQALLIN_F32:
        give_float(context, (double)value.f32);
        return;
    default:
        give_float(context, value.f64);
    }
}

bool give_cell(struct cells *cells, const struct search *search, size_t column, sqlite3_context *context, char **message) {
    const struct source *source = search->source;
    // What SQLite did not say that it uses is read all the same.
    if (cells->places[column] < 0 && !begin_cells(cells, source, UINT64_MAX, message))
        return false;
    if (cells->block != search->block && !read_cells(cells, search, message))
        return false;
    const struct doqallin_column_buffers *buffers = &cells->buffers[cells->places[column]];
    size_t row = search->next_found, width = width_of(source->columns[column].cell_kind);
    if ((buffers->validity[row / 8] >> row % 8 & 1) == 0)
        return true;
    if (width > 0) {
        give_item(context, source->columns[column].cell_kind, buffers->values + row * width);
        return true;
    }
    const char *start = (const char *)buffers->values + buffers->offsets[row];
    uint64_t length = buffers->offsets[row + 1] - buffers->offsets[row];
    // A year may be written +002026, which is no greater than 2026, and would sort before it.
    bool has_sign = source->columns[column].kind != TEXT && length > 3 && memcmp(start, "+00", 3) == 0;
    start += has_sign ? 3 : 0;
    length -= has_sign ? 3 : 0;
    if (source->columns[column].cell_kind == DOQALLIN_LARGE_UTF8)
        sqlite3_result_text64(context, start, length, SQLITE_TRANSIENT, SQLITE_UTF8);
    else
        sqlite3_result_blob64(context, start, length, SQLITE_TRANSIENT);
    return true;
}
