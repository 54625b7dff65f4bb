// SPDX-License-Identifier: Apache-2.0
// The cells of the records that were found, as columns: libdoqallin reads each field.
#ifndef DOQALLIN_CELLS_H
#define DOQALLIN_CELLS_H

#include <sqlite3ext.h>
#include <stdbool.h>
#include <stdint.h>

#include "source.h"

// The columns that a query uses, of the records that were found together.
struct cells {
    // The setup by which they are read: it ends with the last column that is used.
    char *setup;
    // Which columns of the file are read, and where each stands among them, or -1.
    size_t *wanted;
    size_t wanted_count;
    int *places;
    struct doqallin_column_buffers *buffers;
    // The records one behind another, if they lie apart in the file.
    struct bytes text;
    // How many bytes the strings of one column have room for.
    size_t room;
    // Which records of the search the cells are of.
    uint64_t block;
};

// Each answers whether it succeeded. If not, *message is why, to be freed with sqlite3_free.
// Bit k of `used` says whether column k is, and the last bit whether one of the others is.
bool begin_cells(struct cells *cells, const struct source *source, uint64_t used, char **message);
// Gives the cell of a column, of the record that was found last.
bool give_cell(struct cells *cells, const struct search *search, size_t column, sqlite3_context *context, char **message);
void end_cells(struct cells *cells);

#endif
