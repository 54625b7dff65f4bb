// SPDX-License-Identifier: Apache-2.0
// A CSV file and its index: what is read of them, and which records a filter matches.
#ifndef DOQALLIN_SOURCE_H
#define DOQALLIN_SOURCE_H

#include <stdbool.h>
#include <stddef.h>
#include <stdint.h>

#include "doqallin.h"

// What the values of a column are.
enum kind { INTEGER, UNSIGNED, FLOAT, DECIMAL, DATE, TIMESTAMP, CLOCK, TEXT, BYTES };
enum { FOUND_AT_ONCE = 512 };
// Each record that is a row matches.
#define EVERY_ROW "true"

struct column {
    char *name;
    enum kind kind;
    // Of decimals the scale, of times how many digits a fraction of a second has.
    int digits;
    bool is_zoned;
    // The kind, by its code, as which its cells are read, and its line in a setup: a decimal is a float, and a date or a time its text.
    uint8_t cell_kind;
    char *cell_line;
};

// A piece of a file, in memory of its own.
struct bytes {
    uint8_t *at;
    size_t length;
};

// How records are read, as a caller says it. What is not said is guessed.
struct reading {
    const char *columns;
    const char *delimiter;
    const char *null;
    bool has_header;
    bool is_lenient;
    bool has_options;
    bool is_whole;
};

struct source {
    char *path;
    int file;
    uint64_t length;
    uint64_t changed;
    // The root of the index; none if the file has no index.
    struct bytes root;
    struct bytes setup;
    uint64_t start;
    // The lines of a setup before those of its columns, by which cells are read. It takes a record with more fields.
    char *cell_lines;
    bool is_lenient;
    struct column *columns;
    size_t column_count;
    uint64_t row_count;
};

// A search by a filter, record by record.
struct search {
    const struct source *source;
    char *words;
    // The zones, the first that was not read, and how many there are; of a file without an index none.
    struct doqallin_zone *zones;
    size_t next_zone;
    size_t zone_count;
    // What was read, where it begins in the file, and where the file goes on behind it.
    struct bytes text;
    uint64_t text_start;
    uint64_t next_byte;
    bool is_end;
    bool is_whole_zone;
    struct doqallin_position position;
    struct doqallin_found found[FOUND_AT_ONCE];
    size_t found_count;
    size_t next_found;
    // How many times records were looked for.
    uint64_t block;
    bool is_judged;
};

// Each answers whether it succeeded. If not, *message is why, to be freed with sqlite3_free.
bool open_source(struct source *source, const char *path, const struct reading *reading, char **message);
void close_source(struct source *source);
bool begin_search(struct search *search, const struct source *source, const char *words, char **message);
// Goes on to the next record that matches; *is_there says whether there is one.
bool next_record(struct search *search, bool *is_there, char **message);
void end_search(struct search *search);
#endif
