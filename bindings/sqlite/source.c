// SPDX-License-Identifier: Apache-2.0
// Files are read by pread; what is sought in their bytes is decided by libdoqallin, which is proved.
#include "source.h"

#include <errno.h>
#include <fcntl.h>
#include <inttypes.h>
#include <sqlite3ext.h>
#include <stdlib.h>
#include <string.h>
#include <sys/stat.h>
#include <unistd.h>

SQLITE_EXTENSION_INIT3

enum { PIECE = 4 << 20, BEGINNING = 1 << 20, DEPTH = 128, NO_DELIMITER = 255 };

static bool fails(char **message, const char *format, ...) {
    va_list arguments;
    va_start(arguments, format);
    *message = sqlite3_vmprintf(format, arguments);
    va_end(arguments);
    return false;
}

static bool lacks_memory(char **message) {
    return fails(message, "out of memory");
}

// ---- what is refused

static const char *const OF_INDEX[] = {"it is cut", "it is no index", "another version wrote it", "it is damaged", "more bytes follow it"};
static const char *const OF_RECORD[] = {"a column does not take its field", "it has more or fewer fields than columns",
                                        "a carriage return stands before its end"};

static bool was_changed(const struct source *source, char **message) {
    return fails(message, "%s is not as it was when its index was made: make it again by zone_map index, or give whole=1", source->path);
}

static bool refuses(const struct source *source, uint32_t status, const struct doqallin_search_fault *fault, char **message) {
    switch (status) {
    case DOQALLIN_NO_MEMORY:
        return lacks_memory(message);
    case DOQALLIN_BAD_BYTES:
        return fails(message, "%s.zones: %s: make it again by zone_map index", source->path, OF_INDEX[fault->reason % 5]);
    case DOQALLIN_REFUSED:
        if (fault->reason == DOQALLIN_REFUSED_FIELD && fault->column < source->column_count)
            return fails(message, "%s: byte %llu: column %s does not take its field: give columns='%s utf8?'", source->path,
                         (unsigned long long)fault->place, source->columns[fault->column].name, source->columns[fault->column].name);
        return fails(message, "%s: byte %llu: %s", source->path, (unsigned long long)fault->place, OF_RECORD[fault->reason % 3]);
    default:
        return fails(message, "%s: status %u at %llu", source->path, status, (unsigned long long)fault->place);
    }
}

// ---- bytes of files

static bool read_at(int file, const char *path, uint64_t offset, size_t length, struct bytes *bytes, char **message) {
    uint8_t *at = realloc(bytes->at, bytes->length + length + 1);
    if (at == NULL)
        return lacks_memory(message);
    bytes->at = at;
    while (length > 0) {
        ssize_t count = pread(file, bytes->at + bytes->length, length, (off_t)offset);
        if (count < 0 && errno == EINTR)
            continue;
        if (count < 0)
            return fails(message, "%s: %s", path, strerror(errno));
        if (count == 0)
            break;
        bytes->length += (size_t)count;
        offset += (uint64_t)count;
        length -= (size_t)count;
    }
    return true;
}

static uint64_t changed_of(const struct stat *found) {
    return (uint64_t)found->st_mtim.tv_sec * 1000000000u + (uint64_t)found->st_mtim.tv_nsec;
}

// ---- how records are read

static char *copy_of(const uint8_t *text, size_t length) {
    char *copy = malloc(length + 1);
    if (copy != NULL) {
        memcpy(copy, text, length);
        copy[length] = 0;
    }
    return copy;
}

// What values of a kind are.
static void set_kind(struct column *column, const struct doqallin_kind *kind) {
    enum { DIGITS_OF_A_UNIT = 3 };
    column->cell_kind = kind->code;
    switch (kind->code) {
    case DOQALLIN_U64:
        column->kind = UNSIGNED;
        return;
    case DOQALLIN_F32:
    case DOQALLIN_F64:
        column->kind = FLOAT;
        return;
    case DOQALLIN_DECIMAL128:
        column->kind = DECIMAL;
        column->digits = kind->scale;
        column->cell_kind = DOQALLIN_F64;
        return;
    case DOQALLIN_LARGE_UTF8:
        column->kind = TEXT;
        return;
    case DOQALLIN_LARGE_BINARY:
        column->kind = BYTES;
        return;
    }
    if (kind->code < DOQALLIN_BOOL) {
        column->kind = INTEGER;
        return;
    }
    // What is left is dates, times and timestamps.
    column->cell_kind = DOQALLIN_LARGE_UTF8;
    column->kind = kind->code == DOQALLIN_DATE32 ? DATE : kind->code < DOQALLIN_TIMESTAMP_S ? CLOCK : TIMESTAMP;
    column->is_zoned = kind->code >= DOQALLIN_TIMESTAMP_S_UTC;
    if (column->kind != DATE)
        column->digits = DIGITS_OF_A_UNIT * ((kind->code - DOQALLIN_TIME_S) % 4);
}

// A column's line in the setup by which its cells are read.
static char *cell_line_of(const struct column *column, const char *line, int kind_length, int length) {
    const char *word = column->kind == DECIMAL ? "f64" : column->cell_kind == DOQALLIN_LARGE_UTF8 ? "utf8" : NULL;
    if (word == NULL)
        return sqlite3_mprintf("%.*s\n", length, line);
    return sqlite3_mprintf("%s%s%.*s\n", word, line[kind_length - 1] == '?' ? "?" : "", length - kind_length, line + kind_length);
}

static bool read_kinds(struct source *source, char **message) {
    struct doqallin_search_fault fault = {0};
    size_t lines = 1, count = 0;
    for (size_t place = 0; place < source->setup.length; place++)
        lines += source->setup.at[place] == '\n';
    struct doqallin_kind *kinds = calloc(lines, sizeof *kinds);
    source->columns = calloc(lines, sizeof *source->columns);
    uint32_t status = DOQALLIN_NO_MEMORY;
    if (kinds != NULL && source->columns != NULL)
        status = doqallin_column_kinds(source->setup.at, source->setup.length, kinds, lines, &count, &fault);
    for (size_t place = 0; status == DOQALLIN_GIVEN && place < count; place++)
        set_kind(&source->columns[place], &kinds[place]);
    free(kinds);
    return status == DOQALLIN_GIVEN || refuses(source, status, &fault, message);
}

// Takes a column's line apart: its kind, a blank, and its name.
static bool read_column(struct source *source, const char *at, const char *blank, const char *stop, char **message) {
    struct column *column = &source->columns[source->column_count++];
    column->name = copy_of((const uint8_t *)blank + 1, blank < stop ? (size_t)(stop - blank - 1) : 0);
    column->cell_line = cell_line_of(column, at, (int)(blank - at), (int)(stop - at));
    return (column->name != NULL && column->cell_line != NULL) || lacks_memory(message);
}

// Takes the setup's lines apart: words that are nulls, a line of numbers, and a line for each column.
static bool read_setup(struct source *source, char **message) {
    if (!read_kinds(source, message))
        return false;
    const char *at = (const char *)source->setup.at, *end = at + source->setup.length;
    bool has_numbers = false, is_read = true;
    sqlite3_str *lines = sqlite3_str_new(NULL);
    while (at < end && is_read) {
        const char *stop = memchr(at, '\n', (size_t)(end - at));
        stop = stop == NULL ? end : stop;
        const char *blank = memchr(at, ' ', (size_t)(stop - at));
        blank = blank == NULL ? stop : blank;
        if (has_numbers) {
            is_read = read_column(source, at, blank, stop, message);
        } else if (blank - at == 4 && memcmp(at, "null", 4) == 0) {
            sqlite3_str_appendf(lines, "%.*s\n", (int)(stop - at), at);
        } else {
            has_numbers = true;
            source->is_lenient = blank + 1 < stop && blank[1] == '1';
            sqlite3_str_appendf(lines, "%.*s 1 0 0\n", (int)(blank - at), at);
        }
        at = stop + 1;
    }
    source->cell_lines = sqlite3_str_finish(lines);
    return is_read && (source->cell_lines != NULL || lacks_memory(message));
}

// The setup's text of what a caller says: the columns as `zone_map --columns` takes them, as `id i64, "first name" utf8?`.
static bool write_columns(sqlite3_str *text, const char *columns, char **message) {
    for (const char *at = columns; *at != 0;) {
        at += strspn(at, " ,");
        if (*at == 0)
            break;
        sqlite3_str *name = sqlite3_str_new(NULL);
        if (*at == '"') {
            for (at++; *at != 0 && (*at != '"' || at[1] == '"'); at++)
                sqlite3_str_appendchar(name, 1, *(at += *at == '"'));
            at += *at == '"';
        } else {
            size_t length = strcspn(at, " ");
            sqlite3_str_append(name, at, (int)length);
            at += length;
        }
        at += strspn(at, " ");
        size_t kind = 0;
        for (int depth = 0; at[kind] != 0 && (at[kind] != ',' || depth > 0); kind++)
            depth += (at[kind] == '(') - (at[kind] == ')');
        for (size_t place = 0; place < kind; place++)
            if (at[place] != ' ')
                sqlite3_str_appendchar(text, 1, at[place]);
        char *owned = sqlite3_str_finish(name);
        sqlite3_str_appendf(text, " %s\n", owned == NULL ? "" : owned);
        sqlite3_free(owned);
        if (kind == 0)
            return fails(message, "columns: a name and a kind are wanted, as id i64: %s", columns);
        at += kind;
    }
    return true;
}

static bool write_setup(const struct reading *reading, char **written, char **message) {
    sqlite3_str *text = sqlite3_str_new(NULL);
    const char *delimiter = reading->delimiter == NULL ? "," : reading->delimiter;
    int byte = strcmp(delimiter, "tab") == 0 ? '\t' : strcmp(delimiter, "none") == 0 ? NO_DELIMITER : (uint8_t)delimiter[0];
    if (reading->null != NULL)
        sqlite3_str_appendf(text, "null %s\n", reading->null);
    sqlite3_str_appendf(text, "%d %d 0 0\n", byte, reading->is_lenient);
    bool is_written = reading->columns == NULL || write_columns(text, reading->columns, message);
    *written = sqlite3_str_finish(text);
    if (is_written && *written == NULL)
        return lacks_memory(message);
    return is_written;
}

// Guesses how records are read from the beginning of the file.
static bool guess(struct source *source, const struct reading *reading, char **message) {
    struct bytes first = {0};
    char *given = NULL;
    struct doqallin_search_fault fault = {0};
    uint32_t status = DOQALLIN_BUFFER_TOO_SMALL;
    size_t room = 1024;
    bool is_read = write_setup(reading, &given, message) && read_at(source->file, source->path, 0, BEGINNING, &first, message);
    while (is_read && status == DOQALLIN_BUFFER_TOO_SMALL) {
        uint8_t *buffer = realloc(source->setup.at, room);
        if (buffer == NULL) {
            is_read = lacks_memory(message);
            break;
        }
        source->setup.at = buffer;
        status = doqallin_guess_setup((const uint8_t *)given, strlen(given), first.at, first.length, reading->has_header,
                                      first.length == source->length, buffer, room, &source->setup.length, &source->start, &fault);
        room = source->setup.length;
    }
    free(first.at);
    sqlite3_free(given);
    if (!is_read)
        return false;
    if (status == DOQALLIN_BAD_BYTES)
        return fails(message, "%s: the columns or the delimiter cannot be read", source->path);
    source->row_count = source->length / 32 + 1;
    return status == DOQALLIN_GIVEN || refuses(source, status, &fault, message);
}

// ---- the index

static bool read_root(struct source *source, int index, struct doqallin_index_parts *parts, char **message) {
    struct doqallin_search_fault fault = {0};
    uint64_t length;
    struct bytes head = {0};
    if (!read_at(index, source->path, 0, DOQALLIN_INDEX_HEAD, &head, message))
        return false;
    uint32_t status = doqallin_index_root_length(head.at, head.length, &length, &fault);
    free(head.at);
    if (status != DOQALLIN_GIVEN)
        return refuses(source, status, &fault, message);
    if (!read_at(index, source->path, 0, length, &source->root, message))
        return false;
    status = DOQALLIN_BUFFER_TOO_SMALL;
    for (size_t room = 1024; status == DOQALLIN_BUFFER_TOO_SMALL; room = source->setup.length) {
        uint8_t *buffer = realloc(source->setup.at, room);
        if (buffer == NULL)
            return lacks_memory(message);
        source->setup.at = buffer;
        status = doqallin_index_root(source->root.at, source->root.length, buffer, room, &source->setup.length, parts, &fault);
    }
    return status == DOQALLIN_GIVEN || refuses(source, status, &fault, message);
}

// Opens the index of the file, if it has one and the file is as it was then.
static bool open_index(struct source *source, bool *is_there, char **message) {
    char *name = sqlite3_mprintf("%s.zones", source->path);
    if (name == NULL)
        return lacks_memory(message);
    int index = open(name, O_RDONLY | O_CLOEXEC | O_NOFOLLOW);
    sqlite3_free(name);
    *is_there = index >= 0;
    if (index < 0 && errno == ELOOP)
        return fails(message, "%s.zones is a link, and none is followed: make the index again by zone_map index, or give whole=1", source->path);
    if (index < 0)
        return errno == ENOENT || fails(message, "%s.zones: %s", source->path, strerror(errno));
    struct doqallin_index_parts parts;
    bool is_read = read_root(source, index, &parts, message);
    close(index);
    if (!is_read)
        return false;
    if (parts.file_length != source->length || parts.changed != source->changed)
        return was_changed(source, message);
    source->start = parts.start;
    source->row_count = parts.zone_count * 1000 + 1;
    return true;
}

static bool stat_source(const struct source *source, uint64_t *length, uint64_t *changed, char **message) {
    struct stat found;
    if (fstat(source->file, &found) != 0)
        return fails(message, "%s: %s", source->path, strerror(errno));
    *length = (uint64_t)found.st_size;
    *changed = changed_of(&found);
    return true;
}

bool open_source(struct source *source, const char *path, const struct reading *reading, char **message) {
    memset(source, 0, sizeof *source);
    source->file = -1;
    if ((source->path = copy_of((const uint8_t *)path, strlen(path))) == NULL)
        return lacks_memory(message);
    if ((source->file = open(path, O_RDONLY | O_CLOEXEC)) < 0)
        return fails(message, "%s: %s", path, strerror(errno));
    bool has_index = false;
    if (!stat_source(source, &source->length, &source->changed, message))
        return false;
    if (!reading->has_options && !reading->is_whole && !open_index(source, &has_index, message))
        return false;
    if (!has_index && !guess(source, reading, message))
        return false;
    return read_setup(source, message);
}

void close_source(struct source *source) {
    for (size_t place = 0; place < source->column_count; place++) {
        free(source->columns[place].name);
        sqlite3_free(source->columns[place].cell_line);
    }
    free(source->columns);
    sqlite3_free(source->cell_lines);
    free(source->root.at);
    free(source->setup.at);
    free(source->path);
    if (source->file >= 0)
        close(source->file);
}

// ---- searches

// SQLite makes a bound for a pattern by adding one to its last byte, and what comes of it may be no UTF-8.
static bool are_words_refused(uint32_t status) {
    return status == DOQALLIN_BAD_FILTER || status == DOQALLIN_NOT_UTF8;
}

static bool read_blocks(const struct search *search, struct bytes *blocks, uint32_t *status, char **message) {
    const struct source *source = search->source;
    struct doqallin_search_fault fault;
    size_t count = 0, most = source->column_count + 1;
    struct doqallin_byte_range *ranges = calloc(most, sizeof *ranges);
    char *name = sqlite3_mprintf("%s.zones", source->path);
    int index = name == NULL ? -1 : open(name, O_RDONLY | O_CLOEXEC | O_NOFOLLOW);
    bool is_read = ranges != NULL && index >= 0;
    if (!is_read)
        fails(message, "%s.zones: %s", source->path, strerror(errno));
    if (is_read)
        *status = doqallin_search_blocks(source->root.at, source->root.length, (const uint8_t *)search->words, strlen(search->words), DEPTH,
                                         ranges, most, &count, &fault);
    for (size_t place = 0; is_read && *status == DOQALLIN_GIVEN && place < count; place++)
        is_read = read_at(index, name, ranges[place].place, ranges[place].length, blocks, message);
    if (is_read && *status != DOQALLIN_GIVEN && !are_words_refused(*status))
        is_read = refuses(source, *status, &fault, message);
    if (index >= 0)
        close(index);
    sqlite3_free(name);
    free(ranges);
    return is_read;
}

// The words are of this extension's own making. If they are refused all the same, each row is looked at.
static bool ask_for_all(struct search *search, char **message) {
    free(search->words);
    search->words = copy_of((const uint8_t *)EVERY_ROW, strlen(EVERY_ROW));
    return search->words != NULL || lacks_memory(message);
}

// Plans the search by the index.
static bool make_plan(struct search *search, char **message) {
    const struct source *source = search->source;
    struct bytes blocks = {0};
    struct doqallin_search_fault fault;
    struct doqallin_plan_lengths lengths = {0, 0};
    size_t most = source->row_count / 1000 + 1;
    uint32_t status = DOQALLIN_GIVEN;
    if (!read_blocks(search, &blocks, &status, message)) {
        free(blocks.at);
        return false;
    }
    struct doqallin_byte_range *ranges = calloc(most, sizeof *ranges);
    search->zones = calloc(most, sizeof *search->zones);
    bool has_memory = ranges != NULL && search->zones != NULL;
    if (has_memory && status == DOQALLIN_GIVEN)
        status = doqallin_search_plan(source->root.at, source->root.length, blocks.at == NULL ? (const uint8_t *)"" : blocks.at, blocks.length,
                                      (const uint8_t *)search->words, strlen(search->words), DEPTH, false, search->zones, most, ranges, most,
                                      &lengths, &fault);
    free(blocks.at);
    free(ranges);
    search->zone_count = lengths.zones;
    if (!has_memory)
        return lacks_memory(message);
    if (!are_words_refused(status) || strcmp(search->words, EVERY_ROW) == 0)
        return status == DOQALLIN_GIVEN || refuses(source, status, &fault, message);
    free(search->zones);
    return ask_for_all(search, message) && make_plan(search, message);
}

bool begin_search(struct search *search, const struct source *source, const char *words, char **message) {
    memset(search, 0, sizeof *search);
    search->source = source;
    uint64_t length, changed;
    if ((search->words = copy_of((const uint8_t *)words, strlen(words))) == NULL)
        return lacks_memory(message);
    if (!stat_source(source, &length, &changed, message))
        return false;
    if (source->root.at != NULL && (length != source->length || changed != source->changed))
        return was_changed(source, message);
    search->next_byte = source->start;
    search->position = (struct doqallin_position){.place = source->start, .number = 1};
    search->text_start = source->start;
    search->is_judged = true;
    return source->root.at == NULL || make_plan(search, message);
}

// Reads the next zones that lie next to each other and are searched alike.
static bool read_zones(struct search *search, bool *is_there, char **message) {
    while (search->next_zone < search->zone_count && search->zones[search->next_zone].way == DOQALLIN_WAY_SKIP)
        search->next_zone++;
    *is_there = search->next_zone < search->zone_count;
    if (!*is_there)
        return true;
    const struct doqallin_zone *first = &search->zones[search->next_zone], *last = first;
    while (++search->next_zone < search->zone_count) {
        const struct doqallin_zone *zone = &search->zones[search->next_zone];
        if (zone->way != first->way || zone->place != last->place + last->length || zone->place + zone->length - first->place > PIECE)
            break;
        last = zone;
    }
    search->text.length = 0;
    search->text_start = first->place;
    search->position = (struct doqallin_position){.place = first->place, .number = first->number + 1};
    search->is_end = true;
    search->is_whole_zone = first->way == DOQALLIN_WAY_WHOLE;
    return read_at(search->source->file, search->source->path, first->place, last->place + last->length - first->place, &search->text, message);
}

// Reads the next piece of a file without an index, behind what is left of the last one.
static bool read_piece(struct search *search, bool *is_there, char **message) {
    *is_there = !search->is_end;
    if (search->is_end)
        return true;
    size_t judged = (size_t)(search->position.place - search->text_start), left = search->text.length - judged;
    if (judged > 0)
        memmove(search->text.at, search->text.at + judged, left);
    search->text_start = search->position.place;
    search->text.length = left;
    size_t wanted = left > PIECE ? left : PIECE;
    if (!read_at(search->source->file, search->source->path, search->next_byte, wanted, &search->text, message))
        return false;
    search->next_byte += search->text.length - left;
    search->is_end = search->text.length - left < wanted;
    return true;
}

// Looks for the next records that match in what was read.
static bool judge(struct search *search, char **message) {
    const struct source *source = search->source;
    const char *words = search->is_whole_zone ? EVERY_ROW : search->words;
    size_t judged = (size_t)(search->position.place - search->text_start);
    struct doqallin_search_fault fault;
    uint32_t status = doqallin_search_records(source->setup.at, source->setup.length, (const uint8_t *)words, strlen(words), DEPTH,
                                              search->text.at + judged, search->text.length - judged, search->is_end, &search->position,
                                              search->found, sizeof search->found / sizeof *search->found, &search->found_count, &fault);
    search->next_found = 0;
    search->block++;
    if (are_words_refused(status) && strcmp(words, EVERY_ROW) != 0)
        return ask_for_all(search, message) && judge(search, message);
    if (status != DOQALLIN_GIVEN)
        return refuses(source, status, &fault, message);
    search->is_judged = search->found_count < sizeof search->found / sizeof *search->found;
    return true;
}

bool next_record(struct search *search, bool *is_there, char **message) {
    if (++search->next_found < search->found_count) {
        *is_there = true;
        return true;
    }
    do {
        *is_there = true;
        if (search->is_judged) {
            bool is_read = search->source->root.at == NULL ? read_piece(search, is_there, message) : read_zones(search, is_there, message);
            if (!is_read || !*is_there)
                return is_read;
        }
        if (!judge(search, message))
            return false;
    } while (search->found_count == 0);
    return true;
}

void end_search(struct search *search) {
    free(search->words);
    free(search->zones);
    free(search->text.at);
    search->words = NULL;
    search->zones = NULL;
    search->text.at = NULL;
}
