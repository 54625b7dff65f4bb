// SPDX-License-Identifier: Apache-2.0
// Searches a CSV file by its index, and reads of both only what is needed:
//     example_search trips.csv "town = 'Oslo' and fare >= 10"
// The index trips.csv.zones is made by `zone_map index trips.csv`. To be short, it does not compare the time of the file's last change.
#include <fcntl.h>
#include <stdbool.h>
#include <stdint.h>
#include <stdio.h>
#include <stdlib.h>
#include <string.h>
#include <unistd.h>

#include "doqallin.h"

enum { DEPTH = 32, FOUND = 256 };

static void stop(const char *what, uint32_t status) {
    fprintf(stderr, "%s: status %u\n", what, status);
    exit(2);
}

// So many bytes of a file, in memory of their own behind those that are there.
static uint8_t *read_piece(int file, uint8_t *before, size_t count, uint64_t place, uint64_t length) {
    uint8_t *piece = realloc(before, count + length + 1);
    if (piece == NULL || pread(file, piece + count, length, (off_t)place) != (ssize_t)length)
        stop("a read", 0);
    return piece;
}

// Writes the records of a zone that match.
static size_t search_zone(int file, const struct doqallin_zone *zone, const uint8_t *setup, size_t setup_length, const char *words) {
    struct doqallin_position position = {.place = zone->place, .number = zone->number + 1};
    struct doqallin_found found[FOUND];
    struct doqallin_search_fault why;
    size_t count, all = 0;
    uint8_t *text = read_piece(file, NULL, 0, zone->place, zone->length);
    do {
        size_t judged = position.place - zone->place;
        uint32_t status = doqallin_search_records(setup, setup_length, (const uint8_t *)words, strlen(words), DEPTH, text + judged,
                                                  zone->length - judged, true, &position, found, FOUND, &count, &why);
        if (status != DOQALLIN_GIVEN)
            stop("the records", status);
        for (size_t place = 0; place < count; place++)
            fwrite(text + (found[place].place - zone->place), 1, found[place].length, stdout);
        all += count;
    } while (count == FOUND);
    free(text);
    return all;
}

// An index: its root, and how the file's records are read.
struct index {
    int file;
    uint8_t *root;
    uint64_t root_length;
    uint8_t setup[1 << 16];
    size_t setup_length;
    struct doqallin_index_parts parts;
};

static struct doqallin_search_fault fault;

static void read_index(struct index *index) {
    uint8_t *head = read_piece(index->file, NULL, 0, 0, DOQALLIN_INDEX_HEAD);
    uint32_t status = doqallin_index_root_length(head, DOQALLIN_INDEX_HEAD, &index->root_length, &fault);
    free(head);
    if (status != DOQALLIN_GIVEN)
        stop("the index", status);
    index->root = read_piece(index->file, NULL, 0, 0, index->root_length);
    status = doqallin_index_root(index->root, index->root_length, index->setup, sizeof index->setup, &index->setup_length, &index->parts, &fault);
    if (status != DOQALLIN_GIVEN)
        stop("the index", status);
}

// The statistics of the columns that the filter names.
static uint8_t *read_blocks(const struct index *index, const char *words, size_t *length) {
    struct doqallin_byte_range *ranges = calloc(index->parts.block_count + 1, sizeof *ranges);
    size_t count;
    uint32_t status = doqallin_search_blocks(index->root, index->root_length, (const uint8_t *)words, strlen(words), DEPTH, ranges,
                                             index->parts.block_count, &count, &fault);
    if (status != DOQALLIN_GIVEN)
        stop("the filter", status);
    uint8_t *blocks = malloc(1);
    *length = 0;
    for (size_t place = 0; place < count; place++) {
        blocks = read_piece(index->file, blocks, *length, ranges[place].place, ranges[place].length);
        *length += ranges[place].length;
    }
    free(ranges);
    return blocks;
}

// What to do with each zone; there are as many as parts.zone_count.
static struct doqallin_zone *plan(const struct index *index, const char *words) {
    size_t blocks_length, most = index->parts.zone_count;
    uint8_t *blocks = read_blocks(index, words, &blocks_length);
    struct doqallin_zone *zones = calloc(most + 1, sizeof *zones);
    struct doqallin_byte_range *ranges = calloc(most + 1, sizeof *ranges);
    struct doqallin_plan_lengths lengths;
    uint32_t status = doqallin_search_plan(index->root, index->root_length, blocks, blocks_length, (const uint8_t *)words, strlen(words), DEPTH,
                                           false, zones, most, ranges, most, &lengths, &fault);
    free(blocks);
    free(ranges);
    if (status != DOQALLIN_GIVEN)
        stop("the plan", status);
    return zones;
}

int main(int count, char **arguments) {
    if (count != 3) {
        fprintf(stderr, "usage: example_search FILE FILTER\n");
        return 2;
    }
    static struct index index;
    char name[4096];
    snprintf(name, sizeof name, "%s.zones", arguments[1]);
    int file = open(arguments[1], O_RDONLY);
    index.file = open(name, O_RDONLY);
    if (file < 0 || index.file < 0) {
        perror(file < 0 ? arguments[1] : name);
        return 2;
    }
    read_index(&index);
    if (index.parts.file_length != (uint64_t)lseek(file, 0, SEEK_END))
        stop("the file, which is another than the index is of,", 0);
    struct doqallin_zone *zones = plan(&index, arguments[2]);
    size_t found = 0, read = 0;
    for (size_t place = 0; place < index.parts.zone_count; place++) {
        if (zones[place].way == DOQALLIN_WAY_SKIP)
            continue;
        const char *asked = zones[place].way == DOQALLIN_WAY_WHOLE ? "true" : arguments[2];
        found += search_zone(file, &zones[place], index.setup, index.setup_length, asked);
        read++;
    }
    fprintf(stderr, "%zu records, %zu of %zu zones read\n", found, read, index.parts.zone_count);
    return found > 0 ? 0 : 1;
}
