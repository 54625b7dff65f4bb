// SPDX-License-Identifier: Apache-2.0
// Tests each status of the searches in files: `test_search FILE` for a file of 30 records `N,word` in zones of ten, whose index is
// FILE.zones. `test_search FILE memory N` makes the Nth call once, between the lines `called` and `answered` on standard error; the
// status is 0 if it gives what it is to give, and 3 if it says that it found no memory.
#include <malloc.h>
#include <stdbool.h>
#include <stdint.h>
#include <stdio.h>
#include <stdlib.h>
#include <string.h>
#include <unistd.h>

#include "doqallin.h"

#define BYTES(text) (const uint8_t *)(text), sizeof(text) - 1
#define CHECK(holds) ((holds) ? passed++ : (failed++, printf("line %d: %s\n", __LINE__, #holds)))

enum { ROOM = 1 << 16, DEPTH = 32, ZONES = 3, MOST = 40 };

static int passed, failed;
static uint8_t file[ROOM], index_[ROOM], setup[ROOM], blocks[ROOM], changed[ROOM];
static size_t file_length, index_length, setup_length, blocks_length, count;
static uint64_t root_length;
static struct doqallin_search_fault fault;
static struct doqallin_index_parts parts;
static struct doqallin_byte_range ranges[MOST];
static struct doqallin_zone zones[MOST];
static struct doqallin_plan_lengths lengths;
static struct doqallin_position position;
static struct doqallin_found found[MOST];
static struct doqallin_index_zone made[ROOM];
static struct doqallin_index_lengths made_lengths;
static uint8_t statistics[ROOM];

static size_t read_file(const char *name, uint8_t *into) {
    FILE *opened = fopen(name, "rb");
    size_t length = opened == NULL ? 0 : fread(into, 1, ROOM, opened);
    if (length == 0) exit(2);
    fclose(opened);
    return length;
}

static uint32_t root_of(const uint8_t *bytes, size_t length, size_t room) {
    return doqallin_index_root(bytes, length, setup, room, &setup_length, &parts, &fault);
}

static uint32_t blocks_of(const char *words, size_t most) {
    return doqallin_search_blocks(index_, root_length, (const uint8_t *)words, strlen(words), DEPTH, ranges, most, &count, &fault);
}

// The bytes of the ranges of the index, one behind another.
static void take_blocks(void) {
    blocks_length = 0;
    for (size_t place = 0; place < count; place++) {
        memcpy(blocks + blocks_length, index_ + ranges[place].place, ranges[place].length);
        blocks_length += ranges[place].length;
    }
}

static uint32_t plan_of(const char *words, bool is_count, size_t most) {
    return doqallin_search_plan(index_, root_length, blocks, blocks_length, (const uint8_t *)words, strlen(words), DEPTH, is_count, zones,
                                most, ranges, most, &lengths, &fault);
}

static uint32_t records_of(const char *words, const char *text, bool is_end, size_t most) {
    return doqallin_search_records(setup, setup_length, (const uint8_t *)words, strlen(words), DEPTH, (const uint8_t *)text, strlen(text),
                                   is_end, &position, found, most, &count, &fault);
}

static uint32_t setup_of(const char *given, const char *text, bool has_header, size_t room) {
    static uint64_t start;
    uint32_t status = doqallin_guess_setup((const uint8_t *)given, strlen(given), (const uint8_t *)text, strlen(text), has_header, true,
                                           changed, room, &count, &start, &fault);
    return status == DOQALLIN_GIVEN && start != (has_header ? strcspn(text, "\n") + 1 : 0) ? 99 : status;
}

static bool setup_is(const char *words) {
    return count == strlen(words) && !memcmp(changed, words, count);
}

static void roots(void) {
    CHECK(doqallin_index_root_length(index_, DOQALLIN_INDEX_HEAD, &root_length, &fault) == DOQALLIN_GIVEN && root_length < index_length);
    uint64_t kept = root_length;
    CHECK(doqallin_index_root_length(index_, 15, &root_length, &fault) == DOQALLIN_BAD_BYTES && fault.reason == DOQALLIN_INDEX_SHORT);
    memcpy(changed, index_, index_length);
    changed[0]++;
    CHECK(doqallin_index_root_length(changed, 16, &root_length, &fault) == DOQALLIN_BAD_BYTES && fault.reason == DOQALLIN_INDEX_MAGIC);
    changed[0]--, changed[4]++;
    CHECK(doqallin_index_root_length(changed, 16, &root_length, &fault) == DOQALLIN_BAD_BYTES && fault.reason == DOQALLIN_INDEX_VERSION);
    CHECK(root_length == kept);
    CHECK(root_of(index_, root_length, ROOM) == DOQALLIN_GIVEN && parts.file_length == file_length && parts.start == 0);
    CHECK(parts.zone_count == ZONES && parts.block_count == 2);
    CHECK(setup_length > 20 && !memcmp(setup + setup_length - 17, "i64 n\nutf8? word\n", 17));
    size_t long_enough = setup_length;
    CHECK(root_of(index_, index_length, ROOM) == DOQALLIN_GIVEN && setup_length == long_enough);
    CHECK(root_of(index_, root_length, long_enough - 1) == DOQALLIN_BUFFER_TOO_SMALL && setup_length == long_enough);
    CHECK(root_of(index_, root_length - 1, ROOM) == DOQALLIN_BAD_BYTES && fault.reason == DOQALLIN_INDEX_SHORT && fault.column == DOQALLIN_PART_ROOT);
    changed[4]--, changed[40]++;
    CHECK(root_of(changed, root_length, ROOM) == DOQALLIN_BAD_BYTES && fault.reason == DOQALLIN_INDEX_DAMAGED);
    CHECK(root_of(index_, root_length, ROOM) == DOQALLIN_GIVEN);
}

static void plans(void) {
    CHECK(blocks_of("n = 15", MOST) == DOQALLIN_GIVEN && count == 1 && ranges[0].place == root_length);
    CHECK(blocks_of("n = 15 and word is null", MOST) == DOQALLIN_GIVEN && count == 1 && ranges[0].place + ranges[0].length == index_length);
    CHECK(blocks_of("true", MOST) == DOQALLIN_GIVEN && count == 0);
    CHECK(blocks_of("WORD = 'a'", MOST) == DOQALLIN_GIVEN && count == 1);
    CHECK(blocks_of("n = 15", 0) == DOQALLIN_BUFFER_TOO_SMALL && count == 1);
    CHECK(blocks_of("n = 'a'", MOST) == DOQALLIN_BAD_FILTER && fault.place == 4 && fault.reason == DOQALLIN_TYPES_DIFFER);
    CHECK(blocks_of("m = 1", MOST) == DOQALLIN_BAD_FILTER && fault.place == 0 && fault.reason == DOQALLIN_NO_COLUMN);
    CHECK(blocks_of("n = 1 or word = '\xff'", MOST) == DOQALLIN_NOT_UTF8);
    CHECK(blocks_of("n = 15", MOST) == DOQALLIN_GIVEN);
    take_blocks();
    CHECK(plan_of("n = 15", false, MOST) == DOQALLIN_GIVEN && lengths.zones == ZONES && lengths.ranges == 1);
    CHECK(zones[0].way == DOQALLIN_WAY_SKIP && zones[0].decision == DOQALLIN_NONE_MATCH && zones[1].way == DOQALLIN_WAY_SEARCH && zones[2].way == DOQALLIN_WAY_SKIP);
    CHECK(zones[1].records == 10 && zones[1].rows == 10 && zones[1].place == zones[0].length && zones[2].place == zones[1].place + zones[1].length);
    CHECK(zones[1].number == zones[0].number + 10 && zones[2].place + zones[2].length == file_length);
    CHECK(ranges[0].place == zones[1].place && ranges[0].length == zones[1].length);
    CHECK(plan_of("n >= 10", false, MOST) == DOQALLIN_GIVEN && zones[1].way == DOQALLIN_WAY_WHOLE && zones[1].decision == DOQALLIN_ALL_MATCH);
    CHECK(lengths.ranges == 1 && ranges[0].length == zones[1].length + zones[2].length);
    CHECK(plan_of("n >= 10", true, MOST) == DOQALLIN_GIVEN && lengths.ranges == 0);
    CHECK(plan_of("n < 0", false, MOST) == DOQALLIN_GIVEN && lengths.zones == ZONES && lengths.ranges == 0);
    CHECK(plan_of("n = 15", false, 2) == DOQALLIN_BUFFER_TOO_SMALL && lengths.zones == ZONES && lengths.ranges == 1);
    CHECK(plan_of("n = ", false, MOST) == DOQALLIN_BAD_FILTER && fault.place == 4 && fault.reason == DOQALLIN_EXPECTED_LITERAL);
    blocks[0]++;
    CHECK(plan_of("n = 15", false, MOST) == DOQALLIN_BAD_BYTES && fault.column == DOQALLIN_PART_BLOCKS);
    blocks[0]--, blocks_length--;
    CHECK(plan_of("n = 15", false, MOST) == DOQALLIN_BAD_BYTES && fault.column == DOQALLIN_PART_BLOCKS);
    blocks_length++;
}

static void records(void) {
    position = (struct doqallin_position){.place = 100, .number = 7};
    CHECK(records_of("n > 1", "1,a\n2,b\n3,c\n", true, MOST) == DOQALLIN_GIVEN && count == 2 && position.place == 112 && position.number == 10);
    CHECK(found[0].place == 104 && found[0].length == 4 && found[0].number == 8 && found[1].place == 108 && found[1].number == 9);
    position = (struct doqallin_position){.place = 100, .number = 7};
    CHECK(records_of("n > 1", "1,a\n2,b\n3,c\n", true, 1) == DOQALLIN_GIVEN && count == 1 && position.place == 108 && position.number == 9);
    CHECK(records_of("n > 1", "3,c\n", true, 1) == DOQALLIN_GIVEN && count == 1 && found[0].place == 108 && position.place == 112);
    position = (struct doqallin_position){.place = 0, .number = 1};
    CHECK(records_of("true", "1,a\n2,\"b\n", false, MOST) == DOQALLIN_GIVEN && count == 1 && position.place == 4);
    CHECK(records_of("true", "2,\"b\nc\"", true, MOST) == DOQALLIN_GIVEN && count == 1 && found[0].length == 7 && position.place == 11);
    CHECK(records_of("word like '%a%'", "", true, MOST) == DOQALLIN_GIVEN && count == 0 && position.place == 11);
    position = (struct doqallin_position){.place = 11, .number = 3};
    memset(found, 77, sizeof found);
    CHECK(records_of("n > 1", "5,a\n1,b\n6,c\nx,b\n7,d\n", true, MOST) == DOQALLIN_REFUSED && fault.place == 23 && fault.reason == DOQALLIN_REFUSED_FIELD && fault.column == 0);
    CHECK(count == 2 && found[0].place == 11 && found[0].number == 3 && found[1].place == 19 && found[1].length == 4 && found[1].number == 5);
    CHECK(position.place == 23 && position.number == 6 && !memcmp(found + 2, found + 3, sizeof *found));
    CHECK(records_of("n > 1", "5,a,b\n", true, MOST) == DOQALLIN_REFUSED && fault.place == 23 && fault.reason == DOQALLIN_REFUSED_FIELD_COUNT && count == 0);
    // What may be cut is not refused, and what finds no room comes before what is refused.
    CHECK(records_of("n > 1", "5,a\nx", false, 0) == DOQALLIN_GIVEN && count == 0 && position.place == 23);
    CHECK(records_of("n > 1", "5,a\nx", false, 1) == DOQALLIN_GIVEN && count == 1 && position.place == 27 && position.number == 7);
    count = 77;
    CHECK(records_of("n >", "5,a\n", true, MOST) == DOQALLIN_BAD_FILTER && fault.place == 3 && count == 77 && position.place == 27);
    CHECK(records_of("n > 1 or word = '\xff'", "5,a\n", true, MOST) == DOQALLIN_NOT_UTF8);
    setup_length--;
    CHECK(records_of("n > 1", "5,a\n", true, MOST) == DOQALLIN_BAD_BYTES && fault.column == DOQALLIN_PART_SETUP);
    setup_length++;
}

// The columns of a setup that are wanted, with room for so many rows and for so many bytes of strings.
static struct doqallin_kind kinds[MOST];
static struct doqallin_column_buffers columns[2];
static uint8_t bits[2][MOST], values[2][MOST];
static uint64_t offsets[2][MOST];
static size_t rows;

static uint32_t columns_of(const char *words, const char *text, const size_t *wanted, size_t wanted_count, size_t most, size_t room) {
    for (size_t place = 0; place < 2; place++) {
        memset(bits[place], 0xff, MOST), memset(values[place], 0xff, MOST);
        columns[place] = (struct doqallin_column_buffers){bits[place], (most + 7) / 8, values[place], room, offsets[place], most + 1, 77};
    }
    return doqallin_search_columns(setup, setup_length, (const uint8_t *)words, strlen(words), DEPTH, 100, (const uint8_t *)text, strlen(text),
                                   wanted, wanted_count, columns, 2, &rows, &fault);
}

static void found_columns(void) {
    static const size_t wanted[2] = {1, 0}, same[2] = {1, 1}, none[2] = {0, 2};
    const char *text = "1,a\n2,\n3,\"c,c\"\n\n";
    CHECK(doqallin_column_kinds(setup, setup_length, kinds, MOST, &count, &fault) == DOQALLIN_GIVEN && count == 2);
    CHECK(kinds[0].code == DOQALLIN_I64 && kinds[1].code == DOQALLIN_LARGE_UTF8);
    CHECK(doqallin_column_kinds(setup, setup_length, kinds, 1, &count, &fault) == DOQALLIN_BUFFER_TOO_SMALL && count == 2);
    CHECK(doqallin_column_kinds(setup, setup_length - 1, kinds, MOST, &count, &fault) == DOQALLIN_BAD_BYTES && fault.column == DOQALLIN_PART_SETUP);
    CHECK(columns_of("n > 1", text, wanted, 2, 2, 16) == DOQALLIN_GIVEN && rows == 2 && columns[0].count == 3 && columns[1].count == 16);
    CHECK(bits[0][0] == 2 && bits[0][1] == 0xff && !memcmp(values[0], "c,c\xff", 4) && offsets[0][0] == 0 && offsets[0][1] == 0 && offsets[0][2] == 3);
    CHECK(bits[1][0] == 3 && values[1][0] == 2 && values[1][8] == 3 && values[1][15] == 0 && values[1][16] == 0xff);
    CHECK(columns_of("n > 1", text, same, 2, 2, 3) == DOQALLIN_GIVEN && columns[0].count == 3 && columns[1].count == 3 && !memcmp(values[1], "c,c\xff", 4));
    CHECK(columns_of("n > 9", text, wanted, 2, 2, 16) == DOQALLIN_GIVEN && rows == 0 && columns[0].count == 0 && bits[0][0] == 0xff);
    CHECK(columns_of("true", text, wanted, 2, 2, 24) == DOQALLIN_BUFFER_TOO_SMALL && rows == 3 && columns[0].count == 4 && columns[1].count == 24);
    CHECK(columns_of("n > 1", text, wanted, 2, 2, 15) == DOQALLIN_BUFFER_TOO_SMALL && rows == 2 && values[0][0] == 0xff && bits[0][0] == 0xff);
    rows = 77;
    CHECK(columns_of("n > 1", text, wanted, 1, 2, 16) == DOQALLIN_WRONG_LENGTH && fault.place == 1 && rows == 77 && columns[0].count == 77);
    CHECK(columns_of("n > 1", text, none, 2, 2, 16) == DOQALLIN_UNKNOWN_KIND && fault.column == 1);
    CHECK(columns_of("n > 1", "5,a\nx,b\n", wanted, 2, 2, 16) == DOQALLIN_REFUSED && fault.place == 104 && fault.reason == DOQALLIN_REFUSED_FIELD && fault.column == 0);
    CHECK(columns_of("n >", text, wanted, 2, 2, 16) == DOQALLIN_BAD_FILTER && fault.place == 3 && rows == 77 && columns[1].count == 77);
    CHECK(columns_of("n > 1 or word = '\xff'", text, wanted, 2, 2, 16) == DOQALLIN_NOT_UTF8);
    setup_length--;
    CHECK(columns_of("n > 1", text, wanted, 2, 2, 16) == DOQALLIN_BAD_BYTES && fault.column == DOQALLIN_PART_SETUP);
    setup_length++;
}

static void setups(void) {
    CHECK(setup_of("44 0 0 0\n", "a,b\n1,x\n", true, ROOM) == DOQALLIN_GIVEN && setup_is("44 0 0 0\ni64? a\nutf8? b\n"));
    CHECK(setup_of("null -\n59 1 0 0\n", "1.5;-\n", false, ROOM) == DOQALLIN_GIVEN && setup_is("null -\n59 1 0 0\ndecimal(18,1)? $1\nutf8? $2\n"));
    CHECK(setup_of("44 0 0 0\ni64 b\n", "a,b\n1,2\n", true, ROOM) == DOQALLIN_GIVEN && setup_is("44 0 0 0\ni64? a\ni64 b\n"));
    CHECK(setup_of("44 0 0 0\n", "a,b\n1,x\n", true, 10) == DOQALLIN_BUFFER_TOO_SMALL && count == 24);
    CHECK(setup_of("44 0 0\n", "a,b\n", true, ROOM) == DOQALLIN_BAD_BYTES && fault.column == DOQALLIN_PART_SETUP);
    CHECK(setup_of("34 0 0 0\n", "a,b\n", true, ROOM) == DOQALLIN_BAD_BYTES);
}

// The zones of a text that begins at this offset, with room for so many of them and for so many bytes of statistics.
static uint32_t zones_of(uint64_t start, const uint8_t *text, size_t length, bool is_end, size_t most, size_t room) {
    return doqallin_index_records(setup, setup_length, start, text, length, is_end, made, most, statistics, room, &made_lengths, &fault);
}

static uint32_t zones_in(const char *text, bool is_end) {
    return zones_of(100, (const uint8_t *)text, strlen(text), is_end, ROOM, ROOM);
}

static uint32_t index_of(size_t zone_count, size_t statistics_length, size_t room) {
    return doqallin_write_index(setup, setup_length, file_length, parts.changed, 0, made, zone_count, statistics, statistics_length, changed,
                                room, &count, &fault);
}

// The index of the file, whose text comes in pieces: of so many bytes at most, and at random.
static uint32_t index_by_pieces(size_t most) {
    static struct doqallin_index_zone all[ROOM];
    static uint8_t bytes[ROOM];
    size_t zone_count = 0, length = 0, place = 0, end = 0;
    bool is_end = false;
    while (!is_end) {
        is_end = end == file_length;
        end += (size_t)rand() % most + 1;
        end = end > file_length ? file_length : end;
        uint32_t status = zones_of(place, file + place, end - place, is_end, ROOM, ROOM);
        if (status != DOQALLIN_GIVEN) return status;
        memcpy(all + zone_count, made, made_lengths.zones * sizeof *made);
        memcpy(bytes + length, statistics, made_lengths.statistics);
        zone_count += made_lengths.zones, length += made_lengths.statistics, place += made_lengths.taken;
    }
    memcpy(made, all, zone_count * sizeof *made);
    memcpy(statistics, bytes, length);
    return index_of(zone_count, length, ROOM);
}

static bool is_index(void) {
    return count == index_length && !memcmp(changed, index_, count);
}

static void indexes(void) {
    CHECK(root_of(index_, root_length, ROOM) == DOQALLIN_GIVEN);
    CHECK(zones_of(0, file, file_length, true, ROOM, ROOM) == DOQALLIN_GIVEN && made_lengths.zones == ZONES && made_lengths.taken == file_length);
    CHECK(made[1].first == made[0].length && made[1].records == 10 && made[1].rows == 10 && made_lengths.nulls == 0 && made_lengths.longer == 0);
    CHECK(made[0].statistics + made[1].statistics + made[2].statistics == made_lengths.statistics);
    size_t long_enough = made_lengths.statistics;
    CHECK(index_of(ZONES, long_enough, ROOM) == DOQALLIN_GIVEN && is_index());
    CHECK(index_length <= 96 + setup_length + long_enough + 32 * ZONES + 40 * 2);
    CHECK(index_of(ZONES, long_enough, index_length - 1) == DOQALLIN_BUFFER_TOO_SMALL && count == index_length);
    CHECK(index_of(ZONES, long_enough - 1, ROOM) == DOQALLIN_WRONG_LENGTH);
    CHECK(index_of(ZONES - 1, long_enough, ROOM) == DOQALLIN_WRONG_LENGTH);
    statistics[0]++;
    CHECK(index_of(ZONES, long_enough, ROOM) == DOQALLIN_BAD_BYTES && fault.column == DOQALLIN_PART_STATISTICS);
    CHECK(zones_of(0, file, file_length, true, ZONES - 1, ROOM) == DOQALLIN_BUFFER_TOO_SMALL && made_lengths.zones == ZONES && made_lengths.statistics == long_enough);
    CHECK(zones_of(0, file, file_length, true, ZONES, long_enough - 1) == DOQALLIN_BUFFER_TOO_SMALL && made_lengths.taken == file_length);
    // Without the end only full zones are taken, which end with a line feed for certain.
    CHECK(zones_of(0, file, file_length, false, ROOM, ROOM) == DOQALLIN_GIVEN && made_lengths.zones == ZONES);
    CHECK(zones_of(0, file, file_length - 1, false, ROOM, ROOM) == DOQALLIN_GIVEN && made_lengths.zones == ZONES - 1 && made_lengths.taken == made[0].length + made[1].length);
    CHECK(zones_in("1,a\n2,b\n", false) == DOQALLIN_GIVEN && made_lengths.zones == 0 && made_lengths.statistics == 0 && made_lengths.taken == 0);
    CHECK(zones_in("1,a\n2,\"b", true) == DOQALLIN_GIVEN && made_lengths.zones == 1 && made[0].first == 100 && made[0].records == 2 && made_lengths.taken == 8);
    CHECK(zones_in("1,a\n\n", true) == DOQALLIN_GIVEN && made[0].records == 2 && made[0].rows == 1);
    CHECK(zones_in("", true) == DOQALLIN_GIVEN && made_lengths.zones == 0 && made_lengths.taken == 0);
    made_lengths.zones = 77;
    CHECK(zones_in("1,a\nx,b\n", false) == DOQALLIN_GIVEN && made_lengths.zones == 0);
    made_lengths.zones = 77;
    CHECK(zones_in("1,a\nx,b\n", true) == DOQALLIN_REFUSED && fault.place == 104 && fault.column == 0 && fault.reason == DOQALLIN_REFUSED_FIELD);
    CHECK(zones_in("1,a\n2\n", true) == DOQALLIN_REFUSED && fault.place == 104 && fault.reason == DOQALLIN_REFUSED_FIELD_COUNT);
    CHECK(zones_of(UINT64_MAX - 2, (const uint8_t *)"1,a", 3, true, ROOM, ROOM) == DOQALLIN_BAD_OFFSETS);
    CHECK(zones_of(UINT64_MAX - 3, (const uint8_t *)"1,a", 3, true, 0, 0) == DOQALLIN_BUFFER_TOO_SMALL && made_lengths.zones == 1);
    made_lengths.zones = 77;
    setup_length--;
    CHECK(zones_in("1,a\n", true) == DOQALLIN_BAD_BYTES && fault.column == DOQALLIN_PART_SETUP && made_lengths.zones == 77);
    CHECK(index_of(0, 0, ROOM) == DOQALLIN_BAD_BYTES && fault.column == DOQALLIN_PART_SETUP);
    setup_length++;
    for (size_t most = 1; most <= 400; most++) CHECK(index_by_pieces(most) == DOQALLIN_GIVEN && is_index());
}

// Each call that takes memory.
static uint32_t take_memory(int which) {
    position = (struct doqallin_position){.place = 0, .number = 1};
    switch (which) {
    case 0: return root_of(index_, root_length, ROOM);
    case 1: return blocks_of("n = 15", MOST);
    case 2: return plan_of("n = 15", false, MOST);
    case 3: return records_of("n > 1", "1,a\n2,b\n", true, MOST);
    case 4: return setup_of("44 0 0 0\n", "a,b\n1,x\n", true, ROOM);
    case 5: return zones_in("1,a\n2,b\n", true);
    case 6: return index_of(made_lengths.zones, made_lengths.statistics, ROOM);
    case 7: return columns_of("n > 1", "1,a\n2,a word of more bytes than stand in line\n", (const size_t[]){1, 0}, 2, 2, MOST);
    case 8: return doqallin_column_kinds(setup, setup_length, kinds, MOST, &count, &fault);
    default: exit(2);
    }
}

// Writes by `write` itself, which tests/refuse_nth.c listens to.
static void say(const char *line) {
    if (write(2, line, strlen(line)) < 0) exit(2);
}

// 0 if the call gives, 3 if it finds no memory, 1 if it does neither, or leaks.
static int memory(int which) {
    take_memory(which);
    size_t before = mallinfo2().uordblks;
    say("called\n");
    uint32_t status = take_memory(which);
    say("answered\n");
    if (mallinfo2().uordblks != before) return 1;
    return status == DOQALLIN_NO_MEMORY ? 3 : status == DOQALLIN_GIVEN ? 0 : 1;
}

int main(int argc, char **argv) {
    if (argc < 2) return 2;
    char name[4096];
    snprintf(name, sizeof name, "%s.zones", argv[1]);
    file_length = read_file(argv[1], file);
    index_length = read_file(name, index_);
    if (argc == 4) {
        doqallin_index_root_length(index_, DOQALLIN_INDEX_HEAD, &root_length, &fault);
        root_of(index_, root_length, ROOM);
        blocks_of("n = 15", MOST);
        take_blocks();
        zones_in("1,a\n2,b\n", true);
        return memory(atoi(argv[3]));
    }
    roots();
    plans();
    records();
    found_columns();
    setups();
    indexes();
    printf("%d passed, %d failed\n", passed, failed);
    return failed != 0;
}
