/*
 * What include/lhrs.h says and the other tests do not show: a pointer with length 0 may be null,
 * and what its macros read, the check units of each group by the level too; widths and versions;
 * the most bytes of a list; the order of a move's fields; what its inline functions make of a field
 * and of a record, and that a stamp comes back as it was given; which losses are beyond recovery;
 * keys numbered in sixteens lie in different units; a plan and its commit; the limits of a segment,
 * which numbers it is refused with, and how it is made and rebuilt.
 * It is C99 and C++98.
 * Build and run it with tests/header.
 */
#include "lhrs.h"

#include <stdio.h>
#include <stdlib.h>
#include <string.h>

#define SLOTS 2u

static uint8_t store[LHRS_LENGTH(SLOTS)];
static uint8_t field[LHRS_FIELD];

/* Stops where a number is not the expected one. */
static void expect(const char *what, size_t number, size_t expected)
{
    if (number != expected) {
        printf("%s: %lu, expected %lu\n", what, (unsigned long)number, (unsigned long)expected);
        exit(EXIT_FAILURE);
    }
}

/* No store, no field, no output: the numbers of the table. */
static void null_blocks(void)
{
    size_t count = 99;
    expect("lay out", lhrs_lay_out(NULL, 0, SLOTS), LHRS_NO_ROOM);
    expect("lay out, b = 0", lhrs_lay_out(NULL, 0, 0), LHRS_BAD_ARGUMENT);
    expect("teach", lhrs_teach(NULL, 0, 1, field, LHRS_FIELD), LHRS_NOT_SOUND);
    expect("teach, no field", lhrs_teach(store, sizeof store, 1, NULL, 0), LHRS_BAD_ARGUMENT);
    expect("correct", lhrs_correct(NULL, 0, 1, field, LHRS_FIELD), LHRS_NOT_SOUND);
    expect("correct, no field", lhrs_correct(store, sizeof store, 1, NULL, 0), LHRS_BAD_ARGUMENT);
    expect("erase", lhrs_erase(NULL, 0, 1), LHRS_NOT_SOUND);
    expect("read", lhrs_read(NULL, 0, 1, field, LHRS_FIELD), LHRS_NOT_SOUND);
    expect("read, no output", lhrs_read(store, sizeof store, 1, NULL, 0), LHRS_BAD_ARGUMENT);
    expect("list", lhrs_list(NULL, 0, NULL, 0, &count), LHRS_NOT_SOUND);
    expect("count of a refused list", count, 0);
    expect("out", lhrs_out(NULL, 0, 0), LHRS_NOT_SOUND);
    expect("repair", lhrs_repair(NULL, 0, 0), LHRS_NOT_SOUND);
    expect("grow", lhrs_grow(NULL, 0), LHRS_NOT_SOUND);
    count = 99;
    expect("plan", lhrs_plan(NULL, 0, NULL, 0, &count), LHRS_NOT_SOUND);
    expect("count of a refused plan", count, 0);
    expect("commit", lhrs_commit(NULL, 0, NULL, 0, 0), LHRS_NOT_SOUND);
    expect("shrink", lhrs_shrink(NULL, 0), LHRS_NOT_SOUND);
    expect("raise", lhrs_raise(NULL, 0), LHRS_NOT_SOUND);
}

/* A list into no output: granted while there is no record. */
static void list_into_nothing(void)
{
    size_t count = 99;
    expect("list of none", lhrs_list(store, sizeof store, NULL, 0, &count), LHRS_GRANTED);
    expect("count of none", count, 0);
    expect("teach", lhrs_teach(store, sizeof store, 1, field, LHRS_FIELD), LHRS_GRANTED);
    count = 99;
    expect("list of one", lhrs_list(store, sizeof store, NULL, 0, &count), LHRS_NO_ROOM);
    expect("count of a refused list", count, 0);
}

/* What the macros read of a store with so many data units, at a level, with unit 0 in a state. */
static void reads(unsigned units, unsigned level, enum lhrs_state first)
{
    expect("slots of a unit", LHRS_SLOTS(store), SLOTS);
    expect("units", LHRS_UNITS(store), units);
    expect("level", LHRS_LEVEL(store), level);
    expect("state of data unit 0", LHRS_STATE(store, 0), (size_t)first);
    expect("state of data unit 15", LHRS_STATE(store, 15), LHRS_STATE_NOT_IN_PLACE);
    expect("state of check unit 0", LHRS_STATE(store, LHRS_CHECK_UNIT(0, 0)),
           LHRS_STATE_IN_SERVICE);
    expect("state of the last unit", LHRS_STATE(store, LHRS_CHECK_UNIT(3, 2)),
           LHRS_STATE_NOT_IN_PLACE);
}

/* Each group with a data unit in place has as many check units as the level says, all in service;
   there are no others. */
static void check_units(unsigned units, unsigned level)
{
    unsigned group, j;
    expect("units", LHRS_UNITS(store), units);
    expect("level", LHRS_LEVEL(store), level);
    for (group = 0; group < 4; group++) {
        for (j = 0; j < 3; j++) {
            int due = 4 * group < units && j < level;
            expect("state of a check unit", LHRS_STATE(store, LHRS_CHECK_UNIT(group, j)),
                   due ? LHRS_STATE_IN_SERVICE : LHRS_STATE_NOT_IN_PLACE);
        }
    }
}

/* A raise takes hold in every group at once; not while a unit is out, and not above level 3. */
static void raise_everywhere(void)
{
    unsigned unit, units;
    expect("lay out", lhrs_lay_out(store, sizeof store, SLOTS), LHRS_GRANTED);
    for (units = 1; units < 6; units++)
        expect("grow", lhrs_grow(store, sizeof store), LHRS_GRANTED);
    check_units(6, 1);
    expect("raise", lhrs_raise(store, sizeof store), LHRS_GRANTED);
    check_units(6, 2);
    for (unit = 0; unit < 28; unit++) {
        if (LHRS_STATE(store, unit) == LHRS_STATE_NOT_IN_PLACE)
            continue;
        expect("out", lhrs_out(store, sizeof store, unit), LHRS_GRANTED);
        expect("raise, a unit out", lhrs_raise(store, sizeof store), LHRS_UNIT_OUT);
        expect("repair", lhrs_repair(store, sizeof store, 0), LHRS_GRANTED);
        expect("repair", lhrs_repair(store, sizeof store, 1), LHRS_GRANTED);
    }
    for (; units < 9; units++)
        expect("grow", lhrs_grow(store, sizeof store), LHRS_GRANTED);
    check_units(9, 2);
    expect("raise", lhrs_raise(store, sizeof store), LHRS_GRANTED);
    check_units(9, 3);
    expect("raise at level 3", lhrs_raise(store, sizeof store), LHRS_LIMIT);
    expect("shrink", lhrs_shrink(store, sizeof store), LHRS_GRANTED);
    check_units(8, 3);
}

/* A store that says another version is not sound. */
static void other_version(void)
{
    static const uint8_t others[] = {0, 1, 2, 3, 5};
    size_t i;
    expect("version", LHRS_STORE_VERSION, 4);
    expect("version of a store", store[0], LHRS_STORE_VERSION);
    for (i = 0; i < sizeof others; i++) {
        store[0] = others[i];
        expect("grow, another version", lhrs_grow(store, sizeof store), LHRS_NOT_SOUND);
    }
    store[0] = LHRS_STORE_VERSION;
    expect("grow, version 4", lhrs_grow(store, sizeof store), LHRS_GRANTED);
}

/* The bytes of a record's parts and of a store, and what a store of one slot needs. */
static void widths(void)
{
    static uint8_t block[LHRS_LENGTH(1)];
    expect("bytes of a body", LHRS_BODY, 16);
    expect("bytes of a stamp", LHRS_STAMP, 4);
    expect("bytes of a field", LHRS_FIELD, 20);
    expect("bytes of a key", LHRS_KEY, 4);
    expect("bytes of a record", LHRS_RECORD, 24);
    expect("bytes of the smallest store", LHRS_LENGTH(1), 852);
    expect("bytes of the largest store", LHRS_LENGTH(64), 52260);
    expect("lay out, 851 bytes", lhrs_lay_out(block, 851, 1), LHRS_NO_ROOM);
    expect("a byte when refused", block[0], 0);
    expect("lay out, 852 bytes", lhrs_lay_out(block, 852, 1), LHRS_GRANTED);
    expect("lay out, b = 65", lhrs_lay_out(block, 852, 65), LHRS_BAD_ARGUMENT);
    expect("slots of a unit", LHRS_SLOTS(block), 1);
    expect("most bytes of a list", LHRS_LIST_MOST(64), 24576);
}

/* Sixteen full units are listed into LHRS_LIST_MOST bytes, and not into one less. */
static void longest_list(void)
{
    static uint8_t records[LHRS_LIST_MOST(SLOTS)];
    size_t count, taught = 0;
    uint32_t key;
    expect("lay out", lhrs_lay_out(store, sizeof store, SLOTS), LHRS_GRANTED);
    while (LHRS_UNITS(store) < 16)
        expect("grow", lhrs_grow(store, sizeof store), LHRS_GRANTED);
    for (key = 1; taught < 16 * SLOTS; key++)
        taught += lhrs_teach(store, sizeof store, key, field, LHRS_FIELD) == LHRS_GRANTED;
    expect("most bytes", LHRS_LIST_MOST(LHRS_SLOTS(store)), sizeof records);
    expect("list", lhrs_list(store, sizeof store, records, sizeof records, &count), LHRS_GRANTED);
    expect("bytes of the list", count * LHRS_RECORD, sizeof records);
    expect("list, a byte less",
           lhrs_list(store, sizeof store, records, sizeof records - 1, &count), LHRS_NO_ROOM);
}

/* Stamps with their bytes. */
static const struct {
    uint32_t stamp;
    uint8_t bytes[LHRS_STAMP];
} stamps[] = {
    {0, {0, 0, 0, 0}},
    {1, {0, 0, 0, 1}},
    {0x01020304, {0x01, 0x02, 0x03, 0x04}},
    {0x80000000, {0x80, 0x00, 0x00, 0x00}},
    {0xFFFFFFFF, {0xFF, 0xFF, 0xFF, 0xFF}}
};
#define STAMPS (sizeof stamps / sizeof stamps[0])

/* A field is the body, then the bytes of the stamp; the bytes around it are not written. */
static void fields_made_and_taken_apart(void)
{
    uint8_t body[LHRS_BODY], room[1 + LHRS_FIELD + 1];
    uint8_t *made = room + 1;
    size_t i;
    for (i = 0; i < LHRS_BODY; i++)
        body[i] = (uint8_t)(0x41 + i);
    for (i = 0; i < STAMPS; i++) {
        memset(room, 0xEE, sizeof room);
        lhrs_field_fill(made, body, stamps[i].stamp);
        expect("the body's bytes", memcmp(made, body, LHRS_BODY) == 0, 1);
        expect("the stamp's bytes", memcmp(made + LHRS_BODY, stamps[i].bytes, LHRS_STAMP) == 0, 1);
        expect("the bytes around", room[0] == 0xEE && room[1 + LHRS_FIELD] == 0xEE, 1);
        expect("the body is the field's front", lhrs_field_body(made) == made, 1);
        expect("the stamp", lhrs_field_stamp(made), stamps[i].stamp);
    }
}

/* A record is the bytes of its key, then its field. */
static void records_taken_apart(void)
{
    uint8_t record[LHRS_RECORD] = {0xFE, 0xDC, 0xBA, 0x98};
    record[4 + 16] = 0x12;
    record[4 + 19] = 0x34;
    expect("the key", lhrs_record_key(record), 0xFEDCBA98);
    expect("the field is behind the key", lhrs_record_field(record) == record + 4, 1);
    expect("the stamp of a record", lhrs_field_stamp(lhrs_record_field(record)), 0x12000034);
}

/* A field and an output of read have 20 bytes. */
static void other_lengths(void)
{
    static const size_t others[] = {0, 16, 19, 21, 24};
    uint8_t longer[24] = {0};
    size_t i;
    expect("lay out", lhrs_lay_out(store, sizeof store, SLOTS), LHRS_GRANTED);
    expect("teach", lhrs_teach(store, sizeof store, 1, longer, 20), LHRS_GRANTED);
    for (i = 0; i < sizeof others / sizeof others[0]; i++) {
        const size_t len = others[i];
        expect("teach, another length", lhrs_teach(store, sizeof store, 2, longer, len),
               LHRS_BAD_ARGUMENT);
        expect("correct, another length", lhrs_correct(store, sizeof store, 1, longer, len),
               LHRS_BAD_ARGUMENT);
        expect("read, another length", lhrs_read(store, sizeof store, 1, longer, len),
               LHRS_BAD_ARGUMENT);
    }
    expect("correct", lhrs_correct(store, sizeof store, 1, longer, 20), LHRS_GRANTED);
    expect("read", lhrs_read(store, sizeof store, 1, longer, 20), LHRS_GRANTED);
}

/* The field that these tests give to a key, with a stamp. */
static void field_of(uint8_t *made, uint32_t key, uint32_t stamp)
{
    uint8_t body[LHRS_BODY];
    memset(body, 0x40 + (int)key, sizeof body);
    lhrs_field_fill(made, body, stamp);
}

static uint32_t stamp_read(uint32_t key)
{
    uint8_t out[LHRS_FIELD];
    expect("read", lhrs_read(store, sizeof store, key, out, sizeof out), LHRS_GRANTED);
    return lhrs_field_stamp(out);
}

/* A correct takes any stamp after any other, earlier ones too. */
static void stamps_not_compared(void)
{
    uint8_t made[LHRS_FIELD];
    size_t before, after;
    expect("lay out", lhrs_lay_out(store, sizeof store, SLOTS), LHRS_GRANTED);
    field_of(made, 1, 0);
    expect("teach", lhrs_teach(store, sizeof store, 1, made, sizeof made), LHRS_GRANTED);
    for (before = 0; before < STAMPS; before++) {
        for (after = 0; after < STAMPS; after++) {
            field_of(made, 1, stamps[before].stamp);
            expect("correct", lhrs_correct(store, sizeof store, 1, made, sizeof made),
                   LHRS_GRANTED);
            field_of(made, 1, stamps[after].stamp);
            expect("correct to any stamp",
                   lhrs_correct(store, sizeof store, 1, made, sizeof made), LHRS_GRANTED);
            expect("the stamp corrected", stamp_read(1), stamps[after].stamp);
        }
    }
}

#define TAUGHT 8u

/* The eight keys of the store read and are listed with their bodies and these stamps. */
static void as_taught(const uint32_t *stamp_of)
{
    uint8_t records[TAUGHT * LHRS_RECORD], out[LHRS_FIELD], due[LHRS_FIELD];
    size_t count, i;
    uint32_t key;
    for (key = 1; key <= TAUGHT; key++) {
        field_of(due, key, stamp_of[key - 1]);
        expect("read", lhrs_read(store, sizeof store, key, out, sizeof out), LHRS_GRANTED);
        expect("body and stamp read", memcmp(out, due, sizeof due) == 0, 1);
    }
    expect("list", lhrs_list(store, sizeof store, records, sizeof records, &count), LHRS_GRANTED);
    expect("count", count, TAUGHT);
    for (i = 0; i < count; i++) {
        key = lhrs_record_key(records + i * LHRS_RECORD);
        expect("a key listed", key >= 1 && key <= TAUGHT, 1);
        field_of(due, key, stamp_of[key - 1]);
        expect("body and stamp listed",
               memcmp(lhrs_record_field(records + i * LHRS_RECORD), due, sizeof due) == 0, 1);
    }
}

/* Four units of two slots at level 2, with keys 1 to 8; key 5 is corrected to an earlier stamp. Any
   two units of the six may be lost: stamps are rebuilt by read, by list and by repair. */
static void stamps_come_back(void)
{
    static const unsigned units[] = {0, 1, 2, 3, LHRS_CHECK_UNIT(0, 0), LHRS_CHECK_UNIT(0, 1)};
    uint32_t stamp_of[TAUGHT] = {1000, 0, 0xFFFFFFFF, 0x01020304, 7, 0x80000000, 0x00FF00FF, 1};
    uint8_t made[LHRS_FIELD];
    uint32_t key;
    size_t i, j;
    expect("lay out", lhrs_lay_out(store, sizeof store, SLOTS), LHRS_GRANTED);
    while (LHRS_UNITS(store) < 4)
        expect("grow", lhrs_grow(store, sizeof store), LHRS_GRANTED);
    expect("raise", lhrs_raise(store, sizeof store), LHRS_GRANTED);
    for (key = 1; key <= TAUGHT; key++) {
        field_of(made, key, stamp_of[key - 1]);
        expect("teach", lhrs_teach(store, sizeof store, key, made, sizeof made), LHRS_GRANTED);
    }
    as_taught(stamp_of);
    stamp_of[5 - 1] = 6;
    field_of(made, 5, stamp_of[5 - 1]);
    expect("correct", lhrs_correct(store, sizeof store, 5, made, sizeof made), LHRS_GRANTED);
    as_taught(stamp_of);
    for (i = 0; i < sizeof units / sizeof units[0]; i++) {
        for (j = 0; j < i; j++) {
            expect("out", lhrs_out(store, sizeof store, units[i]), LHRS_GRANTED);
            expect("out", lhrs_out(store, sizeof store, units[j]), LHRS_GRANTED);
            as_taught(stamp_of);
            expect("repair", lhrs_repair(store, sizeof store, 0), LHRS_GRANTED);
            as_taught(stamp_of);
        }
    }
}

/* The numbers of reads of keys 1, 2, 5 and 9, of a list and of a repair, in this order. */
static void expect_numbers(const char *what, const uint8_t *due)
{
    static const uint32_t keys[] = {1, 2, 5, 9};
    uint8_t out[LHRS_FIELD], records[3 * LHRS_RECORD];
    size_t count, i;
    for (i = 0; i < 4; i++)
        expect(what, lhrs_read(store, sizeof store, keys[i], out, sizeof out), due[i]);
    expect(what, lhrs_list(store, sizeof store, records, sizeof records, &count), due[4]);
    expect(what, count, due[4] == LHRS_GRANTED ? 3 : 0);
    expect(what, lhrs_repair(store, sizeof store, 0), due[5]);
}

/* Four units of two slots at a level, with keys 1 and 5 in unit 1 and key 2 in unit 2, the first of
   each at rank 1; 9 lies in unit 1 and is not taught. */
static void three_records(unsigned level)
{
    static const uint32_t keys[] = {1, 2, 5};
    uint8_t made[LHRS_FIELD];
    size_t i;
    expect("lay out", lhrs_lay_out(store, sizeof store, SLOTS), LHRS_GRANTED);
    while (LHRS_UNITS(store) < 4)
        expect("grow", lhrs_grow(store, sizeof store), LHRS_GRANTED);
    while (LHRS_LEVEL(store) < level)
        expect("raise", lhrs_raise(store, sizeof store), LHRS_GRANTED);
    for (i = 0; i < 3; i++) {
        field_of(made, keys[i], keys[i]);
        expect("teach", lhrs_teach(store, sizeof store, keys[i], made, sizeof made), LHRS_GRANTED);
    }
}

/* What is beyond recovery goes by ranks, not by the number of units out. At level 1 units 0, 1 and
   3 have no rank in common; units 1 and 2 have rank 1, and key 5, at rank 2, is read all the same;
   with the check unit out nothing is known of unit 1, nor of unit 0, which has no record. At level
   3 all check units may be out where no data unit is. */
static void losses_by_ranks(void)
{
    static const uint8_t granted[] = {0, 0, 0, 6, 0, 0};
    static const uint8_t rank_1_lost[] = {8, 8, 0, 6, 8, 8};
    static const uint8_t unit_1_unknown[] = {8, 0, 8, 8, 8, 8};
    static const uint8_t unit_0_unknown[] = {0, 0, 0, 6, 8, 8};
    unsigned j;
    three_records(1);
    expect("out", lhrs_out(store, sizeof store, 0), LHRS_GRANTED);
    expect("out", lhrs_out(store, sizeof store, 1), LHRS_GRANTED);
    expect("out", lhrs_out(store, sizeof store, 3), LHRS_GRANTED);
    expect_numbers("units 0, 1 and 3 out", granted);
    expect_numbers("repaired", granted);
    expect("out", lhrs_out(store, sizeof store, 1), LHRS_GRANTED);
    expect("out", lhrs_out(store, sizeof store, 2), LHRS_GRANTED);
    expect_numbers("units 1 and 2 out", rank_1_lost);
    three_records(1);
    expect("out", lhrs_out(store, sizeof store, LHRS_CHECK_UNIT(0, 0)), LHRS_GRANTED);
    expect("out", lhrs_out(store, sizeof store, 1), LHRS_GRANTED);
    expect_numbers("unit 1 and the check unit out", unit_1_unknown);
    three_records(1);
    expect("out", lhrs_out(store, sizeof store, LHRS_CHECK_UNIT(0, 0)), LHRS_GRANTED);
    expect("out", lhrs_out(store, sizeof store, 0), LHRS_GRANTED);
    expect_numbers("unit 0 and the check unit out", unit_0_unknown);
    three_records(3);
    for (j = 0; j < 3; j++)
        expect("out", lhrs_out(store, sizeof store, LHRS_CHECK_UNIT(0, j)), LHRS_GRANTED);
    expect_numbers("all check units out", granted);
    expect_numbers("repaired", granted);
}

/* Four units of two slots have room for 16 to 128, two in each unit by their digit sums; 144 lies
   in unit 1 with 16 and 80. */
static void posts_in_sixteens(void)
{
    static const uint8_t listed[] = {64, 128, 16, 80, 32, 96, 48, 112};
    uint8_t records[sizeof listed * LHRS_RECORD];
    size_t count, i;
    expect("lay out", lhrs_lay_out(store, sizeof store, SLOTS), LHRS_GRANTED);
    while (LHRS_UNITS(store) < 4)
        expect("grow", lhrs_grow(store, sizeof store), LHRS_GRANTED);
    for (i = 1; i <= sizeof listed; i++) {
        const uint32_t post = 16 * (uint32_t)i;
        expect("teach a post", lhrs_teach(store, sizeof store, post, field, LHRS_FIELD),
               LHRS_GRANTED);
    }
    expect("teach 144", lhrs_teach(store, sizeof store, 144, field, LHRS_FIELD), LHRS_NO_ROOM);
    expect("list", lhrs_list(store, sizeof store, records, sizeof records, &count), LHRS_GRANTED);
    expect("count", count, sizeof listed);
    for (i = 0; i < sizeof listed; i++)
        expect("a key of the list", lhrs_record_key(records + i * LHRS_RECORD), listed[i]);
}

/* One unit of two slots with keys 1 and 2: of the two units after a grow 2 stays in the first, and 1
   goes to the second. A plan has an entry for both. It is refused into one entry, and nothing is
   written then; into more it leaves those behind it as they were. A commit looks at the count
   first, then at as many entries, and at none behind. An empty unit has the plan of no entries. */
static void two_strokes(void)
{
    static const struct lhrs_move filler = {0xEE, 0xEE, 0xEE, 0xEE};
    static const uint8_t due[] = {0, 1, 1, 1, 0, 2, 0, 1};
    struct lhrs_move moves[4];
    size_t count = 99, i, j;
    expect("bytes of a move", sizeof moves[0], 4);
    expect("place of old_unit", offsetof(struct lhrs_move, old_unit), 0);
    expect("place of old_rank", offsetof(struct lhrs_move, old_rank), 1);
    expect("place of new_unit", offsetof(struct lhrs_move, new_unit), 2);
    expect("place of new_rank", offsetof(struct lhrs_move, new_rank), 3);
    expect("most moves", LHRS_MOST_MOVES, 64);
    for (i = 0; i < 4; i++)
        moves[i] = filler;
    expect("lay out", lhrs_lay_out(store, sizeof store, SLOTS), LHRS_GRANTED);
    expect("teach", lhrs_teach(store, sizeof store, 1, field, LHRS_FIELD), LHRS_GRANTED);
    expect("teach", lhrs_teach(store, sizeof store, 2, field, LHRS_FIELD), LHRS_GRANTED);
    expect("plan into one entry", lhrs_plan(store, sizeof store, moves, 1, &count), LHRS_NO_ROOM);
    expect("count of a refused plan", count, 0);
    expect("an entry when refused", memcmp(&moves[0], &filler, sizeof filler) == 0, 1);
    expect("plan", lhrs_plan(store, sizeof store, moves, 3, &count), LHRS_GRANTED);
    expect("count of the plan", count, 2);
    expect("the plan", memcmp(moves, due, sizeof due) == 0, 1);
    expect("the entry behind", memcmp(&moves[2], &filler, sizeof filler) == 0, 1);
    expect("commit, a count less", lhrs_commit(store, sizeof store, moves, 3, 1),
           LHRS_NOT_THE_PLAN);
    expect("commit, a count more", lhrs_commit(store, sizeof store, moves, 3, 3),
           LHRS_NOT_THE_PLAN);
    expect("commit, a count above the list", lhrs_commit(store, sizeof store, moves, 2, 3),
           LHRS_NOT_THE_PLAN);
    expect("commit of no list", lhrs_commit(store, sizeof store, NULL, 0, 0), LHRS_NOT_THE_PLAN);
    for (i = 0; i < sizeof due; i++) {
        ((uint8_t *)moves)[i]++;
        expect("commit, another byte", lhrs_commit(store, sizeof store, moves, 4, 2),
               LHRS_NOT_THE_PLAN);
        ((uint8_t *)moves)[i]--;
    }
    expect("commit", lhrs_commit(store, sizeof store, moves, 4, 2), LHRS_GRANTED);
    expect("units after it", LHRS_UNITS(store), 2);
    expect("commit again", lhrs_commit(store, sizeof store, moves, 4, 2), LHRS_NOT_THE_PLAN);
    expect("out", lhrs_out(store, sizeof store, 0), LHRS_GRANTED);
    expect("plan, a unit out", lhrs_plan(store, sizeof store, moves, 4, &count), LHRS_UNIT_OUT);
    expect("commit, a unit out", lhrs_commit(store, sizeof store, moves, 4, 5), LHRS_UNIT_OUT);
    expect("lay out", lhrs_lay_out(store, sizeof store, SLOTS), LHRS_GRANTED);
    for (j = 1; j < 16; j++) {
        count = 99;
        expect("plan of none", lhrs_plan(store, sizeof store, NULL, 0, &count), LHRS_GRANTED);
        expect("count of none", count, 0);
        expect("commit of none", lhrs_commit(store, sizeof store, NULL, 0, 0), LHRS_GRANTED);
    }
    expect("plan at 16 units", lhrs_plan(store, sizeof store, moves, 4, &count), LHRS_LIMIT);
    expect("commit at 16 units", lhrs_commit(store, sizeof store, moves, 4, 5), LHRS_LIMIT);
}

/* Room for a member more than a segment has, each a byte longer than a member is. */
static uint8_t members[(LHRS_MOST_MEMBERS + 1) * (LHRS_LONGEST_MEMBER + 1)];
static uint8_t marks[LHRS_MOST_MEMBERS + 1];

/* The number for so many members of a length, the first of them present. */
static uint8_t segment(size_t count, size_t length, size_t present, uint32_t m)
{
    memset(marks, 0, sizeof marks);
    memset(marks, 1, present);
    return lhrs_rebuild_segment(members, count * length, marks, count, m);
}

static void null_segments(void)
{
    expect("segment of nothing", lhrs_rebuild_segment(NULL, 0, NULL, 0, 1), LHRS_BAD_ARGUMENT);
    expect("segment, m = 0", lhrs_rebuild_segment(NULL, 0, NULL, 0, 0), LHRS_BAD_ARGUMENT);
    expect("segment, no marks", lhrs_rebuild_segment(members, 4, NULL, 0, 1), LHRS_BAD_ARGUMENT);
    memset(marks, 1, sizeof marks);
    expect("segment, no bytes", lhrs_rebuild_segment(NULL, 0, marks, 2, 1), LHRS_BAD_ARGUMENT);
}

/* The macros are the largest that is granted; one more is refused, with all members present too. */
static void segment_limits(void)
{
    const size_t most = LHRS_MOST_MEMBERS, longest = LHRS_LONGEST_MEMBER;
    const uint32_t largest = LHRS_LARGEST_GROUP;
    expect("a full segment", segment(most, longest, largest, largest), LHRS_GRANTED);
    expect("a small segment", segment(1, 1, 1, 1), LHRS_GRANTED);
    expect("m = 0", segment(4, 1, 4, 0), LHRS_BAD_ARGUMENT);
    expect("m = 33", segment(most, 1, most, largest + 1), LHRS_BAD_ARGUMENT);
    expect("m above the members", segment(4, 1, 4, 5), LHRS_BAD_ARGUMENT);
    expect("65 members", segment(most + 1, 1, most + 1, 1), LHRS_BAD_ARGUMENT);
    expect("1,025 bytes", segment(2, longest + 1, 2, 1), LHRS_BAD_ARGUMENT);
    memset(marks, 1, sizeof marks);
    expect("5 bytes for 2 members", lhrs_rebuild_segment(members, 5, marks, 2, 1),
           LHRS_BAD_ARGUMENT);
}

/* A mark is 0 or 1, behind m present members too; what is refused with 2 is not refused with 8. */
static void segment_numbers(void)
{
    expect("too few", segment(8, 4, 3, 4), LHRS_BEYOND_RECOVERY);
    expect("a mark when refused", marks[3], 0);
    expect("too few and m = 33", segment(64, 4, 3, 33), LHRS_BAD_ARGUMENT);
    expect("too few and 65 members", segment(65, 4, 3, 4), LHRS_BAD_ARGUMENT);
    memset(marks, 1, sizeof marks);
    marks[7] = 2;
    expect("a mark of 2", lhrs_rebuild_segment(members, 32, marks, 8, 4), LHRS_BAD_ARGUMENT);
    memset(marks, 0, sizeof marks);
    marks[0] = 255;
    expect("a mark of 255, too few", lhrs_rebuild_segment(members, 32, marks, 8, 4),
           LHRS_BAD_ARGUMENT);
    expect("a mark when refused", marks[0], 255);
}

/* Data members 80 00 and 81 83. Member 2 is d0 + 2 (d0 + d1), byte by byte: 80 + 2 times 01 is 82,
   and 00 + 2 times 83 is 06 + 1D. Then both data members are lost, and rebuilt from members 2 and
   3. */
static void segment_made_and_rebuilt(void)
{
    static const uint8_t data[4] = {0x80, 0x00, 0x81, 0x83};
    uint8_t given[8] = {0x80, 0x00, 0x81, 0x83, 0xEE, 0xEE, 0xEE, 0xEE};
    uint8_t given_marks[4] = {1, 1, 0, 0};
    expect("encode", lhrs_rebuild_segment(given, 8, given_marks, 4, 2), LHRS_GRANTED);
    expect("first byte of member 2", given[4], 0x82);
    expect("second byte of member 2", given[5], 0x1B);
    expect("the marks are 1", given_marks[2] == 1 && given_marks[3] == 1, 1);
    memset(given, 0xEE, sizeof data);
    given_marks[0] = given_marks[1] = 0;
    expect("rebuild", lhrs_rebuild_segment(given, 8, given_marks, 4, 2), LHRS_GRANTED);
    expect("the data are back", memcmp(given, data, sizeof data) == 0, 1);
    expect("the marks are 1", given_marks[0] == 1 && given_marks[1] == 1, 1);
}

int main(void)
{
    expect("lay out", lhrs_lay_out(store, sizeof store, SLOTS), LHRS_GRANTED);
    null_blocks();
    reads(1, 1, LHRS_STATE_IN_SERVICE);
    list_into_nothing();
    expect("raise", lhrs_raise(store, sizeof store), LHRS_GRANTED);
    expect("grow", lhrs_grow(store, sizeof store), LHRS_GRANTED);
    expect("out", lhrs_out(store, sizeof store, 0), LHRS_GRANTED);
    reads(2, 2, LHRS_STATE_OUT);
    raise_everywhere();
    other_version();
    widths();
    longest_list();
    fields_made_and_taken_apart();
    records_taken_apart();
    other_lengths();
    stamps_not_compared();
    stamps_come_back();
    losses_by_ranks();
    posts_in_sixteens();
    two_strokes();
    null_segments();
    segment_limits();
    segment_numbers();
    segment_made_and_rebuilt();
    return EXIT_SUCCESS;
}
