/*
 * A travel program's day: lays out a store, teaches park positions, corrects one of them, adds a
 * check unit, loses two units, reads all the same, repairs, and lists what is there. The hall
 * numbers its posts in sixteens; a post's number is its key. The stamp of a position is the minute
 * in which it was taught, counted from the day when the hall was put into service. Build and run it
 * with examples/run; examples/travel.out is what it prints.
 */
#include "lhrs.h"

#include <stdio.h>
#include <stdlib.h>
#include <string.h>

#define SLOTS 8u
#define UNITS 4u
#define POSTS 6u
#define STEP 16u
#define LAST_POST (POSTS * STEP)

/* The minute in which the teaching starts, the minutes that each post takes, and the minute of a
   measurement that was made before. */
#define START 4800u
#define EACH 5u
#define MEASURED 4790u

static uint8_t store[LHRS_LENGTH(SLOTS)];

/* What was taught or corrected last, by post. */
static uint8_t taught[POSTS][LHRS_FIELD];

/* That of a post from STEP to LAST_POST. */
static uint8_t *taught_of(uint32_t key)
{
    return taught[key / STEP - 1];
}

/* Says what was done, and stops at any answer but the expected one. */
static void expect(const char *what, uint8_t number, uint8_t expected)
{
    printf("%-36s %u\n", what, (unsigned)number);
    if (number != expected) {
        printf("expected %u\n", (unsigned)expected);
        exit(EXIT_FAILURE);
    }
}

/* How far from the end of the hall a crane parks at a post. */
static uint32_t metres_of(uint32_t key)
{
    return 10 + key;
}

/* A park position as a field: the body is text, filled up with zeros, the stamp is the minute. */
static void park_position(uint8_t *field, uint32_t metres, uint32_t minute)
{
    char text[LHRS_BODY + 1] = {0};
    snprintf(text, sizeof text, "park at %u.50 m", (unsigned)metres);
    lhrs_field_fill(field, (const uint8_t *)text, minute);
}

static void teach_positions(void)
{
    uint32_t minute = START;
    for (uint32_t key = STEP; key <= LAST_POST; key += STEP) {
        uint8_t *field = taught_of(key);
        minute += EACH;
        park_position(field, metres_of(key), minute);
        expect("teach a park position", lhrs_teach(store, sizeof store, key, field, LHRS_FIELD),
               LHRS_GRANTED);
    }
}

/* A position that was measured before it was taught: the measurement is right, and its minute, an
   earlier one, goes with it. */
static void correct_position(uint32_t key)
{
    uint8_t *field = taught_of(key);
    park_position(field, metres_of(key) + 1, MEASURED);
    expect("correct to an earlier measurement",
           lhrs_correct(store, sizeof store, key, field, LHRS_FIELD), LHRS_GRANTED);
}

/* Prints a position and its minute, and stops where one of them is not what was taught. */
static void print_position(uint32_t key, const uint8_t *field)
{
    const int known = key >= STEP && key <= LAST_POST;
    printf("    key %u: %.*s, taught in minute %lu\n", (unsigned)key, (int)LHRS_BODY,
           (const char *)lhrs_field_body(field), (unsigned long)lhrs_field_stamp(field));
    if (!known || memcmp(taught_of(key), field, LHRS_FIELD) != 0) {
        puts("this is not what was taught");
        exit(EXIT_FAILURE);
    }
}

static void read_positions(void)
{
    for (uint32_t key = STEP; key <= LAST_POST; key += STEP) {
        uint8_t field[LHRS_FIELD];
        expect("read", lhrs_read(store, sizeof store, key, field, sizeof field), LHRS_GRANTED);
        print_position(key, field);
    }
}

/* All records in one call, by unit: the sum of a key's hexadecimal digits decides where it lies, so
   that posts 16, 32, 48 and 64 lie in units 1, 2, 3 and 0. The buffer holds as many as the store
   can. */
static void list_positions(void)
{
    static uint8_t records[LHRS_LIST_MOST(SLOTS)];
    size_t count;
    expect("list", lhrs_list(store, sizeof store, records, sizeof records, &count), LHRS_GRANTED);
    for (size_t i = 0; i < count; i++) {
        const uint8_t *record = records + i * LHRS_RECORD;
        print_position(lhrs_record_key(record), lhrs_record_field(record));
    }
}

static void print_units(void)
{
    static const char *const states[] = {"not in place", "in service", "out"};
    for (unsigned unit = 0; unit < LHRS_UNITS(store); unit++)
        printf("    data unit %u: %s\n", unit, states[LHRS_STATE(store, unit)]);
    for (unsigned j = 0; j < LHRS_LEVEL(store); j++)
        printf("    check unit %u: %s\n", j, states[LHRS_STATE(store, LHRS_CHECK_UNIT(0u, j))]);
}

int main(void)
{
    uint8_t field[LHRS_FIELD];

    expect("lay out", lhrs_lay_out(store, sizeof store, SLOTS), LHRS_GRANTED);
    while (LHRS_UNITS(store) < UNITS)
        expect("grow by a unit", lhrs_grow(store, sizeof store), LHRS_GRANTED);
    teach_positions();
    correct_position(2 * STEP);
    expect("raise the level to 2 check units", lhrs_raise(store, sizeof store), LHRS_GRANTED);

    expect("unit 1 is swapped", lhrs_out(store, sizeof store, 1), LHRS_GRANTED);
    expect("unit 2 is swapped", lhrs_out(store, sizeof store, 2), LHRS_GRANTED);
    print_units();
    read_positions();
    park_position(field, metres_of(LAST_POST + STEP), START);
    expect("teach while units are out: refused",
           lhrs_teach(store, sizeof store, LAST_POST + STEP, field, sizeof field), LHRS_UNIT_OUT);

    expect("repair the group", lhrs_repair(store, sizeof store, 0), LHRS_GRANTED);
    print_units();
    list_positions();
    puts("every position and its minute are as taught");
    return EXIT_SUCCESS;
}
