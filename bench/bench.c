/*
 * Times the store's calls over the static library, a copy of the store's bytes, and two soundness
 * tests in C beside the library's, all in one run. Prints a line for each time, with tabs between its
 * parts: the table that it belongs to, b, M, K, what was timed, and the nanoseconds of one run, the
 * least of several batches. With the word "compare" it prints nothing, and holds the two tests in C to
 * the library's verdicts, on sound stores and on damaged ones. Build and run it with bench/run.
 */
#define _POSIX_C_SOURCE 199309L
#include "lhrs.h"
#include "plain.h"
#include "tuned.h"

#include <stdio.h>
#include <stdlib.h>
#include <string.h>
#include <time.h>

#define MAX_SLOTS 64u
#define MAX_LENGTH LHRS_LENGTH(MAX_SLOTS)
#define MAX_UNITS 16u
#define MAX_LEVEL 3u
#define HEADER 36u
#define CHECK_RECORD (4u * LHRS_KEY + LHRS_FIELD)
#define ROUNDS 8
#define BATCH_NANOSECONDS 1000000.0

/* A laid out store with all units about three quarters full. */
struct hall {
    uint32_t slots;
    uint32_t units;
    size_t length;
    uint32_t keys[MAX_SLOTS]; /* those of unit 0 */
    uint32_t count;           /* their number */
    uint32_t turn;            /* the next of them to use */
    uint8_t fields[MAX_SLOTS][LHRS_FIELD]; /* new fields for them, made before the clock runs */
    uint32_t absent;          /* a key of unit 0 that is not taught */
    uint8_t bytes[MAX_LENGTH];
};

static struct hall whole;   /* every unit in service */
static struct hall scattered; /* the same with keys and counts without a pattern */
static struct hall lost;    /* unit 0 is out */
static struct hall growing; /* at most 15 units, so that it can grow */
static struct hall raising; /* at most level 2, so that it can be raised */
static struct hall half;    /* half full, every unit in service */
static struct hall one_out; /* the same with unit 0 out */
static struct hall two_out; /* the same with units 0 and 1 out */

static void require(uint8_t number, uint8_t expected, const char *what)
{
    if (number != expected) {
        fprintf(stderr, "%s returned %u, expected %u\n", what, (unsigned)number,
                (unsigned)expected);
        exit(EXIT_FAILURE);
    }
}

/* Lays out, raises to the level, and grows. */
static void build(struct hall *hall, uint32_t slots, uint32_t units, uint32_t level)
{
    hall->slots = slots;
    hall->units = units;
    hall->length = LHRS_LENGTH(slots);
    hall->turn = 0;
    require(lhrs_lay_out(hall->bytes, hall->length, slots), 0, "lay out");
    for (uint32_t k = 1; k < level; k++)
        require(lhrs_raise(hall->bytes, hall->length), 0, "raise");
    for (uint32_t m = 1; m < units; m++)
        require(lhrs_grow(hall->bytes, hall->length), 0, "grow");
}

static void fill_field(uint8_t field[LHRS_FIELD], uint32_t seed)
{
    for (unsigned i = 0; i < LHRS_FIELD; i++) {
        seed = seed * 1664525u + 1013904223u;
        field[i] = (uint8_t)(seed >> 24);
    }
}

/* Teaches a key, and keeps it where it is one of unit 0. */
static void teach(struct hall *hall, uint32_t unit, uint32_t key)
{
    uint8_t field[LHRS_FIELD];
    fill_field(field, key);
    require(lhrs_teach(hall->bytes, hall->length, key, field, sizeof field), 0, "teach");
    if (unit == 0)
        hall->keys[hall->count++] = key;
}

/* Teaches the keys 1, 2, .. until each unit has so many. */
static void fill(struct hall *hall, uint32_t records)
{
    uint32_t counts[MAX_UNITS] = {0}, left = records * hall->units, key = 1;
    hall->count = 0;
    for (; left > 0; key++) {
        uint32_t unit = plain_unit(hall->units, key);
        if (counts[unit] == records)
            continue;
        teach(hall, unit, key);
        counts[unit]++;
        left--;
    }
    for (uint32_t i = 0; i < records; i++)
        fill_field(hall->fields[i], ~i);
    while (plain_unit(hall->units, key) != 0)
        key++;
    hall->absent = key;
}

/* The next of a sequence of numbers without a pattern (xorshift), none of them twice and none 0. */
static uint32_t next_number(uint32_t *state)
{
    *state ^= *state << 13;
    *state ^= *state >> 17;
    *state ^= *state << 5;
    return *state;
}

/* Keys and counts without a pattern: each unit from half full to full. */
static void scatter(struct hall *hall)
{
    uint32_t state = 12345, counts[MAX_UNITS], left = 0, key;
    for (uint32_t unit = 0; unit < hall->units; unit++) {
        counts[unit] = hall->slots / 2 + next_number(&state) % (hall->slots / 2 + 1);
        left += counts[unit];
    }
    hall->count = 0;
    while (left > 0) {
        key = next_number(&state);
        uint32_t unit = plain_unit(hall->units, key);
        if (counts[unit] == 0)
            continue;
        teach(hall, unit, key);
        counts[unit]--;
        left--;
    }
    do
        key = next_number(&state);
    while (plain_unit(hall->units, key) != 0);
    hall->absent = key;
}

/* The tests in C say of a store what the library says; the verdict. */
static int same_verdict(const struct hall *hall)
{
    uint8_t out[LHRS_FIELD];
    int sound = lhrs_read(hall->bytes, hall->length, hall->absent, out, sizeof out) != 1;
    require((uint8_t)plain_sound(hall->bytes, hall->length), (uint8_t)sound, "plain test");
    require((uint8_t)tuned_sound(hall->bytes, hall->length), (uint8_t)sound, "tuned test");
    return sound;
}

/* Bytes changed one by one, all of the header and some of the units. */
static void damage_bytes(const struct hall *hall)
{
    static struct hall damaged;
    size_t step = hall->length / 1024 + 1;
    damaged = *hall;
    for (size_t i = 0; i < hall->length; i += i < HEADER ? 1 : step) {
        for (unsigned flip = 0; flip < 4; flip++) {
            damaged.bytes[i] = (uint8_t)(hall->bytes[i] ^ flip);
            same_verdict(&damaged);
        }
        damaged.bytes[i] = hall->bytes[i];
    }
}

/* Where the key of a rank stands: in the unit, and in check unit j of its group. */
static uint8_t *own_key(struct hall *hall, uint32_t unit, uint32_t rank)
{
    return hall->bytes + HEADER + (unit * hall->slots + rank) * LHRS_RECORD;
}

static uint8_t *listed_key(struct hall *hall, uint32_t unit, uint32_t rank, uint32_t j)
{
    uint32_t check = unit / 4 * MAX_LEVEL + j;
    return own_key(hall, MAX_UNITS, 0) + (check * hall->slots + rank) * CHECK_RECORD + unit % 4 * 4;
}

/* Gives a rank another key, in its unit and in all lists that are in service. */
static void set_key(struct hall *hall, uint32_t unit, uint32_t rank, const uint8_t key[4])
{
    if (LHRS_STATE(hall->bytes, unit) == LHRS_STATE_IN_SERVICE)
        memcpy(own_key(hall, unit, rank), key, 4);
    for (uint32_t j = 0; j < MAX_LEVEL; j++)
        if (LHRS_STATE(hall->bytes, LHRS_CHECK_UNIT(unit / 4, j)) == LHRS_STATE_IN_SERVICE)
            memcpy(listed_key(hall, unit, rank, j), key, 4);
}

/* Another key with the same digits, which is of the same unit. */
static void turn_key(uint8_t key[4])
{
    uint8_t first = key[0];
    key[0] = key[3];
    key[3] = first;
}

/* Keys that are there twice, of another unit, new, missing, or behind an empty slot. */
static void damage_keys(const struct hall *hall)
{
    static struct hall damaged;
    for (uint32_t unit = 0; unit < hall->units; unit++) {
        for (uint32_t rank = 0; rank < hall->slots; rank += 1 + hall->slots / 8) {
            damaged = *hall;
            for (uint32_t from = 0; from < hall->slots; from += 1 + hall->slots / 4) {
                uint8_t key[4];
                memcpy(key, own_key(&damaged, unit, from), sizeof key);
                set_key(&damaged, unit, rank, key);
                same_verdict(&damaged);
                key[3] ^= 1;
                set_key(&damaged, unit, rank, key);
                same_verdict(&damaged);
                key[3] ^= 1;
                turn_key(key);
                set_key(&damaged, unit, rank, key);
                same_verdict(&damaged);
            }
        }
    }
}

/* A group with a check unit less than the level, and with one more, which is as its first one. */
static void damage_check_units(const struct hall *hall)
{
    static struct hall damaged;
    uint32_t level = LHRS_LEVEL(hall->bytes);
    size_t size = hall->slots * CHECK_RECORD;
    for (uint32_t unit = 0; unit < hall->units; unit += 4) {
        uint8_t *states = damaged.bytes + 8 + LHRS_CHECK_UNIT(unit / 4, 0);
        damaged = *hall;
        states[level - 1] = LHRS_STATE_NOT_IN_PLACE;
        memset(listed_key(&damaged, unit, 0, level - 1), 0, size);
        require((uint8_t)same_verdict(&damaged), 0, "soundness with a check unit less");
        if (level == MAX_LEVEL)
            continue;
        damaged = *hall;
        states[level] = states[0];
        memcpy(listed_key(&damaged, unit, 0, level), listed_key(&damaged, unit, 0, 0), size);
        require((uint8_t)same_verdict(&damaged), 0, "soundness with a check unit more");
    }
}

/* The tests in C agree with the library's on a store, with units out, and damaged. */
static void compare_tests(const struct hall *hall)
{
    static const uint32_t out[][4] = {{0, 0, 0, 0}, {16, 0, 0, 0}, {1, 17, 2, 0}, {16, 17, 18, 3}};
    static struct hall losing;
    damage_bytes(hall);
    damage_check_units(hall);
    damage_keys(hall);
    for (size_t i = 0; i < sizeof out / sizeof out[0]; i++) {
        losing = *hall;
        for (size_t j = 0; j < 4; j++) {
            uint8_t number = lhrs_out(losing.bytes, losing.length, out[i][j]);
            int possible = number == 0 || number == LHRS_NOT_IN_PLACE || number == LHRS_UNIT_OUT;
            require((uint8_t)possible, 1, "out");
        }
        require((uint8_t)same_verdict(&losing), 1, "soundness with units out");
        damage_keys(&losing);
    }
}

static void prepare(uint32_t slots, uint32_t units, uint32_t level)
{
    uint32_t records = slots * 3 / 4;
    build(&scattered, slots, units, level);
    scatter(&scattered);
    build(&whole, slots, units, level);
    fill(&whole, records);
    lost = whole;
    require(lhrs_out(lost.bytes, lost.length, 0), 0, "out");
    build(&growing, slots, units < MAX_UNITS ? units : MAX_UNITS - 1, level);
    fill(&growing, records);
    build(&raising, slots, units, level < MAX_LEVEL ? level : MAX_LEVEL - 1);
    fill(&raising, records);
}

/* The keys of unit 0 in turn: the place of the next one. */
static uint32_t next_turn(struct hall *hall)
{
    uint32_t turn = hall->turn;
    hall->turn = turn + 1 < hall->count ? turn + 1 : 0;
    return turn;
}

/* By a pointer that may change, so that the copy is made. */
static void *(*volatile copy)(void *, const void *, size_t) = memcpy;

static uint8_t copied[MAX_LENGTH];

static void copy_store(void)
{
    copy(copied, whole.bytes, whole.length);
}

/* The library's soundness test: a read of a key that is not there. */
static void test_one(const struct hall *hall)
{
    uint8_t out[LHRS_FIELD];
    require(lhrs_read(hall->bytes, hall->length, hall->absent, out, sizeof out), 6, "read");
}

static void test_whole(void)
{
    test_one(&whole);
}

static void test_scattered(void)
{
    test_one(&scattered);
}

static void test_plainly(void)
{
    require((uint8_t)plain_sound(whole.bytes, whole.length), 1, "plain test");
}

static void tuned_one(const struct hall *hall)
{
    require((uint8_t)tuned_sound(hall->bytes, hall->length), 1, "tuned test");
}

static void tuned_whole(void)
{
    tuned_one(&whole);
}

static void tuned_scattered(void)
{
    tuned_one(&scattered);
}

static void erase_and_teach(void)
{
    uint32_t turn = next_turn(&whole), key = whole.keys[turn];
    require(lhrs_erase(whole.bytes, whole.length, key), 0, "erase");
    require(lhrs_teach(whole.bytes, whole.length, key, whole.fields[turn], LHRS_FIELD), 0, "teach");
}

static void correct_one(void)
{
    /* each time a key gets the field that the key after it got last, so that the bytes change */
    uint32_t turn = next_turn(&whole);
    static uint32_t shift;
    if (turn == 0)
        shift = shift + 1 < whole.count ? shift + 1 : 0;
    uint32_t other = turn + shift < whole.count ? turn + shift : turn + shift - whole.count;
    require(lhrs_correct(whole.bytes, whole.length, whole.keys[turn], whole.fields[other],
                         LHRS_FIELD), 0, "correct");
}

static void read_from(struct hall *hall)
{
    uint8_t out[LHRS_FIELD];
    uint32_t key = hall->keys[next_turn(hall)];
    require(lhrs_read(hall->bytes, hall->length, key, out, sizeof out), 0, "read");
}

static void read_one(void)
{
    read_from(&whole);
}

static void read_lost(void)
{
    read_from(&lost);
}

static size_t list_from(struct hall *hall)
{
    static uint8_t out[MAX_UNITS * MAX_SLOTS * LHRS_RECORD];
    size_t count;
    require(lhrs_list(hall->bytes, hall->length, out, sizeof out, &count), 0, "list");
    return count;
}

static void list_full(struct hall *hall)
{
    require(list_from(hall) == (size_t)hall->units * hall->count, 1, "list's count");
}

static void list_all(void)
{
    list_full(&whole);
}

static void list_lost(void)
{
    list_full(&lost);
}

static void out_and_repair(void)
{
    require(lhrs_out(whole.bytes, whole.length, 0), 0, "out");
    require(lhrs_repair(whole.bytes, whole.length, 0), 0, "repair");
}

static void grow_and_shrink(void)
{
    require(lhrs_grow(growing.bytes, growing.length), 0, "grow");
    require(lhrs_shrink(growing.bytes, growing.length), 0, "shrink");
}

/* Nothing takes a raise back: it is made on a copy, and so is the grow that it is compared with. */
static void copy_to_raise(void)
{
    copy(copied, raising.bytes, raising.length);
}

static void copy_and_raise(void)
{
    copy_to_raise();
    require(lhrs_raise(copied, raising.length), 0, "raise");
}

static void copy_and_grow(void)
{
    copy_to_raise();
    require(lhrs_grow(copied, raising.length), 0, "grow");
}

static void tuned_half(void)
{
    tuned_one(&half);
}

static void test_half(void)
{
    test_one(&half);
}

static void read_one_out(void)
{
    read_from(&one_out);
}

static void read_two_out(void)
{
    read_from(&two_out);
}

static void list_one_out(void)
{
    list_from(&one_out);
}

static void list_two_out(void)
{
    list_from(&two_out);
}

static void one_out_and_repair(void)
{
    require(lhrs_out(half.bytes, half.length, 0), 0, "out");
    require(lhrs_repair(half.bytes, half.length, 0), 0, "repair");
}

static void two_out_and_repair(void)
{
    require(lhrs_out(half.bytes, half.length, 0), 0, "out");
    require(lhrs_out(half.bytes, half.length, 1), 0, "out");
    require(lhrs_repair(half.bytes, half.length, 0), 0, "repair");
}

/* Growing in two strokes: the plan, and a commit of it beside a grow, both on a copy. */
static struct lhrs_move moves[LHRS_MOST_MOVES];
static size_t move_count;

static void tuned_growing(void)
{
    tuned_one(&growing);
}

static void ask_for_plan(void)
{
    require(lhrs_plan(growing.bytes, growing.length, moves, LHRS_MOST_MOVES, &move_count), 0,
            "plan");
}

static void copy_and_grow_at_once(void)
{
    copy(copied, growing.bytes, growing.length);
    require(lhrs_grow(copied, growing.length), 0, "grow");
}

static void copy_and_commit(void)
{
    copy(copied, growing.bytes, growing.length);
    require(lhrs_commit(copied, growing.length, moves, LHRS_MOST_MOVES, move_count), 0, "commit");
}

struct operation {
    const char *name;
    void (*run)(void);
};

/* A table: its name, and what it compares. T is bench/tuned.c's test. */
#define MOST_OPERATIONS 16

struct table {
    const char *name;
    struct operation operations[MOST_OPERATIONS]; /* those behind the last have no name */
};

static const struct table store_table = {"store", {
    {"T", tuned_whole},
    {"test", test_whole},
    {"T, no pattern", tuned_scattered},
    {"test, no pattern", test_scattered},
    {"memcpy", copy_store},
    {"plain C", test_plainly},
    {"correct", correct_one},
    {"erase + teach", erase_and_teach},
    {"read", read_one},
    {"read, unit out", read_lost},
    {"list", list_all},
    {"list, unit out", list_lost},
    {"unit out + repair", out_and_repair},
    {"grow + shrink", grow_and_shrink},
}};

static const struct table raise_table = {"raise", {
    {"memcpy", copy_to_raise},
    {"memcpy + grow", copy_and_grow},
    {"memcpy + raise", copy_and_raise},
}};

static const struct table half_table = {"half", {
    {"T", tuned_half},
    {"test", test_half},
    {"read, one out", read_one_out},
    {"read, two out", read_two_out},
    {"list, one out", list_one_out},
    {"list, two out", list_two_out},
    {"one out + repair", one_out_and_repair},
    {"two out + repair", two_out_and_repair},
}};

static const struct table strokes_table = {"strokes", {
    {"T", tuned_growing},
    {"plan", ask_for_plan},
    {"memcpy + grow", copy_and_grow_at_once},
    {"memcpy + commit", copy_and_commit},
}};

/* Nanoseconds of one run, over so many. */
static double batch(const struct operation *operation, unsigned long runs)
{
    struct timespec start, end;
    clock_gettime(CLOCK_MONOTONIC, &start);
    for (unsigned long i = 0; i < runs; i++)
        operation->run();
    clock_gettime(CLOCK_MONOTONIC, &end);
    double nanoseconds = 1e9 * (double)(end.tv_sec - start.tv_sec);
    nanoseconds += (double)(end.tv_nsec - start.tv_nsec);
    return nanoseconds / (double)runs;
}

/* Runs that fill a batch. The first batches also warm the buffers. */
static unsigned long runs_of_batch(const struct operation *operation)
{
    unsigned long runs = 1;
    while (batch(operation, runs) * (double)runs < BATCH_NANOSECONDS)
        runs *= 2;
    return runs;
}

/* Prints the least time of each operation of a table over rounds that take all of them in turn. */
static void print_row(const struct table *table, uint32_t slots, uint32_t units, uint32_t level)
{
    const struct operation *operations = table->operations;
    unsigned long runs[MOST_OPERATIONS];
    double least[MOST_OPERATIONS];
    size_t count = 0;
    for (; count < MOST_OPERATIONS && operations[count].name != NULL; count++) {
        runs[count] = runs_of_batch(&operations[count]);
        least[count] = batch(&operations[count], runs[count]);
    }
    for (int round = 1; round < ROUNDS; round++) {
        for (size_t i = 0; i < count; i++) {
            double time = batch(&operations[i], runs[i]);
            if (time < least[i])
                least[i] = time;
        }
    }
    for (size_t i = 0; i < count; i++)
        printf("%s\t%u\t%u\t%u\t%s\t%.1f\n", table->name, (unsigned)slots, (unsigned)units,
               (unsigned)level, operations[i].name, least[i]);
}

/* Each unit half full, but for unit 1: with one check unit it is empty, since two units can then be
   rebuilt only where no rank misses two records; with more it is a quarter full, so that the ranks
   of unit 0 miss two records first and then one. */
static void prepare_half(uint32_t slots, uint32_t units, uint32_t level)
{
    uint32_t counts[MAX_UNITS] = {0}, left = 0, key;
    build(&half, slots, units, level);
    for (uint32_t unit = 0; unit < units; unit++) {
        counts[unit] = unit != 1 ? slots / 2 : level == 1 ? 0 : slots / 4;
        left += counts[unit];
    }
    half.count = 0;
    for (key = 1; left > 0; key++) {
        uint8_t field[LHRS_FIELD];
        uint32_t unit = plain_unit(units, key);
        if (counts[unit] == 0)
            continue;
        fill_field(field, key);
        require(lhrs_teach(half.bytes, half.length, key, field, sizeof field), 0, "teach");
        if (unit == 0)
            half.keys[half.count++] = key;
        counts[unit]--;
        left--;
    }
    while (plain_unit(units, key) != 0)
        key++;
    half.absent = key;
    one_out = half;
    require(lhrs_out(one_out.bytes, one_out.length, 0), 0, "out");
    two_out = one_out;
    require(lhrs_out(two_out.bytes, two_out.length, 1), 0, "out");
    require(list_from(&half) == list_from(&one_out), 1, "list's count with one unit out");
    require(list_from(&half) == list_from(&two_out), 1, "list's count with two units out");
}

/* Calls a function for stores of 4 and of 64 slots, of so many units each. */
static void each_size(const uint32_t *units, int count, uint32_t highest,
                      void (*call)(uint32_t, uint32_t, uint32_t))
{
    static const uint32_t slots[] = {4, 64};
    for (int s = 0; s < 2; s++)
        for (int u = 0; u < count; u++)
            for (uint32_t level = 1; level <= highest; level += highest - 1)
                call(slots[s], units[u], level);
}

static void print_store_row(uint32_t slots, uint32_t units, uint32_t level)
{
    prepare(slots, units, level);
    print_row(&store_table, slots, units, level);
}

/* Raise beside grow, at the levels that can be raised. */
static void print_raise_row(uint32_t slots, uint32_t units, uint32_t level)
{
    build(&raising, slots, units, level);
    fill(&raising, slots * 3 / 4);
    print_row(&raise_table, slots, units, level);
}

static void print_half_row(uint32_t slots, uint32_t units, uint32_t level)
{
    prepare_half(slots, units, level);
    print_row(&half_table, slots, units, level);
}

static void print_strokes_row(uint32_t slots, uint32_t units, uint32_t level)
{
    build(&growing, slots, units, level);
    fill(&growing, slots * 3 / 4);
    ask_for_plan();
    require(move_count == growing.count, 1, "count of the plan");
    print_row(&strokes_table, slots, units, level);
}

static void compare_size(uint32_t slots, uint32_t units, uint32_t level)
{
    prepare(slots, units, level);
    compare_tests(&scattered);
    compare_tests(&whole);
    damage_bytes(&lost);
}

int main(int argc, char **argv)
{
    static const uint32_t units[] = {1, 4, 16}, raised[] = {12, 15}, halves[] = {4, 16},
                          grown[] = {1, 4, 15};
    if (argc > 1 && strcmp(argv[1], "compare") == 0) {
        each_size(units, 3, MAX_LEVEL, compare_size);
        return EXIT_SUCCESS;
    }
    each_size(units, 3, MAX_LEVEL, print_store_row);
    each_size(raised, 2, MAX_LEVEL - 1, print_raise_row);
    each_size(halves, 2, MAX_LEVEL, print_half_row);
    each_size(grown, 3, MAX_LEVEL, print_strokes_row);
    return EXIT_SUCCESS;
}
