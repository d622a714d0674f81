/*
 * Times the soundness test of two builds of the library in one run, in turn, an erase and a teach, a
 * grow and a shrink, and with a data unit out a read, a list and a repair: this build's, and an
 * earlier one's, whose names begin with earlier_ in place of lhrs_. Each has a store of its own, laid
 * out and filled by its own calls, so that it may be of another version; the width of its fields is
 * EARLIER_FIELD. Prints a line for each of the six and each size of store: its name, b, M, K, the
 * nanoseconds of the earlier build and of this one, with tabs between them. Where M is 16, a grow
 * goes from 15 units to 16.
 * Build and run it with bench/beside.
 */
#define _POSIX_C_SOURCE 199309L
#include "lhrs.h"

#include <stdio.h>
#include <stdlib.h>
#include <string.h>
#include <time.h>

#define MAX_SLOTS 64u
#define MAX_UNITS 16u
#define CHECK_UNITS 12u
#define HEADER 36u
#define WIDEST_FIELD 20u

#ifndef EARLIER_FIELD
#define EARLIER_FIELD LHRS_FIELD
#endif

/* The bytes of a slot, of a check record and of a store, where a field has so many. */
#define SLOT(field) (LHRS_KEY + (field))
#define CHECK_RECORD(field) (4u * LHRS_KEY + (field))
#define LENGTH(field, slots) \
    (HEADER + (MAX_UNITS * SLOT(field) + CHECK_UNITS * CHECK_RECORD(field)) * (slots))
#define ROUNDS 60
#define BATCH_NANOSECONDS 1000000.0

uint8_t earlier_lay_out(uint8_t *store, size_t len, uint32_t slots);
uint8_t earlier_raise(uint8_t *store, size_t len);
uint8_t earlier_grow(uint8_t *store, size_t len);
uint8_t earlier_shrink(uint8_t *store, size_t len);
uint8_t earlier_teach(uint8_t *store, size_t len, uint32_t key, const uint8_t *field, size_t size);
uint8_t earlier_erase(uint8_t *store, size_t len, uint32_t key);
uint8_t earlier_read(const uint8_t *store, size_t len, uint32_t key, uint8_t *out, size_t size);
uint8_t earlier_list(const uint8_t *store, size_t len, uint8_t *out, size_t size, size_t *count);
uint8_t earlier_out(uint8_t *store, size_t len, uint32_t unit);
uint8_t earlier_repair(uint8_t *store, size_t len, uint32_t group);

/* The calls of one build, and a store of its own. */
struct build {
    uint8_t (*lay_out)(uint8_t *, size_t, uint32_t);
    uint8_t (*raise)(uint8_t *, size_t);
    uint8_t (*grow)(uint8_t *, size_t);
    uint8_t (*shrink)(uint8_t *, size_t);
    uint8_t (*teach)(uint8_t *, size_t, uint32_t, const uint8_t *, size_t);
    uint8_t (*erase)(uint8_t *, size_t, uint32_t);
    uint8_t (*read)(const uint8_t *, size_t, uint32_t, uint8_t *, size_t);
    uint8_t (*list)(const uint8_t *, size_t, uint8_t *, size_t, size_t *);
    uint8_t (*out)(uint8_t *, size_t, uint32_t);
    uint8_t (*repair)(uint8_t *, size_t, uint32_t);
    size_t field; /* the bytes of a field */
    size_t length;
    uint32_t absent; /* a key that is not taught */
    uint32_t present; /* a key of unit 0 */
    uint8_t bytes[LENGTH(WIDEST_FIELD, MAX_SLOTS)];
    uint8_t lost[LENGTH(WIDEST_FIELD, MAX_SLOTS)]; /* the same store with unit 0 out */
    uint8_t growing[LENGTH(WIDEST_FIELD, MAX_SLOTS)]; /* a store that has room for a unit more */
};

static struct build earlier = {
    earlier_lay_out, earlier_raise, earlier_grow, earlier_shrink, earlier_teach, earlier_erase,
    earlier_read,    earlier_list,  earlier_out,  earlier_repair, EARLIER_FIELD, 0,
    0,               0,             {0},          {0},            {0}};
static struct build now = {lhrs_lay_out, lhrs_raise, lhrs_grow, lhrs_shrink, lhrs_teach, lhrs_erase,
                           lhrs_read,    lhrs_list,  lhrs_out,  lhrs_repair, LHRS_FIELD, 0,
                           0,            0,          {0},       {0},         {0}};

static void require(uint8_t number, uint8_t expected, const char *what)
{
    if (number != expected) {
        fprintf(stderr, "%s returned %u, expected %u\n", what, (unsigned)number,
                (unsigned)expected);
        exit(EXIT_FAILURE);
    }
}

/* The data unit that has a key, by its bytes: so no rule of where a key lies is taken for granted. */
static uint32_t holder(const struct build *build, uint32_t slots, uint32_t key)
{
    uint8_t bytes[4] = {(uint8_t)(key >> 24), (uint8_t)(key >> 16), (uint8_t)(key >> 8),
                        (uint8_t)key};
    for (uint32_t slot = 0; slot < MAX_UNITS * slots; slot++)
        if (memcmp(build->bytes + HEADER + SLOT(build->field) * slot, bytes, sizeof bytes) == 0)
            return slot / slots;
    return MAX_UNITS;
}

/* A store of so many units and check units, each data unit three quarters full. */
static void fill(struct build *build, uint32_t slots, uint32_t units, uint32_t level)
{
    const uint8_t field[WIDEST_FIELD] = {0};
    uint32_t counts[MAX_UNITS + 1] = {0}, records = slots * 3 / 4, left = records * units, key;
    build->length = LENGTH(build->field, slots);
    require(build->lay_out(build->bytes, build->length, slots), 0, "lay out");
    for (uint32_t k = 1; k < level; k++)
        require(build->raise(build->bytes, build->length), 0, "raise");
    for (uint32_t m = 1; m < units; m++)
        require(build->grow(build->bytes, build->length), 0, "grow");
    for (key = 1; left > 0; key++) {
        require(build->teach(build->bytes, build->length, key, field, build->field), 0, "teach");
        uint32_t unit = holder(build, slots, key);
        if (counts[unit] == records) {
            require(build->erase(build->bytes, build->length, key), 0, "erase");
            continue;
        }
        if (unit == 0)
            build->present = key;
        counts[unit]++;
        left--;
    }
    build->absent = key;
    memcpy(build->lost, build->bytes, build->length);
    require(build->out(build->lost, build->length, 0), 0, "out");
}

/* The soundness test: a read of a key that is not there. */
static void test(struct build *build)
{
    uint8_t out[WIDEST_FIELD];
    require(build->read(build->bytes, build->length, build->absent, out, build->field), 6, "read");
}

static void erase_and_teach(struct build *build)
{
    const uint8_t field[WIDEST_FIELD] = {0};
    require(build->erase(build->bytes, build->length, build->present), 0, "erase");
    require(build->teach(build->bytes, build->length, build->present, field, build->field), 0,
            "teach");
}

static void grow_and_shrink(struct build *build)
{
    require(build->grow(build->growing, build->length), 0, "grow");
    require(build->shrink(build->growing, build->length), 0, "shrink");
}

static void read_lost(struct build *build)
{
    uint8_t out[WIDEST_FIELD];
    require(build->read(build->lost, build->length, build->present, out, build->field), 0, "read");
}

static void list_lost(struct build *build)
{
    static uint8_t out[MAX_UNITS * MAX_SLOTS * SLOT(WIDEST_FIELD)];
    size_t count;
    require(build->list(build->lost, build->length, out, sizeof out, &count), 0, "list");
}

static void out_and_repair(struct build *build)
{
    require(build->out(build->bytes, build->length, 0), 0, "out");
    require(build->repair(build->bytes, build->length, 0), 0, "repair");
}

struct operation {
    const char *name;
    void (*run)(struct build *);
};

static const struct operation operations[] = {
    {"test", test},
    {"erase + teach", erase_and_teach},
    {"grow + shrink", grow_and_shrink},
    {"read, unit out", read_lost},
    {"list, unit out", list_lost},
    {"unit out + repair", out_and_repair},
};

/* Nanoseconds of one run, over so many. */
static double batch(const struct operation *operation, struct build *build, unsigned long runs)
{
    struct timespec start, end;
    clock_gettime(CLOCK_MONOTONIC, &start);
    for (unsigned long i = 0; i < runs; i++)
        operation->run(build);
    clock_gettime(CLOCK_MONOTONIC, &end);
    double nanoseconds = 1e9 * (double)(end.tv_sec - start.tv_sec);
    nanoseconds += (double)(end.tv_nsec - start.tv_nsec);
    return nanoseconds / (double)runs;
}

static double less(double a, double b)
{
    return a < b ? a : b;
}

static void print_row(const struct operation *operation, uint32_t slots, uint32_t units,
                      uint32_t level)
{
    unsigned long runs = 1;
    while (batch(operation, &earlier, runs) * (double)runs < BATCH_NANOSECONDS)
        runs *= 2;
    double before = batch(operation, &earlier, runs), after = batch(operation, &now, runs);
    for (int round = 1; round < ROUNDS; round++) {
        before = less(before, batch(operation, &earlier, runs));
        after = less(after, batch(operation, &now, runs));
    }
    printf("%s\t%u\t%u\t%u\t%.1f\t%.1f\n", operation->name, (unsigned)slots, (unsigned)units,
           (unsigned)level, before, after);
}

static void prepare(struct build *build, uint32_t slots, uint32_t units, uint32_t level)
{
    fill(build, slots, units < MAX_UNITS ? units : MAX_UNITS - 1, level);
    memcpy(build->growing, build->bytes, build->length);
    fill(build, slots, units, level);
}

static void print_rows(uint32_t slots, uint32_t units, uint32_t level)
{
    prepare(&earlier, slots, units, level);
    prepare(&now, slots, units, level);
    for (size_t i = 0; i < sizeof operations / sizeof operations[0]; i++)
        print_row(&operations[i], slots, units, level);
}

int main(void)
{
    static const uint32_t slots[] = {4, 64}, units[] = {1, 4, 16}, levels[] = {1, 3};
    for (int s = 0; s < 2; s++)
        for (int u = 0; u < 3; u++)
            for (int l = 0; l < 2; l++)
                print_rows(slots[s], units[u], levels[l]);
    return EXIT_SUCCESS;
}
