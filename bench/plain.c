/*
 * The soundness test written plainly: clause by clause, each key compared with all before it in its
 * unit, no tables and no words wider than a key. The bench runs it beside the library's.
 */
#include "plain.h"

#define VERSION 4u
#define UNITS 16u
#define GROUPS 4u
#define CHECKS 3u /* check units of a group */
#define HEADER 36u
#define SLOT LHRS_RECORD /* a key and a field */
#define CHECK_RECORD (4u * LHRS_KEY + LHRS_FIELD) /* four keys and a parity */

enum state { NOT_IN_PLACE = 0, IN_SERVICE = 1, OUT = 2 };

static uint32_t word(const uint8_t *at)
{
    return (uint32_t)at[0] << 24 | (uint32_t)at[1] << 16 | (uint32_t)at[2] << 8 | at[3];
}

static int is_zero(const uint8_t *at, size_t n)
{
    for (size_t i = 0; i < n; i++)
        if (at[i] != 0)
            return 0;
    return 1;
}

static uint8_t data_state(const uint8_t *store, uint32_t unit)
{
    return store[8 + unit];
}

static uint8_t check_state(const uint8_t *store, uint32_t check)
{
    return store[24 + check];
}

static const uint8_t *slot_at(const uint8_t *store, uint32_t unit, uint32_t rank)
{
    return store + HEADER + (unit * store[5] + rank) * SLOT;
}

static const uint8_t *record_at(const uint8_t *store, uint32_t check, uint32_t rank)
{
    return store + HEADER + UNITS * SLOT * store[5] + (check * store[5] + rank) * CHECK_RECORD;
}

/* Ranges hold; the block is long enough. */
static int ranges_hold(const uint8_t *store, size_t len)
{
    if (len < HEADER)
        return 0;
    uint32_t slots = store[5], units = store[6], level = store[7];
    return store[0] == VERSION && word(store + 1) == LHRS_LENGTH(slots) && 1 <= slots && slots <= 64
           && 1 <= units && units <= UNITS && 1 <= level && level <= CHECKS
           && LHRS_LENGTH(slots) <= len;
}

/* A unit that is due is in service or out, any other is not in place. */
static int state_holds(uint8_t state, int due)
{
    return due ? state == IN_SERVICE || state == OUT : state == NOT_IN_PLACE;
}

/* The data units below M are due, and in each group of theirs the check units below K. */
static int states_hold(const uint8_t *store)
{
    for (uint32_t unit = 0; unit < UNITS; unit++)
        if (!state_holds(data_state(store, unit), unit < store[6]))
            return 0;
    for (uint32_t check = 0; check < GROUPS * CHECKS; check++) {
        int due = 4 * (check / CHECKS) < store[6] && check % CHECKS < store[7];
        if (!state_holds(check_state(store, check), due))
            return 0;
    }
    return 1;
}

/* The first check unit in service of a group, or -1. */
static int keeper(const uint8_t *store, uint32_t group)
{
    for (uint32_t j = 0; j < CHECKS; j++)
        if (check_state(store, CHECKS * group + j) == IN_SERVICE)
            return (int)(CHECKS * group + j);
    return -1;
}

/* The key of a rank: its own, or for a unit that is out the one that a check unit lists. */
static uint32_t key_at(const uint8_t *store, uint32_t unit, uint32_t rank)
{
    if (data_state(store, unit) == OUT)
        return word(record_at(store, (uint32_t)keeper(store, unit / 4), rank) + 4 * (unit % 4));
    return word(slot_at(store, unit, rank));
}

static uint32_t fill_of(const uint8_t *store, uint32_t unit)
{
    uint32_t rank = 0;
    while (rank < store[5] && key_at(store, unit, rank) != 0)
        rank++;
    return rank;
}

/* The sum of a key's hexadecimal digits. */
static uint32_t digit_sum(uint32_t key)
{
    uint32_t sum = 0;
    for (; key != 0; key /= 16)
        sum += key % 16;
    return sum;
}

uint32_t plain_unit(uint32_t units, uint32_t key)
{
    uint32_t sum = digit_sum(key), power = 1;
    while (2 * power <= units)
        power *= 2;
    return sum % (2 * power) < units ? sum % (2 * power) : sum % power;
}

/* Units out or not in place, and slots without a record, are zero. */
static int zeros_hold(const uint8_t *store)
{
    uint32_t slots = store[5];
    for (uint32_t unit = 0; unit < UNITS; unit++) {
        uint32_t from = data_state(store, unit) == IN_SERVICE ? fill_of(store, unit) : 0;
        if (!is_zero(slot_at(store, unit, from), (slots - from) * SLOT))
            return 0;
    }
    for (uint32_t check = 0; check < GROUPS * CHECKS; check++)
        if (check_state(store, check) != IN_SERVICE
            && !is_zero(record_at(store, check, 0), slots * CHECK_RECORD))
            return 0;
    return 1;
}

/* The keys of a unit are dense, different, and in their own unit. */
static int keys_hold(const uint8_t *store, uint32_t unit)
{
    uint32_t fill = fill_of(store, unit);
    for (uint32_t rank = 0; rank < store[5]; rank++) {
        uint32_t key = key_at(store, unit, rank);
        if (rank >= fill) {
            if (key != 0)
                return 0;
            continue;
        }
        if (plain_unit(store[6], key) != unit)
            return 0;
        for (uint32_t before = 0; before < rank; before++)
            if (key_at(store, unit, before) == key)
                return 0;
    }
    return 1;
}

/* A check unit in service lists the keys of its group. */
static int lists_hold(const uint8_t *store, uint32_t check)
{
    for (uint32_t rank = 0; rank < store[5]; rank++)
        for (uint32_t place = 0; place < 4; place++)
            if (word(record_at(store, check, rank) + 4 * place)
                != key_at(store, check / CHECKS * 4 + place, rank))
                return 0;
    return 1;
}

int plain_sound(const uint8_t *store, size_t len)
{
    if (!ranges_hold(store, len) || !states_hold(store) || !zeros_hold(store))
        return 0;
    for (uint32_t unit = 0; unit < UNITS; unit++) {
        uint8_t state = data_state(store, unit);
        int known = state == IN_SERVICE || (state == OUT && keeper(store, unit / 4) >= 0);
        if (known && !keys_hold(store, unit))
            return 0;
    }
    for (uint32_t check = 0; check < GROUPS * CHECKS; check++)
        if (check_state(store, check) == IN_SERVICE && !lists_hold(store, check))
            return 0;
    return 1;
}
