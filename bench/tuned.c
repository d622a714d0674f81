/*
 * The soundness test written for speed, in portable C99; compiled with -O3. Differences are or-ed and
 * tested once: keys against their own unit by masks of their digit sums, two sums at a time, lists and
 * zeros in words of 64 bits. Ranks that all four units of a group have are tested together. A key that
 * is there twice is found by a table of marks, with an exact look back where a mark is met; 0 has its
 * mark from the start, so that one test finds the end as well. The bench
 * runs it beside the library's.
 */
#include "tuned.h"

#include <string.h>

#define VERSION 4u
#define UNITS 16u
#define GROUPS 4u
#define PLACES 4u /* data units of a group */
#define CHECKS 3u /* check units of a group */
#define HEADER 36u
#define SLOT LHRS_RECORD /* a key and a field */
#define CHECK_RECORD (4u * LHRS_KEY + LHRS_FIELD) /* four keys and a parity */
#define MARKS 4096u /* a quarter of them for each place of a group */
#define FEW 8u       /* so many keys are compared each with each, without marks */
#define FAILED 65u   /* no number of keys of a unit */

enum state { NOT_IN_PLACE = 0, IN_SERVICE = 1, OUT = 2 };

/* A group of a store whose header is in order. */
struct group {
    uint32_t slots;        /* of each unit */
    uint32_t units;        /* of the store */
    uint32_t power;        /* the largest power of two up to that */
    uint32_t first;        /* the number of its first unit */
    const uint8_t *states; /* of its data units */
    const uint8_t *data;   /* the slots of its data units, size bytes for each */
    const uint8_t *list;   /* the key lists of its first check unit in service, or null */
    size_t size;
};

/* Bytes as a number, in the machine's order. */
static uint32_t load32(const uint8_t *at)
{
    uint32_t x;
    memcpy(&x, at, sizeof x);
    return x;
}

static uint64_t load64(const uint8_t *at)
{
    uint64_t x;
    memcpy(&x, at, sizeof x);
    return x;
}

/* A number whose high byte is the digit sum of a key: the two digits of each byte are added, and the
   product adds the four bytes there. The order of the bytes does not matter. */
static uint32_t spread(uint32_t key)
{
    return ((key & 0x0f0f0f0fu) + (key >> 4 & 0x0f0f0f0fu)) * 0x01010101u;
}

/* The same of two keys, one in each half. No byte of the product goes above 120. */
static uint64_t spread_pair(uint64_t keys)
{
    const uint64_t low = 0x0f0f0f0f0f0f0f0fu;
    return ((keys & low) + (keys >> 4 & low)) * 0x01010101u;
}

/* Two numbers below 128 where two keys that lie one behind the other have their digit sums. */
static uint64_t sum_pair(uint64_t first, uint64_t second)
{
    static const uint8_t front[8] = {255, 255, 255, 255, 0, 0, 0, 0};
    const uint64_t both = 0x0100000001000000u, half = load64(front);
    return (first * both & half) | (second * both & ~half);
}

/* Whether n bytes are zero; n is a multiple of 4. */
static int is_zero(const uint8_t *at, size_t n)
{
    uint64_t a = 0, b = 0, c = 0, d = 0;
    size_t i = 0;
    for (; i + 32 <= n; i += 32) {
        a |= load64(at + i);
        b |= load64(at + i + 8);
        c |= load64(at + i + 16);
        d |= load64(at + i + 24);
    }
    for (; i < n; i += 4)
        a |= load32(at + i);
    return (a | b | c | d) == 0;
}

/* Ranges hold; the block is long enough. */
static int ranges_hold(const uint8_t *store, size_t len)
{
    if (len < HEADER || store[0] != VERSION)
        return 0;
    uint32_t slots = store[5], units = store[6], level = store[7];
    uint32_t length = (uint32_t)store[1] << 24 | (uint32_t)store[2] << 16
                      | (uint32_t)store[3] << 8 | store[4];
    return 1 <= slots && slots <= 64 && 1 <= units && units <= UNITS && 1 <= level
           && level <= CHECKS && length == LHRS_LENGTH(slots) && length <= len;
}

/* The data units below M are in place, in each group of theirs the check units below K, and no
   others. */
static int states_hold(const uint8_t *store)
{
    uint32_t units = store[6], level = store[7];
    unsigned wrong = 0;
    for (uint32_t unit = 0; unit < UNITS; unit++) {
        uint8_t state = store[8 + unit];
        wrong |= unit < units ? state - 1u > 1 : state != NOT_IN_PLACE;
    }
    for (uint32_t group = 0; group < GROUPS; group++) {
        const uint8_t *states = store + 24 + CHECKS * group;
        uint32_t due = PLACES * group < units ? level : 0;
        for (uint32_t j = 0; j < CHECKS; j++)
            wrong |= j < due ? states[j] - 1u > 1 : states[j] != NOT_IN_PLACE;
    }
    return !wrong;
}

/* Where a key of a unit leaves its mark, by multiplicative hashing: units that are tested together
   have no place in common. */
static uint32_t mark_at(uint32_t unit, uint32_t key)
{
    return PLACES * (key * 2654435761u >> 22) + unit % PLACES;
}

/* Whether the key of a rank is among those of lower ranks. */
static int is_twice(const uint8_t *keys, size_t step, uint32_t rank)
{
    uint32_t key = load32(keys + step * rank);
    for (uint32_t r = 0; r < rank; r++)
        if (load32(keys + step * r) == key)
            return 1;
    return 0;
}

/* The low bits of a digit sum that tell whether a key belongs to a unit: one bit more where the unit was split
   or made by a split. */
static uint32_t mask_of(const struct group *group, uint32_t unit)
{
    int split = unit < group->units - group->power || group->power <= unit;
    return (split ? 2 * group->power : group->power) - 1;
}

/* Four units in service with a list beside them: tests the ranks that all of them have, and returns
   their number, or FAILED. For few slots: without marks. */
static uint32_t common_few(const struct group *group)
{
    const uint8_t *list = group->list, *data = group->data;
    size_t size = group->size;
    uint32_t slots = group->slots, unit = group->first, differ = 0, rank;
    uint64_t own = sum_pair(unit, unit + 1), next_own = sum_pair(unit + 2, unit + 3);
    uint64_t other = 0, next_other = 0;
    for (rank = 0; rank < slots; rank++) {
        const uint8_t *keys = list + CHECK_RECORD * rank, *slot = data + SLOT * rank;
        uint32_t a = load32(keys), b = load32(keys + 4), c = load32(keys + 8),
                 d = load32(keys + 12);
        if (a == 0 || b == 0 || c == 0 || d == 0)
            break;
        differ |= (a ^ load32(slot)) | (b ^ load32(slot + size)) | (c ^ load32(slot + 2 * size))
                  | (d ^ load32(slot + 3 * size));
        other |= spread_pair(load64(keys)) ^ own;
        next_other |= spread_pair(load64(keys + 8)) ^ next_own;
        if (is_twice(list, CHECK_RECORD, rank) || is_twice(list + 4, CHECK_RECORD, rank)
            || is_twice(list + 8, CHECK_RECORD, rank) || is_twice(list + 12, CHECK_RECORD, rank))
            return FAILED;
    }
    other &= sum_pair(mask_of(group, unit), mask_of(group, unit + 1));
    next_other &= sum_pair(mask_of(group, unit + 2), mask_of(group, unit + 3));
    return (other | next_other | differ) != 0 ? FAILED : rank;
}

/* Four units in service with a list beside them: tests the ranks that all of them have, and returns
   their number, or FAILED. A place that has the mark is met by 0, whose mark is there from the start, and
   by a key that may be there twice. */
static uint32_t common_ranks(const struct group *group, uint8_t *marks)
{
    const uint8_t *list = group->list, *data = group->data;
    size_t size = group->size;
    uint32_t slots = group->slots, unit = group->first, differ = 0, rank;
    uint64_t own = sum_pair(unit, unit + 1), next_own = sum_pair(unit + 2, unit + 3);
    uint64_t other = 0, next_other = 0;
    uint8_t mark = (uint8_t)(unit / PLACES + 1);
    for (rank = 0; rank < slots; rank++) {
        const uint8_t *keys = list + CHECK_RECORD * rank, *slot = data + SLOT * rank;
        uint32_t a = load32(keys), b = load32(keys + 4), c = load32(keys + 8),
                 d = load32(keys + 12);
        uint8_t *pa = marks + mark_at(unit, a), *pb = marks + mark_at(unit + 1, b),
                *pc = marks + mark_at(unit + 2, c), *pd = marks + mark_at(unit + 3, d);
        if (*pa == mark || *pb == mark || *pc == mark || *pd == mark) {
            if (a == 0 || b == 0 || c == 0 || d == 0)
                break;
            if ((*pa == mark && is_twice(list, CHECK_RECORD, rank))
                || (*pb == mark && is_twice(list + 4, CHECK_RECORD, rank))
                || (*pc == mark && is_twice(list + 8, CHECK_RECORD, rank))
                || (*pd == mark && is_twice(list + 12, CHECK_RECORD, rank)))
                return FAILED;
        }
        *pa = *pb = *pc = *pd = mark;
        differ |= (a ^ load32(slot)) | (b ^ load32(slot + size)) | (c ^ load32(slot + 2 * size))
                  | (d ^ load32(slot + 3 * size));
        other |= spread_pair(load64(keys)) ^ own;
        next_other |= spread_pair(load64(keys + 8)) ^ next_own;
    }
    other &= sum_pair(mask_of(group, unit), mask_of(group, unit + 1));
    next_other &= sum_pair(mask_of(group, unit + 2), mask_of(group, unit + 3));
    return (other | next_other | differ) != 0 ? FAILED : rank;
}

/* How many keys a unit has, tested from a rank on; FAILED where one is of another unit or there
   twice. For few slots: without marks. */
static uint32_t count_few(const struct group *group, uint32_t unit, const uint8_t *keys,
                          size_t step, uint32_t rank)
{
    uint32_t own = unit << 24, other = 0;
    for (; rank < group->slots; rank++) {
        uint32_t key = load32(keys + step * rank);
        if (key == 0)
            break;
        other |= spread(key) ^ own;
        if (is_twice(keys, step, rank))
            return FAILED;
    }
    return (other & mask_of(group, unit) << 24) != 0 ? FAILED : rank;
}

/* The same with marks. */
static uint32_t count_marked(const struct group *group, uint32_t unit, const uint8_t *keys,
                             size_t step, uint32_t rank, uint8_t *marks)
{
    uint32_t own = unit << 24, other = 0;
    uint8_t mark = (uint8_t)(unit / PLACES + 1);
    for (; rank < group->slots; rank++) {
        uint32_t key = load32(keys + step * rank);
        uint8_t *place = marks + mark_at(unit, key);
        if (*place == mark) {
            if (key == 0)
                break;
            if (is_twice(keys, step, rank))
                return FAILED;
        }
        *place = mark;
        other |= spread(key) ^ own;
    }
    return (other & mask_of(group, unit) << 24) != 0 ? FAILED : rank;
}

static uint32_t count_keys(const struct group *group, uint32_t unit, const uint8_t *keys,
                           size_t step, uint32_t rank, uint8_t *marks)
{
    return marks == NULL ? count_few(group, unit, keys, step, rank)
                         : count_marked(group, unit, keys, step, rank, marks);
}

/* The keys of a group's units are dense, different and in their own unit, the list has the same, and
   units that are not in service and slots without a record are zero. */
static int keys_hold(const struct group *group, uint8_t *marks)
{
    static const uint8_t in_service[PLACES] = {IN_SERVICE, IN_SERVICE, IN_SERVICE, IN_SERVICE};
    const uint8_t *list = group->list;
    uint32_t from = 0, most, starts[PLACES];
    uint64_t differ = 0;
    if (marks != NULL)
        memset(marks, (int)(group->first / PLACES + 1), PLACES);
    if (list != NULL && memcmp(group->states, in_service, PLACES) == 0)
        from = marks == NULL ? common_few(group) : common_ranks(group, marks);
    if (from == FAILED)
        return 0;
    most = from;
    for (uint32_t place = 0; place < PLACES; place++) {
        const uint8_t *data = group->data + place * group->size;
        uint32_t unit = group->first + place, count = 0, used = 0;
        starts[place] = from;
        if (group->states[place] == IN_SERVICE) {
            count = used = count_keys(group, unit, data, SLOT, from, marks);
        } else if (group->states[place] == OUT && list != NULL) {
            count = count_keys(group, unit, list + 4 * place, CHECK_RECORD, 0, marks);
            starts[place] = count;
        }
        if (count == FAILED)
            return 0;
        if (group->states[place] != NOT_IN_PLACE
            && !is_zero(data + SLOT * used, group->size - SLOT * used))
            return 0;
        most = most < count ? count : most;
    }
    if (list == NULL)
        return 1;
    for (uint32_t place = 0; place < PLACES; place++)
        for (uint32_t rank = starts[place]; rank < most; rank++)
            differ |= load32(group->data + place * group->size + SLOT * rank)
                      ^ load32(list + 4 * place + CHECK_RECORD * rank);
    for (uint32_t rank = most; rank < group->slots; rank++)
        differ |= load64(list + CHECK_RECORD * rank) | load64(list + CHECK_RECORD * rank + 8);
    return differ == 0;
}

/* Whether three check units of so many bytes list the same keys. */
static int same_lists(const uint8_t *a, const uint8_t *b, const uint8_t *c, size_t size)
{
    uint64_t differ[2] = {0, 0};
    for (size_t at = 0; at < size; at += CHECK_RECORD) {
        uint64_t x = load64(a + at), y = load64(a + at + 8);
        differ[0] |= (x ^ load64(b + at)) | (x ^ load64(c + at));
        differ[1] |= (y ^ load64(b + at + 8)) | (y ^ load64(c + at + 8));
    }
    return (differ[0] | differ[1]) == 0;
}

/* A group's check units: those that are not in service are zero, the others list the keys. */
static int group_holds(const uint8_t *store, uint32_t number, uint32_t power, uint8_t *marks)
{
    uint32_t slots = store[5], count = 0;
    size_t data_size = SLOT * slots, check_size = CHECK_RECORD * slots;
    const uint8_t *data = store + HEADER, *checks = data + UNITS * data_size;
    const uint8_t *states = store + 24 + CHECKS * number, *lists[CHECKS];
    struct group group;
    checks += CHECKS * number * check_size;
    for (uint32_t j = 0; j < CHECKS; j++) {
        if (states[j] == IN_SERVICE)
            lists[count++] = checks + j * check_size;
        else if (!is_zero(checks + j * check_size, check_size))
            return 0;
    }
    if (count > 1 && !same_lists(lists[0], lists[1], lists[count - 1], check_size))
        return 0;
    group.slots = slots;
    group.units = store[6];
    group.power = power;
    group.first = PLACES * number;
    group.states = store + 8 + PLACES * number;
    group.data = data + PLACES * number * data_size;
    group.list = count > 0 ? lists[0] : NULL;
    group.size = data_size;
    return keys_hold(&group, marks);
}

/* Units behind the last data unit in place, and check units behind the last group in place, are
   zero. */
static int rest_is_zero(const uint8_t *store)
{
    uint32_t units = store[6], groups = (units + PLACES - 1) / PLACES;
    size_t data_size = SLOT * store[5], check_size = CHECK_RECORD * store[5];
    const uint8_t *data = store + HEADER, *checks = data + UNITS * data_size;
    return is_zero(data + units * data_size, (UNITS - units) * data_size)
           && is_zero(checks + CHECKS * groups * check_size,
                      CHECKS * (GROUPS - groups) * check_size);
}

int tuned_sound(const uint8_t *store, size_t len)
{
    uint8_t table[MARKS], *marks = NULL;
    uint32_t power = 1;
    if (!ranges_hold(store, len) || !states_hold(store))
        return 0;
    while (2 * power <= store[6])
        power *= 2;
    if (store[5] > FEW) {
        memset(table, 0, sizeof table);
        marks = table;
    }
    for (uint32_t number = 0; PLACES * number < store[6]; number++)
        if (!group_holds(store, number, power, marks))
            return 0;
    return rest_is_zero(store);
}
