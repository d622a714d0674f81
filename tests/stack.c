/*
 * How much stack the calls take. Each call is made on a stack of its own that was painted before:
 * the deepest byte that changed tells how much it took. Every function of the archive is called on
 * stores of 64 slots, with few units and all of them, full and half full, at each level and with up
 * to three units of a group out, and must return there each of its numbers; the byte coder gets
 * segments of up to 64 members of 1,024 bytes.
 * Argument: the bound that all have to stay below (default LHRS_STACK).
 * Build and run it with tests/stack.
 */
#define _XOPEN_SOURCE 600

#include "lhrs.h"

#include <stdio.h>
#include <stdlib.h>
#include <string.h>
#include <ucontext.h>

#define SLOTS 64u
#define DATA 4u       /* the data units of a group */
#define CHECKS 3u     /* its check units, at the highest level */
#define FIRST_KEY 36u /* the place of the first key in a store */
#define ABSENT_KEY 0xFFFFFFFFu

static void fail(const char *what, size_t number)
{
    printf("stack: %s %lu\n", what, (unsigned long)number);
    exit(EXIT_FAILURE);
}

static void granted(uint8_t returned)
{
    if (returned != LHRS_GRANTED)
        fail("a store could not be built:", returned);
}

/* What a call is lent, and its other arguments. */
static struct lent {
    uint8_t store[LHRS_LENGTH(SLOTS)];
    uint8_t field[LHRS_FIELD];
    uint8_t records[LHRS_LIST_MOST(SLOTS)];
    struct lhrs_move moves[LHRS_MOST_MOVES];
    size_t store_len, field_len, records_len, moves_len, count;
    uint32_t argument;
} lent, base;

static uint8_t members[LHRS_MOST_MEMBERS * LHRS_LONGEST_MEMBER];
static uint8_t marks[LHRS_MOST_MEMBERS + 1];
static size_t members_len, marks_len;
static uint8_t number;

static void lay_out(void)
{
    number = lhrs_lay_out(lent.store, lent.store_len, lent.argument);
}

static void teach(void)
{
    number = lhrs_teach(lent.store, lent.store_len, lent.argument, lent.field, lent.field_len);
}

static void correct(void)
{
    number = lhrs_correct(lent.store, lent.store_len, lent.argument, lent.field, lent.field_len);
}

static void erase(void)
{
    number = lhrs_erase(lent.store, lent.store_len, lent.argument);
}

static void read_field(void)
{
    number = lhrs_read(lent.store, lent.store_len, lent.argument, lent.field, lent.field_len);
}

static void list(void)
{
    number = lhrs_list(lent.store, lent.store_len, lent.records, lent.records_len, &lent.count);
}

static void out(void)
{
    number = lhrs_out(lent.store, lent.store_len, lent.argument);
}

static void repair(void)
{
    number = lhrs_repair(lent.store, lent.store_len, lent.argument);
}

static void grow(void)
{
    number = lhrs_grow(lent.store, lent.store_len);
}

static void plan(void)
{
    number = lhrs_plan(lent.store, lent.store_len, lent.moves, lent.moves_len, &lent.count);
}

static void commit(void)
{
    number = lhrs_commit(lent.store, lent.store_len, lent.moves, lent.moves_len, lent.count);
}

static void shrink(void)
{
    number = lhrs_shrink(lent.store, lent.store_len);
}

static void raise_level(void)
{
    number = lhrs_raise(lent.store, lent.store_len);
}

static void rebuild_segment(void)
{
    number = lhrs_rebuild_segment(members, members_len, marks, marks_len, lent.argument);
}

/* The calls, the numbers that the header gives each, those that it has returned here (bit n for
   number n), and the most stack that it has taken. */
#define N(n) (1u << (n))
static struct call {
    const char *name;
    void (*make)(void);
    unsigned due, seen;
    size_t deepest;
} calls[] = {
    {"lhrs_lay_out", lay_out, N(0) | N(2) | N(7), 0, 0},
    {"lhrs_teach", teach, N(0) | N(1) | N(2) | N(4) | N(5) | N(7), 0, 0},
    {"lhrs_correct", correct, N(0) | N(1) | N(2) | N(4) | N(6), 0, 0},
    {"lhrs_erase", erase, N(0) | N(1) | N(2) | N(4) | N(6), 0, 0},
    {"lhrs_read", read_field, N(0) | N(1) | N(2) | N(6) | N(8), 0, 0},
    {"lhrs_out", out, N(0) | N(1) | N(2) | N(3) | N(4), 0, 0},
    {"lhrs_repair", repair, N(0) | N(1) | N(2) | N(3) | N(8), 0, 0},
    {"lhrs_list", list, N(0) | N(1) | N(7) | N(8), 0, 0},
    {"lhrs_grow", grow, N(0) | N(1) | N(4) | N(9), 0, 0},
    {"lhrs_plan", plan, N(0) | N(1) | N(4) | N(7) | N(9), 0, 0},
    {"lhrs_commit", commit, N(0) | N(1) | N(4) | N(9) | N(11), 0, 0},
    {"lhrs_shrink", shrink, N(0) | N(1) | N(4) | N(7) | N(9), 0, 0},
    {"lhrs_raise", raise_level, N(0) | N(1) | N(4) | N(9), 0, 0},
    {"lhrs_rebuild_segment", rebuild_segment, N(0) | N(2) | N(8), 0, 0}
};
#define CALLS (sizeof calls / sizeof calls[0])
#define STORE_CALLS (CALLS - 1)
#define CALLS_WITH_ARGUMENT 7u
static struct call *const segment_call = &calls[CALLS - 1];

static uint8_t stack[16384];
static size_t bound = LHRS_STACK, calls_made;

static void run_on_stack(void (*function)(void))
{
    static ucontext_t here, there;
    if (getcontext(&there) != 0)
        fail("no context", 0);
    there.uc_stack.ss_sp = stack;
    there.uc_stack.ss_size = sizeof stack;
    there.uc_link = &here;
    makecontext(&there, function, 0);
    if (swapcontext(&here, &there) != 0)
        fail("no context", 1);
}

/* The bytes of a painted stack that a function takes, the few of its entry too. Two paints take
   turns, since a byte may be written that has just the paint's value. */
static size_t depth(void (*function)(void))
{
    const uint8_t paint = calls_made++ % 2 == 0 ? 0xA5 : 0x5A;
    size_t untouched = 0;
    memset(stack, paint, sizeof stack);
    run_on_stack(function);
    while (untouched < sizeof stack && stack[untouched] == paint)
        untouched++;
    if (untouched == 0)
        fail("the painted stack is too small:", sizeof stack);
    return sizeof stack - untouched;
}

static void measure(struct call *call)
{
    const size_t taken = depth(call->make);
    if (taken >= bound) {
        printf("stack: %s takes %lu bytes\n", call->name, (unsigned long)taken);
        exit(EXIT_FAILURE);
    }
    if (taken > call->deepest)
        call->deepest = taken;
    call->seen |= N(number);
}

/* The measure itself is tried: a function that writes so many bytes of stack takes little more. */
#define KNOWN 3000u
static void takes_known(void)
{
    volatile uint8_t block[KNOWN];
    size_t i;
    for (i = 0; i < KNOWN; i++)
        block[i] = (uint8_t)i;
    number = block[0];
}

static void try_measure(void)
{
    const size_t taken = depth(takes_known);
    if (taken < KNOWN || taken > KNOWN + 512)
        fail("a function that takes 3,000 bytes was measured to take", taken);
}

/* Every call on the base with its arguments as they are, and those that take a key, a unit, a group
   or b with several. A commit has the plan of the base. */
static void each_call(void)
{
    static const uint32_t arguments[] = {0, 1, 2, 3, 15, 16, 17, 28, 64, 65, ABSENT_KEY};
    const size_t several = sizeof arguments / sizeof arguments[0];
    size_t i, j;
    if (lhrs_plan(base.store, base.store_len, base.moves, LHRS_MOST_MOVES, &base.count) != 0)
        base.count = 0;
    for (i = 0; i < STORE_CALLS; i++) {
        for (j = 0; j < (i < CALLS_WITH_ARGUMENT ? several : 1); j++) {
            lent = base;
            lent.argument = arguments[j];
            measure(&calls[i]);
        }
    }
}

/* Every call with a field, an output and a list that do not fit, on a block that is too short, and
   on a store with a wrong key. */
static void each_misused_call(void)
{
    static struct lent fitting;
    fitting = base;
    base.field_len = base.records_len = LHRS_FIELD - 1;
    base.moves_len = 1;
    each_call();
    base.store_len = LHRS_LENGTH(SLOTS) - 1;
    each_call();
    base = fitting;
    base.store[FIRST_KEY]++;
    each_call();
    base = fitting;
}

/* A base of so many units at a level, with so many records to a unit, as far as there is room. */
static void build(unsigned units, unsigned level, unsigned records)
{
    unsigned taught = 0;
    uint32_t key;
    memset(&base, 0, sizeof base);
    base.store_len = sizeof base.store;
    base.field_len = sizeof base.field;
    base.records_len = sizeof base.records;
    base.moves_len = LHRS_MOST_MOVES;
    granted(lhrs_lay_out(base.store, base.store_len, SLOTS));
    while (LHRS_UNITS(base.store) < units)
        granted(lhrs_grow(base.store, base.store_len));
    while (LHRS_LEVEL(base.store) < level)
        granted(lhrs_raise(base.store, base.store_len));
    for (key = 1; taught < records * units; key++)
        taught += lhrs_teach(base.store, base.store_len, key, base.field, LHRS_FIELD) == 0;
}

/* Every call with up to three units of the last group out, data units and check units. */
static void with_units_out(void)
{
    static struct lent whole;
    const unsigned group = (LHRS_UNITS(base.store) - 1u) / DATA;
    unsigned lost, i, count;
    whole = base;
    for (lost = 0; lost < 1u << (DATA + CHECKS); lost++) {
        base = whole;
        for (i = count = 0; i < DATA + CHECKS; i++) {
            const unsigned unit = i < DATA ? DATA * group + i : LHRS_CHECK_UNIT(group, i - DATA);
            if ((lost >> i & 1) != 0 && LHRS_STATE(base.store, unit) == LHRS_STATE_IN_SERVICE) {
                granted(lhrs_out(base.store, base.store_len, unit));
                count++;
            }
        }
        if (count <= CHECKS)
            each_call();
    }
    base = whole;
}

static void stores(void)
{
    static const unsigned units[] = {1, 6, 16};
    unsigned i, level;
    for (i = 0; i < sizeof units / sizeof units[0]; i++) {
        for (level = 1; level <= CHECKS; level++) {
            build(units[i], level, i == 1 ? SLOTS / 2 : SLOTS);
            with_units_out();
            each_misused_call();
        }
    }
}

/* A segment of so many members of a length, present from one of them on. */
static void segment(size_t count, size_t length, size_t first_present, uint32_t m)
{
    size_t i;
    members_len = count * length;
    marks_len = count;
    for (i = 0; i < count; i++)
        marks[i] = i >= first_present;
    lent.argument = m;
    measure(segment_call);
}

static void segments(void)
{
    static const uint32_t groups[] = {1, 2, 7, 31, 32};
    static const size_t lengths[] = {1, 15, 16, 100, 1024};
    size_t i, j, lost;
    for (i = 0; i < sizeof members; i++)
        members[i] = (uint8_t)(i * i >> 3);
    for (i = 0; i < sizeof groups / sizeof groups[0]; i++) {
        const uint32_t m = groups[i];
        for (j = 0; j < sizeof lengths / sizeof lengths[0]; j++) {
            const size_t most = LHRS_MOST_MEMBERS - m;
            for (lost = 0; lost < most; lost += 1 + lost / 4)
                segment(LHRS_MOST_MEMBERS, lengths[j], lost, m);
            segment(LHRS_MOST_MEMBERS, lengths[j], most, m);
            segment(LHRS_MOST_MEMBERS, lengths[j], most + 1, m);
            segment(m, lengths[j], 0, m);
        }
    }
    segment(LHRS_MOST_MEMBERS + 1, 1, 0, 1);
}

int main(int arguments, char **argument)
{
    const struct call *deepest = calls;
    size_t i;
    if (arguments > 1)
        bound = strtoul(argument[1], NULL, 10);
    try_measure();
    stores();
    segments();
    for (i = 0; i < CALLS; i++) {
        if (calls[i].seen != calls[i].due) {
            printf("stack: %s returned the numbers %x, not %x\n", calls[i].name, calls[i].seen,
                   calls[i].due);
            return EXIT_FAILURE;
        }
        if (calls[i].deepest > deepest->deepest)
            deepest = &calls[i];
    }
    printf("stack: %lu bytes at most (%s), in %lu calls; the bound is %lu\n",
           (unsigned long)deepest->deepest, deepest->name, (unsigned long)calls_made,
           (unsigned long)bound);
    return EXIT_SUCCESS;
}
