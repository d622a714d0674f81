/*
 * A gantry's load tables: eight units each have one, and four check members are made of them, so
 * that any eight of the twelve give all. Every choice of four is lost and rebuilt; five are too many.
 * Build and run it with examples/run gantry; examples/gantry.out is what it prints.
 */
#include "lhrs.h"

#include <stdio.h>
#include <stdlib.h>
#include <string.h>

#define UNITS 8u
#define CHECKS 4u
#define MEMBERS (UNITS + CHECKS)
#define TABLE 32u /* the bytes of a load table */

static uint8_t members[MEMBERS * TABLE];
static uint8_t marks[MEMBERS];
static uint8_t written[MEMBERS * TABLE]; /* the members as they were made */

/* Stops at any answer but the expected one. */
static void expect(const char *what, uint8_t number, uint8_t expected)
{
    if (number != expected) {
        printf("%s: %u, expected %u\n", what, (unsigned)number, (unsigned)expected);
        exit(EXIT_FAILURE);
    }
}

static uint8_t rebuild(void)
{
    return lhrs_rebuild_segment(members, sizeof members, marks, sizeof marks, UNITS);
}

/* A unit's load table as text, filled up with zeros: the load at the beam's middle and at its end. */
static void load_table(uint8_t table[TABLE], unsigned unit)
{
    char text[TABLE + 1] = {0};
    snprintf(text, sizeof text, "unit %u: %u t middle, %u t end", unit, 40 - 2 * unit, 60 - 3 * unit);
    memcpy(table, text, TABLE);
}

/* Fills the members of the units, and has the call make the others. */
static void write_check_members(void)
{
    for (unsigned unit = 0; unit < UNITS; unit++) {
        load_table(members + unit * TABLE, unit);
        marks[unit] = 1;
        printf("    %s\n", (const char *)members + unit * TABLE);
    }
    expect("write the check members", rebuild(), LHRS_GRANTED);
    memcpy(written, members, sizeof written);
}

/* Member c is lost where bit c is set: its bytes are overwritten, and its mark is 0. */
static unsigned lose(unsigned lost)
{
    unsigned count = 0;
    memcpy(members, written, sizeof members);
    for (unsigned c = 0; c < MEMBERS; c++) {
        marks[c] = (lost >> c & 1) == 0;
        if (marks[c] == 0) {
            memset(members + c * TABLE, 0xEE, TABLE);
            count++;
        }
    }
    return count;
}

/* Every choice of four is rebuilt: all members are as they were made, and marked so. */
static void rebuild_four(void)
{
    static const uint8_t present[MEMBERS] = {1, 1, 1, 1, 1, 1, 1, 1, 1, 1, 1, 1};
    unsigned choices = 0;
    for (unsigned lost = 0; lost < 1u << MEMBERS; lost++) {
        if (lose(lost) != CHECKS)
            continue;
        expect("rebuild four", rebuild(), LHRS_GRANTED);
        expect("a byte is wrong", memcmp(members, written, sizeof members) != 0, 0);
        expect("a mark is wrong", memcmp(marks, present, sizeof marks) != 0, 0);
        choices++;
    }
    printf("lost four of %u members, %u choices: all rebuilt\n", MEMBERS, choices);
}

/* Every choice of five is refused, and nothing changes. */
static void refuse_five(void)
{
    uint8_t members_before[sizeof members], marks_before[sizeof marks];
    unsigned choices = 0;
    for (unsigned lost = 0; lost < 1u << MEMBERS; lost++) {
        if (lose(lost) != CHECKS + 1)
            continue;
        memcpy(members_before, members, sizeof members);
        memcpy(marks_before, marks, sizeof marks);
        expect("rebuild five", rebuild(), LHRS_BEYOND_RECOVERY);
        expect("a byte is changed", memcmp(members, members_before, sizeof members) != 0, 0);
        expect("a mark is changed", memcmp(marks, marks_before, sizeof marks) != 0, 0);
        choices++;
    }
    printf("lost five of %u members, %u choices: all refused with %u, nothing changed\n", MEMBERS,
           choices, (unsigned)LHRS_BEYOND_RECOVERY);
}

int main(void)
{
    printf("%u units, a load table of %u bytes each\n", UNITS, TABLE);
    write_check_members();
    printf("wrote %u check members\n", CHECKS);
    rebuild_four();
    refuse_five();
    return EXIT_SUCCESS;
}
