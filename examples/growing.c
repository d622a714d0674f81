/*
 * Growing in two strokes: the electrician asks which records a third unit would take over, looks at
 * the moves, and only then puts it in. A position that is taught in between makes the list old: the
 * commit is refused, and the plan is asked for anew. The second unit is added in the same way while
 * the store is empty: that plan has no moves. Build and run it with examples/run;
 * examples/growing.out is what it prints.
 */
#include "lhrs.h"

#include <stdio.h>
#include <stdlib.h>

#define SLOTS 8u
#define FIRST_POSTS 12u
#define LATE_POST 32u

static uint8_t store[LHRS_LENGTH(SLOTS)];

/* Says what was done, and stops at any answer but the expected one. */
static void expect(const char *what, uint8_t number, uint8_t expected)
{
    printf("%-36s %u\n", what, (unsigned)number);
    if (number != expected) {
        printf("expected %u\n", (unsigned)expected);
        exit(EXIT_FAILURE);
    }
}

/* A position as a field: the body is text, filled up with zeros; the stamp is the post's number. */
static void teach(const char *what, uint32_t post)
{
    char text[LHRS_BODY + 1] = {0};
    uint8_t field[LHRS_FIELD];
    snprintf(text, sizeof text, "post %u", (unsigned)post);
    lhrs_field_fill(field, (const uint8_t *)text, post);
    expect(what, lhrs_teach(store, sizeof store, post, field, LHRS_FIELD), LHRS_GRANTED);
}

/* Asks for the plan and shows it: the records that go to another unit, and how many stay. A unit
   without records is split without a move. */
static size_t ask(struct lhrs_move *moves, size_t room)
{
    size_t count, i, staying = 0;
    expect("ask for the plan", lhrs_plan(store, sizeof store, moves, room, &count), LHRS_GRANTED);
    if (count == 0) {
        puts("  no moves: the unit that is split has no records");
        return 0;
    }
    for (i = 0; i < count; i++) {
        const struct lhrs_move *move = &moves[i];
        if (move->new_unit == move->old_unit) {
            staying++;
            continue;
        }
        printf("  unit %u rank %u goes to unit %u rank %u\n", (unsigned)move->old_unit,
               (unsigned)move->old_rank, (unsigned)move->new_unit, (unsigned)move->new_rank);
    }
    printf("  %u stay in unit %u\n", (unsigned)staying, (unsigned)moves[0].old_unit);
    return count;
}

int main(void)
{
    struct lhrs_move moves[LHRS_MOST_MOVES];
    size_t count;
    uint32_t post;
    expect("lay out", lhrs_lay_out(store, sizeof store, SLOTS), LHRS_GRANTED);
    count = ask(moves, LHRS_MOST_MOVES);
    expect("commit to two units", lhrs_commit(store, sizeof store, moves, count, count),
           LHRS_GRANTED);
    for (post = 1; post <= FIRST_POSTS; post++)
        teach("teach a position", post);
    count = ask(moves, LHRS_MOST_MOVES);
    teach("teach a position meanwhile", LATE_POST);
    expect("commit the plan as it was", lhrs_commit(store, sizeof store, moves, count, count),
           LHRS_NOT_THE_PLAN);
    count = ask(moves, LHRS_MOST_MOVES);
    expect("commit the plan", lhrs_commit(store, sizeof store, moves, count, count), LHRS_GRANTED);
    printf("%u units\n", (unsigned)LHRS_UNITS(store));
    return 0;
}
