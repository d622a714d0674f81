/* lhrs.h: a record store for crane control units in one lent block of bytes, and a byte coder for
   groups of more than four units.

   Store. It lies in one block of bytes, which the caller owns and lends to each call by a pointer
   and a length. The library keeps nothing between calls, allocates nothing and opens nothing. The
   block may be copied, saved and loaded as plain bytes, on any machine. Bytes behind the store's
   length are never touched.

   Memory. A pointer must be valid for its length; with length 0 it may be null. count must not be
   null. What is lent to one call must not overlap: no two blocks, nor count and a block. A call
   takes less than LHRS_STACK bytes of stack.

   At the same time. Calls on different stores may run at the same time. On one store lhrs_read,
   lhrs_list and lhrs_plan may run beside each other, with outputs of their own; every other call
   runs alone. lhrs_rebuild_segment may run beside all calls that are not lent its blocks.

   Cut off. A call cut off by a reset or a loss of power can leave its blocks half written. The next
   call may return 1. Or the store is sound, but a record or the parity is wrong, and no call tells.
   So make the call on a copy, and switch to the copy when it has returned 0. The same holds for a
   segment.

   Records. A record is a key, 1 to 4,294,967,295, and a field of 20 bytes: a body of 16, then a
   stamp of 4, which says when the record was taught. The stamp is a number of 32 bits, big-endian,
   in any unit of time. Stamps are not compared.

   Units. Records lie in 1 to 16 data units of b slots each, by the sum of the eight hexadecimal
   digits of their keys: 0x10, 0x20 and 0x30 lie in different units. Each four data units form a
   group (0-3, 4-7, 8-11, 12-15). The store has a level, 1 to 3: each group with a data unit in
   place has that many check units, from which lost units are rebuilt.

   Losses. The records of a unit fill its slots from the first on. Those in slot r of a group's data
   units are rank r of the group. A rank can be rebuilt as long as no more of its records lie in
   units that are out than check units of the group are in service. So a group survives as many lost
   units as the level says, and more where these have few ranks in common.

   Numbers. Each call returns a number of enum lhrs_number. Where it is not 0, the call has changed
   no byte, but for count, which is 0 then. Where several apply, the first of 2, 1, 3, 9, 4, 8, 5,
   6, 7, 11 is given.

   Archive. libstore.a, installed as liblhrs.a, is for x86-64 Linux. Its only global symbols are the
   functions declared below.
   It needs these symbols of a C library and no others: memcpy, memset. */
#ifndef LHRS_H
#define LHRS_H

#include <stddef.h>
#include <stdint.h>

#ifdef __cplusplus
extern "C" {
#endif

/* The version of this interface, which rises by one with each change that a caller can notice, and
   that of a store, its first byte. */
#define LHRS_INTERFACE 1
#define LHRS_STORE_VERSION 4

/* The compiler warns where a call's number is not used. Define it empty to go without. */
#ifndef LHRS_CHECKED
#ifdef __GNUC__
#define LHRS_CHECKED __attribute__((warn_unused_result))
#else
#define LHRS_CHECKED
#endif
#endif

/* More bytes of stack than any call takes: about twice the most that was measured. */
#define LHRS_STACK 8192u

/* The bytes of a field, 20: a body, then a stamp. */
#define LHRS_BODY 16u
#define LHRS_STAMP 4u
#define LHRS_FIELD (LHRS_BODY + LHRS_STAMP)

/* The bytes of a record as lhrs_list writes it, 24: its key, big-endian, then its field. */
#define LHRS_KEY 4u
#define LHRS_RECORD (LHRS_KEY + LHRS_FIELD)

/* The bytes of a store whose units have b slots, 36 + 816b. */
#define LHRS_LENGTH(b) \
    (36u + (16u * LHRS_RECORD + 12u * (4u * LHRS_KEY + LHRS_FIELD)) * (b))

/* The most bytes that lhrs_list writes: 16 full units of b slots. */
#define LHRS_LIST_MOST(b) (16u * LHRS_RECORD * (b))

/* The number of check unit j (0 to 2) of group g (0 to 3), 16 to 27. Data units are 0 to 15. */
#define LHRS_CHECK_UNIT(g, j) (16u + 3u * (g) + (j))

/* Of a store, by a pointer to its first byte: b, 1 to 64; the number of data units; the level; the
   state of a unit. They read one byte and test nothing. */
#define LHRS_SLOTS(store) ((store)[5])
#define LHRS_UNITS(store) ((store)[6])
#define LHRS_LEVEL(store) ((store)[7])
#define LHRS_STATE(store, unit) ((store)[8u + (unit)])

enum lhrs_state {
    LHRS_STATE_NOT_IN_PLACE = 0,
    LHRS_STATE_IN_SERVICE = 1,
    LHRS_STATE_OUT = 2
};

enum lhrs_number {
    /* The call has done what it says. */
    LHRS_GRANTED = 0,
    /* The block holds no sound store: never laid out, cut short, damaged, or of another version.
       All calls on a store but lhrs_lay_out test this. They do not test parity. */
    LHRS_NOT_SOUND = 1,
    /* An argument is outside its range: key 0; b not 1 to 64; a field, or an output of read, that
       is not 20 bytes long; a unit above 27; a group above 3. Of a segment: m not 1 to 32; fewer
       than m or more than 64 members; members not all of one length from 1 to 1,024 bytes; a mark
       that is neither 0 nor 1. */
    LHRS_BAD_ARGUMENT = 2,
    /* The store has no such unit or group at present. */
    LHRS_NOT_IN_PLACE = 3,
    /* A unit is out: in the group of the key's unit (teach, correct, erase); in the group of the
       unit added or removed, or of the one that it is split from (grow, plan, commit, shrink); any
       (raise); or the unit itself already (out). Repair the group first. */
    LHRS_UNIT_OUT = 4,
    /* The key is taught already. lhrs_correct gives it a new field. */
    LHRS_KEY_PRESENT = 5,
    /* The key is not taught. */
    LHRS_KEY_NOT_PRESENT = 6,
    /* No room: the key's unit is full (teach), the records of both units do not fit into one
       (shrink), the block is shorter than LHRS_LENGTH(b) (lay out), the output is too short for all
       records (list), or the list for all moves (plan). */
    LHRS_NO_ROOM = 7,
    /* A rank cannot be rebuilt: the key's, in a unit that is out (read), one of the group (repair),
       any (list). Or a data unit, the key's, one of the group or any, is out and its group has no
       check unit in service: nothing tells which records it had. Of a segment: fewer than m members
       are present. */
    LHRS_BEYOND_RECOVERY = 8,
    /* A limit: 16 units (grow, plan, commit), 1 unit (shrink), level 3 (raise). */
    LHRS_LIMIT = 9,
    /* The list is not the store's plan, or count exceeds the list (commit). 10 is hallrun's. */
    LHRS_NOT_THE_PLAN = 11
};

/* Where a record of the unit that is split is, and where a grow puts it. One that stays in its unit
   has a move too: its rank may change. Units are numbered from 0, ranks from 1. */
struct lhrs_move {
    uint8_t old_unit;
    uint8_t old_rank;
    uint8_t new_unit;
    uint8_t new_rank;
};

/* The most moves of a plan. */
#define LHRS_MOST_MOVES 64u

/* The parts of a field, and of a record that lhrs_list has written. These functions are not in the
   archive, and test nothing. */

/* The number in four bytes, big-endian. */
static inline uint32_t lhrs_big_endian(const uint8_t *bytes)
{
    return (uint32_t)bytes[0] << 24 | (uint32_t)bytes[1] << 16 | (uint32_t)bytes[2] << 8 | bytes[3];
}

/* Writes LHRS_FIELD bytes, from LHRS_BODY bytes and a stamp. */
static inline void lhrs_field_fill(uint8_t *field, const uint8_t *body, uint32_t stamp)
{
    unsigned i;
    for (i = 0; i < LHRS_BODY; i++)
        field[i] = body[i];
    field[LHRS_BODY] = (uint8_t)(stamp >> 24);
    field[LHRS_BODY + 1] = (uint8_t)(stamp >> 16);
    field[LHRS_BODY + 2] = (uint8_t)(stamp >> 8);
    field[LHRS_BODY + 3] = (uint8_t)stamp;
}

static inline const uint8_t *lhrs_field_body(const uint8_t *field)
{
    return field;
}

static inline uint32_t lhrs_field_stamp(const uint8_t *field)
{
    return lhrs_big_endian(field + LHRS_BODY);
}

static inline uint32_t lhrs_record_key(const uint8_t *record)
{
    return lhrs_big_endian(record);
}

static inline const uint8_t *lhrs_record_field(const uint8_t *record)
{
    return record + LHRS_KEY;
}

/* Makes an empty store of the first LHRS_LENGTH(b) bytes: one data unit of b slots, level 1.
   Returns 0, 2 or 7. */
LHRS_CHECKED uint8_t lhrs_lay_out(uint8_t *store, size_t len, uint32_t b);

/* Adds a record with a new key. field_len is 20. Returns 0, 1, 2, 4, 5 or 7. */
LHRS_CHECKED uint8_t lhrs_teach(uint8_t *store, size_t len, uint32_t key, const uint8_t *field,
                                size_t field_len);

/* Gives a taught key a new body and stamp; an earlier stamp will do. field_len is 20.
   Returns 0, 1, 2, 4 or 6. */
LHRS_CHECKED uint8_t lhrs_correct(uint8_t *store, size_t len, uint32_t key, const uint8_t *field,
                                  size_t field_len);

/* Removes a record. Returns 0, 1, 2, 4 or 6. */
LHRS_CHECKED uint8_t lhrs_erase(uint8_t *store, size_t len, uint32_t key);

/* Writes the field of a key to out; out_len is 20. Where the key's unit is out, the field is
   rebuilt, also where other ranks are lost. Returns 0, 1, 2, 6 or 8. */
LHRS_CHECKED uint8_t lhrs_read(const uint8_t *store, size_t len, uint32_t key, uint8_t *out,
                               size_t out_len);

/* Writes all records to out, LHRS_RECORD bytes each, by unit and then by slot; those of units that
   are out are rebuilt. count becomes their number. Bytes behind them are not written.
   Returns 0, 1, 7 or 8. */
LHRS_CHECKED uint8_t lhrs_list(const uint8_t *store, size_t len, uint8_t *out, size_t out_len,
                               size_t *count);

/* Takes a unit (0 to 27) out of service, as when it is swapped: its bytes become zero.
   Returns 0, 1, 2, 3 or 4. */
LHRS_CHECKED uint8_t lhrs_out(uint8_t *store, size_t len, uint32_t unit);

/* Rebuilds all units of a group (0 to 3) that are out and puts them in service. With no data unit
   out it is granted, however many check units are. Returns 0, 1, 2, 3 or 8. */
LHRS_CHECKED uint8_t lhrs_repair(uint8_t *store, size_t len, uint32_t group);

/* Adds a data unit, and splits another: its records are dealt out to both. A group that starts with
   the new unit gets its check units. Returns 0, 1, 4 or 9. */
LHRS_CHECKED uint8_t lhrs_grow(uint8_t *store, size_t len);

/* Tells what a grow would move: writes a move for each record of the unit to be split, by its rank
   now, to moves, which has moves_len entries. count becomes their number. Entries behind them are
   not written. Returns 0, 1, 4, 7 or 9. */
LHRS_CHECKED uint8_t lhrs_plan(const uint8_t *store, size_t len, struct lhrs_move *moves,
                               size_t moves_len, size_t *count);

/* Grows the store where the first count entries of moves are still its whole plan. Entries behind
   them are not looked at. A unit without records has a plan without moves.
   Returns 0, 1, 4, 9 or 11. */
LHRS_CHECKED uint8_t lhrs_commit(uint8_t *store, size_t len, const struct lhrs_move *moves,
                                 size_t moves_len, size_t count);

/* Removes the last data unit; its records go back to the unit that it was split from. A group left
   with no data unit loses its check units. Returns 0, 1, 4, 7 or 9. */
LHRS_CHECKED uint8_t lhrs_shrink(uint8_t *store, size_t len);

/* Raises the level by one: each group with a data unit in place gets one more check unit.
   Returns 0, 1, 4 or 9. */
LHRS_CHECKED uint8_t lhrs_raise(uint8_t *store, size_t len);

/* The byte coder takes no store, but a segment: m data members, and behind them any number of check
   members, m to 64 in all. The members are equal stretches of one block, member c the one from byte
   c times their length on. A second block has a mark for each member: 1 where it is present, 0
   where it is missing.

   Byte by byte, member c is the value at point c of the polynomial of a degree below m whose values
   at points 0 to m - 1 are the data members, over GF(256): bytes as polynomials modulo
   t^8+t^4+t^3+t^2+1, point c being the byte c. So any m members give all others, and a segment made
   with fewer members is the front of one made with more.

   To encode, fill members 0 to m - 1, mark them with 1 and all others with 0. To rebuild, mark with
   0 what was lost; what those members hold does not matter. */

/* The largest m, the most members of a segment, and the most bytes of a member. */
#define LHRS_LARGEST_GROUP 32u
#define LHRS_MOST_MEMBERS 64u
#define LHRS_LONGEST_MEMBER 1024u

/* Makes all missing members from the first m present ones, and all marks 1. Present members are
   neither changed nor compared. marks_len is the number of members, members_len that number times
   their length. Returns 0, 2 or 8. */
LHRS_CHECKED uint8_t lhrs_rebuild_segment(uint8_t *members, size_t members_len, uint8_t *marks,
                                          size_t marks_len, uint32_t m);

#ifdef __cplusplus
}
#endif

#endif
