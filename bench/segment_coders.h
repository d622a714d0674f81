/* The byte coder in C, in two ways: bench/segment_plain.c and bench/segment_shuffle.c. Both answer as
   lhrs_rebuild_segment does. */
#ifndef SEGMENT_CODERS_H
#define SEGMENT_CODERS_H

#include "lhrs.h"

typedef uint8_t segment_coder(uint8_t *members, size_t members_len, uint8_t *marks,
                              size_t marks_len, uint32_t m);

/* One lookup for each byte and source, source by source. */
segment_coder plain_rebuild;

/* Sixteen bytes at a time, all sources of a block summed in registers. */
segment_coder shuffle_rebuild;

/* Fills the tables of both, once before any call. */
void segment_prepare(void);

/* What both share. */

/* The products of all bytes. */
extern uint8_t segment_products[256][256];

/* The first m present members of a segment. */
struct segment_sources {
    uint32_t m;
    size_t length;                      /* of a member */
    uint8_t points[LHRS_LARGEST_GROUP]; /* their numbers */
    uint8_t others[LHRS_LARGEST_GROUP]; /* the product of a point's differences to the others */
    size_t starts[LHRS_LARGEST_GROUP];  /* where each starts in the members */
};

/* Writes the sum of the sources, each times its weight, to a member that is none of them. */
typedef void segment_sum(uint8_t *restrict out, const uint8_t *restrict members,
                         const struct segment_sources *sources, const uint8_t *weights);

/* The call, with the sums made in a way of one's own. */
uint8_t segment_rebuild(segment_sum *sum, uint8_t *members, size_t members_len, uint8_t *marks,
                        size_t marks_len, uint32_t m);

#endif
