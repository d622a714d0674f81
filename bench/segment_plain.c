/*
 * The byte coder written plainly, in portable C99; compiled with -O3: a table of all products, 64 KiB,
 * Lagrange's weights by products and one inverse each, and one lookup for each byte and source, source
 * by source. The bench runs it beside the library's.
 */
#include "segment_coders.h"

#include <string.h>

#define MODULUS 0x11Du

uint8_t segment_products[256][256];
static uint8_t inverses[256];

/* Multiplies the polynomials, then takes away multiples of the modulus. */
static uint8_t product_by_rule(unsigned a, unsigned b)
{
    unsigned product = 0;
    for (int i = 0; i < 8; i++)
        if (b >> i & 1)
            product ^= a << i;
    for (int degree = 14; degree >= 8; degree--)
        if (product >> degree & 1)
            product ^= MODULUS << (degree - 8);
    return (uint8_t)product;
}

void segment_prepare(void)
{
    for (unsigned a = 0; a < 256; a++)
        for (unsigned b = 0; b < 256; b++) {
            segment_products[a][b] = product_by_rule(a, b);
            if (segment_products[a][b] == 1)
                inverses[a] = (uint8_t)b;
        }
}

static uint8_t product(uint8_t a, uint8_t b)
{
    return segment_products[a][b];
}

static int marks_in_range(const uint8_t *marks, size_t count)
{
    for (size_t c = 0; c < count; c++)
        if (marks[c] > 1)
            return 0;
    return 1;
}

static int in_range(size_t members_len, const uint8_t *marks, size_t count, uint32_t m)
{
    if (m < 1 || m > LHRS_LARGEST_GROUP || count < m || count > LHRS_MOST_MEMBERS)
        return 0;
    size_t length = members_len / count;
    return members_len % count == 0 && length >= 1 && length <= LHRS_LONGEST_MEMBER
           && marks_in_range(marks, count);
}

/* Finds the first m present members; returns how many of them there are. */
static uint32_t find_sources(struct segment_sources *sources, const uint8_t *marks, size_t count)
{
    uint32_t found = 0;
    for (size_t c = 0; c < count && found < sources->m; c++) {
        if (marks[c] == 1) {
            sources->points[found] = (uint8_t)c;
            sources->starts[found] = c * sources->length;
            found++;
        }
    }
    return found;
}

/* What the weights for all points have in common. */
static void multiply_differences(struct segment_sources *sources)
{
    const uint8_t *points = sources->points;
    for (uint32_t i = 0; i < sources->m; i++) {
        uint8_t others = 1;
        for (uint32_t j = 0; j < sources->m; j++)
            if (j != i)
                others = product(others, points[i] ^ points[j]);
        sources->others[i] = others;
    }
}

/* Lagrange's weights of the sources for a point that is none of theirs. */
static void find_weights(uint8_t *weights, const struct segment_sources *sources, uint8_t point)
{
    uint8_t all = 1;
    for (uint32_t i = 0; i < sources->m; i++)
        all = product(all, point ^ sources->points[i]);
    for (uint32_t i = 0; i < sources->m; i++) {
        uint8_t divisor = product(point ^ sources->points[i], sources->others[i]);
        weights[i] = product(all, inverses[divisor]);
    }
}

uint8_t segment_rebuild(segment_sum *sum, uint8_t *members, size_t members_len, uint8_t *marks,
                        size_t marks_len, uint32_t m)
{
    struct segment_sources sources;
    uint8_t weights[LHRS_LARGEST_GROUP];
    if (!in_range(members_len, marks, marks_len, m))
        return LHRS_BAD_ARGUMENT;
    sources.m = m;
    sources.length = members_len / marks_len;
    if (find_sources(&sources, marks, marks_len) < m)
        return LHRS_BEYOND_RECOVERY;
    multiply_differences(&sources);
    for (size_t c = 0; c < marks_len; c++) {
        if (marks[c] == 0) {
            find_weights(weights, &sources, (uint8_t)c);
            sum(members + c * sources.length, members, &sources, weights);
            marks[c] = 1;
        }
    }
    return LHRS_GRANTED;
}

/* One nest of loops, so that the compiler can take several sources in one pass over the sum. */
static void plain_sum(uint8_t *restrict out, const uint8_t *restrict members,
                      const struct segment_sources *sources, const uint8_t *weights)
{
    const size_t *starts = sources->starts;
    size_t length = sources->length;
    uint32_t m = sources->m;
    memset(out, 0, length);
    for (uint32_t i = 0; i < m; i++) {
        const uint8_t *products = segment_products[weights[i]];
        const uint8_t *source = members + starts[i];
        for (size_t j = 0; j < length; j++)
            out[j] ^= products[source[j]];
    }
}

uint8_t plain_rebuild(uint8_t *members, size_t members_len, uint8_t *marks, size_t marks_len,
                      uint32_t m)
{
    return segment_rebuild(plain_sum, members, members_len, marks, marks_len, m);
}
