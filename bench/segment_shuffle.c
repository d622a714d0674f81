/*
 * The byte coder by shuffles of 16 bytes: SSSE3, so for x86-64 alone, compiled with -O3 -mssse3. The
 * fastest libraries do the same with wider vectors. A product with a weight is the sum of two entries
 * of 16, one by the low half of a byte and one by its high half, and a shuffle looks up 16 at once.
 * All sources of a block are summed in registers. The bench runs it beside the library's.
 */
#include "segment_coders.h"

#include <tmmintrin.h>

#define BLOCK 16u

/* The products of a weight, by the low and by the high half of a byte. */
struct halves {
    __m128i low, high;
};

static struct halves halves_of(uint8_t weight)
{
    struct halves halves;
    uint8_t low[BLOCK], high[BLOCK];
    for (unsigned half = 0; half < BLOCK; half++) {
        low[half] = segment_products[weight][half];
        high[half] = segment_products[weight][half << 4];
    }
    halves.low = _mm_loadu_si128((const __m128i *)low);
    halves.high = _mm_loadu_si128((const __m128i *)high);
    return halves;
}

/* A sum, and the block at some bytes times a weight more. */
static inline __m128i add_block(__m128i sum, const uint8_t *at, struct halves halves)
{
    const __m128i mask = _mm_set1_epi8(15);
    __m128i bytes = _mm_loadu_si128((const __m128i *)at);
    __m128i low = _mm_and_si128(bytes, mask);
    __m128i high = _mm_and_si128(_mm_srli_epi64(bytes, 4), mask);
    low = _mm_shuffle_epi8(halves.low, low);
    high = _mm_shuffle_epi8(halves.high, high);
    return _mm_xor_si128(sum, _mm_xor_si128(low, high));
}

/* The bytes behind the last whole block, by lookups. */
static void sum_rest(uint8_t *restrict out, const uint8_t *restrict members,
                     const struct segment_sources *sources, const uint8_t *weights, size_t from)
{
    for (size_t j = from; j < sources->length; j++) {
        uint8_t sum = 0;
        for (uint32_t i = 0; i < sources->m; i++)
            sum ^= segment_products[weights[i]][members[sources->starts[i] + j]];
        out[j] = sum;
    }
}

/* Two blocks at a time, then one, then the rest. */
static void shuffle_sum(uint8_t *restrict out, const uint8_t *restrict members,
                        const struct segment_sources *sources, const uint8_t *weights)
{
    struct halves halves[LHRS_LARGEST_GROUP];
    const size_t *starts = sources->starts;
    size_t j = 0;
    for (uint32_t i = 0; i < sources->m; i++)
        halves[i] = halves_of(weights[i]);
    for (; j + 2 * BLOCK <= sources->length; j += 2 * BLOCK) {
        __m128i first = _mm_setzero_si128(), second = first;
        for (uint32_t i = 0; i < sources->m; i++) {
            first = add_block(first, members + starts[i] + j, halves[i]);
            second = add_block(second, members + starts[i] + j + BLOCK, halves[i]);
        }
        _mm_storeu_si128((__m128i *)(out + j), first);
        _mm_storeu_si128((__m128i *)(out + j + BLOCK), second);
    }
    for (; j + BLOCK <= sources->length; j += BLOCK) {
        __m128i sum = _mm_setzero_si128();
        for (uint32_t i = 0; i < sources->m; i++)
            sum = add_block(sum, members + starts[i] + j, halves[i]);
        _mm_storeu_si128((__m128i *)(out + j), sum);
    }
    sum_rest(out, members, sources, weights, j);
}

uint8_t shuffle_rebuild(uint8_t *members, size_t members_len, uint8_t *marks, size_t marks_len,
                        uint32_t m)
{
    return segment_rebuild(shuffle_sum, members, members_len, marks, marks_len, m);
}
