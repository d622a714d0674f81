/*
 * Times the library's byte coder beside two coders in C, all in one run: bench/segment_plain.c, by one
 * lookup for each byte and source, and bench/segment_shuffle.c, by shuffles of 16 bytes. First all
 * three are held to the same results. Prints a table with a row for each size of segment, and below it
 * the worst ratios beside the bars for them. Build and run it with bench/segments.
 */
#define _POSIX_C_SOURCE 199309L
#include "lhrs.h"
#include "segment_coders.h"

#include <stdio.h>
#include <stdlib.h>
#include <string.h>
#include <time.h>

#define MAX_BYTES (LHRS_MOST_MEMBERS * LHRS_LONGEST_MEMBER)
#define COMPARED 4000
#define ROUNDS 60
#define BATCH_NANOSECONDS 1000000.0
#define SHORT 64u /* bytes of a member */
#define LONG 1024u
#define WIDE 8u /* from this m on the shuffles have a bar */

enum { LIBRARY, PLAIN, SHUFFLE, CODERS };

static segment_coder *const coders[CODERS] = {
    [LIBRARY] = lhrs_rebuild_segment,
    [PLAIN] = plain_rebuild,
    [SHUFFLE] = shuffle_rebuild,
};

/* A segment, and what is lost of it. */
struct segment {
    uint32_t m;
    size_t count;  /* of members */
    size_t length; /* of each */
    uint8_t members[MAX_BYTES];
    uint8_t marks[LHRS_MOST_MEMBERS];
};

static struct segment segment;

static void require(int holds, const char *what)
{
    if (!holds) {
        fprintf(stderr, "m = %u, %u members of %u bytes: %s\n", (unsigned)segment.m,
                (unsigned)segment.count, (unsigned)segment.length, what);
        exit(EXIT_FAILURE);
    }
}

/* A number below n, from a fixed seed. */
static uint32_t below(uint32_t n)
{
    static uint64_t state = 1;
    state = state * 6364136223846793005u + 1442695040888963407u;
    return (uint32_t)(state >> 33) % n;
}

static uint8_t rebuild_by(int coder, struct segment *given)
{
    return coders[coder](given->members, given->count * given->length, given->marks, given->count,
                         given->m);
}

/* Any bytes in all members. */
static void set_segment(uint32_t m, size_t count, size_t length)
{
    segment.m = m;
    segment.count = count;
    segment.length = length;
    for (size_t i = 0; i < count * length; i++)
        segment.members[i] = (uint8_t)below(256);
}

/* The coders give the same number, members and marks for the segment. */
static void same_results(void)
{
    static struct segment results[CODERS];
    uint8_t numbers[CODERS];
    for (int i = 0; i < CODERS; i++) {
        results[i] = segment;
        numbers[i] = rebuild_by(i, &results[i]);
        require(numbers[i] == numbers[LIBRARY], "the coders give different numbers");
        require(memcmp(results[i].members, results[LIBRARY].members, MAX_BYTES) == 0,
                "the coders leave different members");
        require(memcmp(results[i].marks, results[LIBRARY].marks, LHRS_MOST_MEMBERS) == 0,
                "the coders leave different marks");
    }
}

/* Segments of any size, about m members of each missing, so that some are refused with 8; some of the
   others have a mark that is refused with 2. */
static void compare_coders(void)
{
    for (int i = 0; i < COMPARED; i++) {
        uint32_t m = 1 + below(LHRS_LARGEST_GROUP);
        uint32_t count = m + below(LHRS_MOST_MEMBERS + 1 - m);
        set_segment(m, count, 1 + below(below(8) == 0 ? LHRS_LONGEST_MEMBER : 80));
        for (uint32_t c = 0; c < count; c++)
            segment.marks[c] = below(count) < m + 2;
        if (below(8) == 0)
            segment.marks[below(count)] = 2;
        same_results();
    }
}

/* A whole segment, with the first of its members marked as lost: as many as it has check members. */
static void lose_first(uint32_t m, size_t count, size_t length)
{
    set_segment(m, count, length);
    for (size_t c = 0; c < count; c++)
        segment.marks[c] = c < m;
    require(rebuild_by(PLAIN, &segment) == LHRS_GRANTED, "the check members are refused");
    memset(segment.marks, 0, count - m);
    same_results();
}

/* Nanoseconds of one call, over so many. Each rebuilds the bytes that are there. */
static double batch(int coder, unsigned long runs)
{
    static struct segment timed;
    struct timespec start, end;
    int granted = 1;
    timed = segment;
    clock_gettime(CLOCK_MONOTONIC, &start);
    for (unsigned long i = 0; i < runs; i++) {
        memcpy(timed.marks, segment.marks, LHRS_MOST_MEMBERS);
        granted &= rebuild_by(coder, &timed) == LHRS_GRANTED;
    }
    clock_gettime(CLOCK_MONOTONIC, &end);
    require(granted && memcmp(timed.members, segment.members, MAX_BYTES) == 0,
            "the lost members are not rebuilt");
    double nanoseconds = 1e9 * (double)(end.tv_sec - start.tv_sec);
    nanoseconds += (double)(end.tv_nsec - start.tv_nsec);
    return nanoseconds / (double)runs;
}

/* The least time of each coder over rounds that take all of them in turn. The first batches also warm
   the buffers. */
static void measure(double least[CODERS])
{
    unsigned long runs[CODERS];
    for (int i = 0; i < CODERS; i++) {
        runs[i] = 1;
        while ((least[i] = batch(i, runs[i])) * (double)runs[i] < BATCH_NANOSECONDS)
            runs[i] *= 2;
    }
    for (int round = 0; round < ROUNDS; round++) {
        for (int i = 0; i < CODERS; i++) {
            double time = batch(i, runs[i]);
            if (time < least[i])
                least[i] = time;
        }
    }
}

/* A bar for the ratio of the library to another coder, and the worst ratio met. */
struct bar {
    size_t length;
    uint32_t from; /* the least m that it is for */
    int coder;
    double most;
    const char *words;
    double worst;
};

static struct bar bars[] = {
    {LONG, 1, PLAIN, 0.4, "1,024 bytes, to plain C", 0},
    {LONG, WIDE, SHUFFLE, 1.5, "1,024 bytes and m from 8 up, to the shuffles", 0},
    {SHORT, 1, PLAIN, 1.1, "64 bytes, to plain C", 0},
};

#define BARS (sizeof bars / sizeof bars[0])

static void print_row(uint32_t m, size_t count, size_t length)
{
    double least[CODERS];
    lose_first(m, count, length);
    measure(least);
    printf("| %2u | %2u | %5u | %11.0f | %17.2f | %18.2f |\n", (unsigned)m, (unsigned)count,
           (unsigned)length, least[LIBRARY], least[LIBRARY] / least[PLAIN],
           least[LIBRARY] / least[SHUFFLE]);
    fflush(stdout);
    for (size_t i = 0; i < BARS; i++) {
        double ratio = least[LIBRARY] / least[bars[i].coder];
        if (length == bars[i].length && m >= bars[i].from && ratio > bars[i].worst)
            bars[i].worst = ratio;
    }
}

static void print_table(void)
{
    static const uint32_t groups[] = {4, 8, 32};
    static const size_t lengths[] = {SHORT, LONG};
    puts("Least of 60 interleaved batches. The first n - m of n members are missing and are "
         "rebuilt.\n");
    puts("|  m |  n | bytes | library, ns | library / plain C | library / shuffles |");
    puts("|---|---|---|---|---|---|");
    for (int l = 0; l < 2; l++) {
        for (int g = 0; g < 3; g++) {
            print_row(groups[g], groups[g] + 2, lengths[l]);
            print_row(groups[g], LHRS_MOST_MEMBERS, lengths[l]);
        }
    }
}

static void print_bars(void)
{
    puts("\nThe worst ratios, and the bars for them:\n");
    for (size_t i = 0; i < BARS; i++)
        printf("%-45s %.2f, at most %.1f\n", bars[i].words, bars[i].worst, bars[i].most);
}

int main(void)
{
    segment_prepare();
    compare_coders();
    print_table();
    print_bars();
    return EXIT_SUCCESS;
}
