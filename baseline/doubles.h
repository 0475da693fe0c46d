/* Two ways more to take for each point the least over the doors gathered: by columns of 64 bits, two doors a pass, and
 * by the order of doubles, since plain x86-64 has a minimum in vectors for them and none for 64-bit integers. A sum is
 * made as a number and taken for the double with the same bits. No double is added or multiplied. */
#ifndef DOUBLES_H
#define DOUBLES_H

#include <emmintrin.h>

#include "round.h"

/* Added to each part, and taken off at the end: every sum has then the bits of a normal double, and normal doubles
 * above zero stand in the order of their bits. Without it a sum has those of a denormal one, which the processor may
 * have been told to take for zero. tests/modes.sh leaves it out, to show that it would notice. */
#ifndef BIAS
#define BIAS ((uint64_t)1 << 60)
#endif

/* Two of the doors gathered: for each the distances from all points, and its part. An odd last one comes twice. */
struct two_doors {
    const uint64_t *first, *second;
    uint64_t first_part, second_part;
};

ALWAYS_INLINE struct two_doors two_doors_from(const struct round *r, const struct gathered *g, size_t m, size_t i)
{
    size_t j = i + (i + 1 < m);
    struct two_doors two = {
        r->wide_columns[g->to[i] / DISTANCE_BYTES],
        r->wide_columns[g->to[j] / DISTANCE_BYTES],
        g->part[i] + BIAS,
        g->part[j] + BIAS,
    };
    return two;
}

/* Writes what the doubles hold. */
ALWAYS_INLINE void settle(const double *leasts, size_t npoints, uint64_t *row)
{
    for (size_t p = 0; p < npoints; p++) {
        uint64_t least;
        memcpy(&least, &leasts[p], sizeof least);
        row[p] = least - BIAS;
    }
}

ALWAYS_INLINE double as_double(uint64_t number)
{
    double d;
    memcpy(&d, &number, sizeof d);
    return d;
}

/* The least so far with one more door. The cast says that a product of 32 by 32 bits is enough: clang takes one, and
 * gcc makes the whole product of 64 bits from three. */
ALWAYS_INLINE double lowered(double least, uint64_t distance, uint32_t load, uint64_t part)
{
    double d = as_double((uint64_t)(uint32_t)distance * load + part);

    return d < least ? d : least;
}

/* In plain C. */
ALWAYS_INLINE void row_by_doubles(const struct round *r, uint32_t load, const struct gathered *g, size_t m,
                                  uint64_t *row)
{
    double leasts[MAX_POINTS];

    for (size_t p = 0; p < r->npoints; p++)
        leasts[p] = as_double(NO_COST + BIAS);
    for (size_t i = 0; i < m; i += 2) {
        struct two_doors two = two_doors_from(r, g, m, i);
        for (size_t p = 0; p < r->npoints; p++) {
            double least = lowered(leasts[p], two.first[p], load, two.first_part);
            leasts[p] = lowered(least, two.second[p], load, two.second_part);
        }
    }
    settle(leasts, r->npoints, row);
}

/* Through a door from two points. */
ALWAYS_INLINE __m128d through_from_two(const uint64_t *distances, __m128i load, __m128i part)
{
    __m128i legs = _mm_mul_epu32(_mm_load_si128((const __m128i *)distances), load);

    return _mm_castsi128_pd(_mm_add_epi64(legs, part));
}

/* The leasts with two more doors, four points at a step: of the last four those that the sheet has not come too. Before
 * the first doors there is no least. */
ALWAYS_INLINE void lower_by_sse2(const struct two_doors *two, int are_first, __m128i load, size_t npoints,
                                 double *leasts)
{
    __m128i first_part = _mm_set1_epi64x((int64_t)two->first_part);
    __m128i second_part = _mm_set1_epi64x((int64_t)two->second_part);

    for (size_t step = 0; step < npoints; step += POINTS_IN_A_STEP)
        for (size_t p = step; p < step + POINTS_IN_A_STEP; p += 2) {
            __m128d least = through_from_two(two->first + p, load, first_part);
            if (!are_first)
                least = _mm_min_pd(least, _mm_load_pd(leasts + p));
            _mm_store_pd(leasts + p, _mm_min_pd(through_from_two(two->second + p, load, second_part), least));
        }
}

/* By the instructions themselves. */
ALWAYS_INLINE void row_by_sse2(const struct round *r, uint32_t load, const struct gathered *g, size_t m, uint64_t *row)
{
    double leasts[MAX_POINTS] __attribute__((aligned(16)));
    __m128i loads = _mm_set1_epi64x(load);
    struct two_doors two = two_doors_from(r, g, m, 0);

    lower_by_sse2(&two, 1, loads, r->npoints, leasts);
    for (size_t i = 2; i < m; i += 2) {
        two = two_doors_from(r, g, m, i);
        lower_by_sse2(&two, 0, loads, r->npoints, leasts);
    }
    settle(leasts, r->npoints, row);
}

#endif
