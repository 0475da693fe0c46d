/* Three ways to take for each point the least over the doors gathered. */
#ifndef ROW_H
#define ROW_H

#include "round.h"

/* Through door i of those gathered, from the point that these distances are from. */
ALWAYS_INLINE uint64_t through(const uint8_t *distances, uint32_t load, const struct gathered *g, size_t i)
{
    return (uint64_t)u16_at(distances + g->to[i]) * load + g->part[i];
}

ALWAYS_INLINE uint64_t least(const uint8_t *distances, uint32_t load, const struct gathered *g, size_t m)
{
    uint64_t best = NO_COST;

    for (size_t i = 0; i < m; i++)
        best = lesser(through(distances, load, g, i), best);
    return best;
}

/* One point at a time. */
ALWAYS_INLINE void row_by_ones(const struct round *r, uint32_t load, const struct gathered *g, size_t m, uint64_t *row)
{
    for (size_t p = 0; p < r->npoints; p++)
        row[p] = least(r->distances + p * r->npoints * DISTANCE_BYTES, load, g, m);
}

/* Two points at a time: what is known of a door is read once for both. */
ALWAYS_INLINE void row_by_twos(const struct round *r, uint32_t load, const struct gathered *g, size_t m, uint64_t *row)
{
    const uint8_t *here = r->distances;
    size_t stride = r->npoints * DISTANCE_BYTES, p = 0;

    for (; p + 1 < r->npoints; p += 2, here += 2 * stride) {
        uint64_t first = NO_COST, second = NO_COST;
        for (size_t i = 0; i < m; i++) {
            first = lesser(through(here, load, g, i), first);
            second = lesser(through(here + stride, load, g, i), second);
        }
        row[p] = first;
        row[p + 1] = second;
    }
    if (p < r->npoints)
        row[p] = least(here, load, g, m);
}

/* All points for one door after the other: for vectors with a minimum of 64 bits, which plain x86-64 has not. */
ALWAYS_INLINE void row_by_columns(const struct round *r, uint32_t load, const struct gathered *g, size_t m,
                                  uint64_t *row)
{
    uint64_t best[MAX_POINTS];

    for (size_t p = 0; p < r->npoints; p++)
        best[p] = NO_COST;
    for (size_t i = 0; i < m; i++) {
        const uint32_t *column = r->columns[g->to[i] / DISTANCE_BYTES];
        for (size_t p = 0; p < r->npoints; p++)
            best[p] = lesser((uint64_t)column[p] * load + g->part[i], best[p]);
    }
    memcpy(row, best, r->npoints * sizeof *row);
}

#endif
