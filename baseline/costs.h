/* What planning and pricing share: the lesser cost, the row of the empty list, and the choice of the start. */
#ifndef COSTS_H
#define COSTS_H

#include "sheet.h"

/* More than any cost. */
#define NO_COST ((uint64_t)1 << 60)

/* The lesser of two costs. Below 2^63 signed numbers compare alike, and x86-64 then moves the lesser in one step. */
ALWAYS_INLINE uint64_t lesser(uint64_t a, uint64_t b)
{
    return (int64_t)a < (int64_t)b ? a : b;
}

/* The row of the empty list: the end costs. */
static inline void end_row(const struct sheet *s, uint64_t *cells)
{
    for (size_t p = 0; p < s->npoints; p++)
        cells[p] = end_cost(s, p);
}

/* The first of the starts from which the whole round costs least, by the row of the full list. */
static inline uint32_t first_start(const struct sheet *s, const uint64_t *row)
{
    uint32_t best = 0;

    for (uint32_t i = 1; i < s->nstarts; i++)
        if (row[start_point(s, i)] < row[start_point(s, best)])
            best = i;
    return best;
}

#endif
