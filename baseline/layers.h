/* The two layers of costs to finish: size after size, a row at its rank for each list of that size, the even sizes in
 * one layer and the odd ones in the other. */
#ifndef LAYERS_H
#define LAYERS_H

#include "rank.h"
#include "round.h"

ALWAYS_INLINE void fill_layers_by(gather_call *gather, row_call *row_of, enum columns columns, const struct sheet *s,
                                  uint64_t *even, uint64_t *odd)
{
    struct round r;
    struct gathered g;
    const uint64_t *rows[MAX_TASKS];
    const struct rests rests = {NULL, rows};

    prepare(s, 0, &r);
    if (columns == COLUMNS_OF_32_BITS)
        prepare_columns(s, &r);
    if (columns == COLUMNS_OF_64_BITS)
        prepare_wide_columns(s, &r);
    end_row(s, even);
    for (uint32_t size = 1; size <= s->ntasks; size++) {
        uint64_t *here = size % 2 ? odd : even, *below = size % 2 ? even : odd;
        for (uint32_t list = (1u << size) - 1; list <= full_list(s); list = next_of_size(list)) {
            uint32_t receivers = receivers_in(&r, list);
            if ((receivers & ~list) == 0) {
                uint32_t rank = rank_of(list);
                rest_rows(below, r.npoints, list, rank, size, rows);
                list_row(gather, row_of, &r, list, receivers, &rests, &g, here + rank * r.npoints);
            }
        }
    }
}

#endif
