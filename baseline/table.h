/* The table of costs to finish: a row for each list, in increasing order. */
#ifndef TABLE_H
#define TABLE_H

#include "round.h"

ALWAYS_INLINE void fill_by(gather_call *gather, row_call *row_of, enum columns columns, const struct sheet *s,
                           uint64_t *cells)
{
    struct round r;
    struct gathered g;
    uint64_t *row = cells;

    prepare(s, 1, &r);
    if (columns == COLUMNS_OF_32_BITS)
        prepare_columns(s, &r);
    if (columns == COLUMNS_OF_64_BITS)
        prepare_wide_columns(s, &r);
    end_row(s, cells);
    for (uint32_t list = 1; list <= full_list(s); list++) {
        uint32_t receivers = receivers_in(&r, list);
        row += r.npoints;
        if ((receivers & ~list) == 0) {
            struct rests rests = {row, NULL};
            list_row(gather, row_of, &r, list, receivers, &rests, &g, row);
        }
    }
}

#endif
