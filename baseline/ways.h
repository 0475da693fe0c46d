/* Each way to gather and to take the least: its name, what it is called in the tables, its two parts, and the columns
 * of distances that it asks for. In the tables a way by columns is called so first. */
#ifndef WAYS_H
#define WAYS_H

#include "doubles.h"
#include "gather.h"
#include "row.h"

#define EACH_WAY(WAY)                                                                                                  \
    WAY(branching_ones, "branches", "one point", gather_branching, row_by_ones, NO_COLUMNS)                            \
    WAY(branching_twos, "branches", "two points", gather_branching, row_by_twos, NO_COLUMNS)                           \
    WAY(two_passes_ones, "two passes", "one point", gather_in_two_passes, row_by_ones, NO_COLUMNS)                     \
    WAY(two_passes_twos, "two passes", "two points", gather_in_two_passes, row_by_twos, NO_COLUMNS)                    \
    WAY(bits_ones, "bits", "one point", gather_by_bits, row_by_ones, NO_COLUMNS)                                       \
    WAY(bits_twos, "bits", "two points", gather_by_bits, row_by_twos, NO_COLUMNS)                                      \
    WAY(bits_columns, "bits", "columns", gather_by_bits, row_by_columns, COLUMNS_OF_32_BITS)                           \
    WAY(bits_doubles, "bits", "columns, doubles", gather_by_bits, row_by_doubles, COLUMNS_OF_64_BITS)                  \
    WAY(bits_sse2, "bits", "columns, SSE2", gather_by_bits, row_by_sse2, COLUMNS_OF_64_BITS)

#endif
