/* The rank of a list, which is the number of lists of its size with a smaller number, from a table of binomials; and
 * the lists of one size, one after the other. */
#ifndef RANK_H
#define RANK_H

#include "sheet.h"

/* n over k, for n and k from 0 to 16. */
static const uint16_t binomials[17][17] = {
    {1, 0, 0, 0, 0, 0, 0, 0, 0, 0, 0, 0, 0, 0, 0, 0, 0},
    {1, 1, 0, 0, 0, 0, 0, 0, 0, 0, 0, 0, 0, 0, 0, 0, 0},
    {1, 2, 1, 0, 0, 0, 0, 0, 0, 0, 0, 0, 0, 0, 0, 0, 0},
    {1, 3, 3, 1, 0, 0, 0, 0, 0, 0, 0, 0, 0, 0, 0, 0, 0},
    {1, 4, 6, 4, 1, 0, 0, 0, 0, 0, 0, 0, 0, 0, 0, 0, 0},
    {1, 5, 10, 10, 5, 1, 0, 0, 0, 0, 0, 0, 0, 0, 0, 0, 0},
    {1, 6, 15, 20, 15, 6, 1, 0, 0, 0, 0, 0, 0, 0, 0, 0, 0},
    {1, 7, 21, 35, 35, 21, 7, 1, 0, 0, 0, 0, 0, 0, 0, 0, 0},
    {1, 8, 28, 56, 70, 56, 28, 8, 1, 0, 0, 0, 0, 0, 0, 0, 0},
    {1, 9, 36, 84, 126, 126, 84, 36, 9, 1, 0, 0, 0, 0, 0, 0, 0},
    {1, 10, 45, 120, 210, 252, 210, 120, 45, 10, 1, 0, 0, 0, 0, 0, 0},
    {1, 11, 55, 165, 330, 462, 462, 330, 165, 55, 11, 1, 0, 0, 0, 0, 0},
    {1, 12, 66, 220, 495, 792, 924, 792, 495, 220, 66, 12, 1, 0, 0, 0, 0},
    {1, 13, 78, 286, 715, 1287, 1716, 1716, 1287, 715, 286, 78, 13, 1, 0, 0, 0},
    {1, 14, 91, 364, 1001, 2002, 3003, 3432, 3003, 2002, 1001, 364, 91, 14, 1, 0, 0},
    {1, 15, 105, 455, 1365, 3003, 5005, 6435, 6435, 5005, 3003, 1365, 455, 105, 15, 1, 0},
    {1, 16, 120, 560, 1820, 4368, 8008, 11440, 12870, 11440, 8008, 4368, 1820, 560, 120, 16, 1},
};

/* The most lists of one size: those of half the tasks. */
static inline uint32_t most_lists(uint32_t ntasks)
{
    return binomials[ntasks][ntasks / 2];
}

/* For each task, the lowest first, the task over the number of tasks so far. */
ALWAYS_INLINE uint32_t rank_of(uint32_t list)
{
    uint32_t rank = 0;

    for (uint32_t i = 1; list; i++, list &= list - 1)
        rank += binomials[__builtin_ctz(list)][i];
    return rank;
}

/* For each task of a list with this rank and size, where the row of the rest without it begins in a layer. In the rest,
 * the tasks above stand one place lower: from the highest task down, the sum has those above at their lower place. */
ALWAYS_INLINE void rest_rows(const uint64_t *layer, uint32_t npoints, uint32_t list, uint32_t rank, uint32_t size,
                             const uint64_t **rows)
{
    for (uint32_t i = size, sum = rank; list; i--) {
        uint32_t task = 31 - (uint32_t)__builtin_clz(list);
        sum -= binomials[task][i];
        rows[task] = layer + sum * npoints;
        sum += binomials[task][i - 1];
        list &= ~(1u << task);
    }
}

/* The next list of the same size: of the lowest run of tasks, the highest moves up by one and the others move down to
 * the lowest places. */
ALWAYS_INLINE uint32_t next_of_size(uint32_t list)
{
    uint32_t carried = list + (list & -list);

    return carried + (1u << (__builtin_ctz(carried) - __builtin_ctz(list) - 1)) - 1;
}

#endif
