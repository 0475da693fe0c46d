/* Three ways to gather the doors whose task may come next. */
#ifndef GATHER_H
#define GATHER_H

#include "round.h"

/* With a branch for each rule and for each door. */
ALWAYS_INLINE size_t gather_branching(const struct round *r, uint32_t list, uint32_t first,
                                      const struct rests *rests, struct gathered *g)
{
    uint64_t charges[MAX_DOORS];
    size_t m = 0;

    memset(charges, 0, r->ndoors * sizeof *charges);
    for (size_t i = 0; i < r->nrules; i++)
        if (r->least[i] <= count_bits(r->watched[i] & list))
            charges[r->rule_door[i]] += r->charge[i];
    for (size_t d = 0; d < r->ndoors; d++)
        if (first >> r->task[d] & 1) {
            g->to[m] = r->to[d];
            g->part[m] = r->work[d] + charges[d] + rest_cell(r, rests, d);
            m++;
        }
    return m;
}

/* Work and charges of each door while a list is open: a rule that does not apply adds nothing. */
ALWAYS_INLINE void work_and_charges(const struct round *r, uint32_t list, uint64_t *sums)
{
    int16_t mask[MAX_RULES];

    memcpy(sums, r->work, r->ndoors * sizeof *sums);
    for (size_t i = 0; i < r->nrules; i++)
        mask[i] = (int16_t)-(r->least[i] <= count_bits(r->watched[i] & list));
    for (size_t i = 0; i < r->nrules; i++)
        sums[r->rule_door[i]] += r->charge[i] & (uint64_t)mask[i];
}

/* Without branches: a first pass puts every door down and counts it only if its task may come next; a second pass takes
 * the parts of those counted. */
ALWAYS_INLINE size_t gather_in_two_passes(const struct round *r, uint32_t list, uint32_t first,
                                          const struct rests *rests, struct gathered *g)
{
    uint64_t sums[MAX_DOORS];
    uint8_t doors[MAX_DOORS];
    size_t m = 0;

    work_and_charges(r, list, sums);
    for (size_t d = 0; d < r->ndoors; d++) {
        doors[m] = (uint8_t)d;
        m += first >> r->task[d] & 1;
    }
    for (size_t i = 0; i < m; i++) {
        g->to[i] = r->to[doors[i]];
        g->part[i] = sums[doors[i]] + rest_cell(r, rests, doors[i]);
    }
    return m;
}

/* Without branches: the doors of the tasks that may come next are a set of bits. */
ALWAYS_INLINE size_t gather_by_bits(const struct round *r, uint32_t list, uint32_t first,
                                    const struct rests *rests, struct gathered *g)
{
    uint64_t sums[MAX_DOORS], doors = r->low[first % HALF_LISTS].doors | r->high[first / HALF_LISTS].doors;
    size_t m = 0;

    work_and_charges(r, list, sums);
    for (; doors; doors &= doors - 1) {
        size_t d = (size_t)__builtin_ctzll(doors);
        g->to[m] = r->to[d];
        g->part[m] = sums[d] + rest_cell(r, rests, d);
        m++;
    }
    return m;
}

#endif
