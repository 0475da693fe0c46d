/* The layout of a plan: 22 bytes of head, the start, the doors and the cost. */
#ifndef PLAN_LAYOUT_H
#define PLAN_LAYOUT_H

#include "sheet.h"

enum { START_AT = 22, DOORS_AT = 24, COST_BYTES = 8 };

static inline uint32_t cost_at(uint32_t ntasks)
{
    return DOORS_AT + 2 * ntasks;
}

static inline size_t plan_length(uint32_t ntasks)
{
    return cost_at(ntasks) + COST_BYTES;
}

static inline uint32_t plan_start(const uint8_t *plan)
{
    return u16_at(plan + START_AT);
}

static inline uint32_t plan_door(const uint8_t *plan, size_t i)
{
    return u16_at(plan + DOORS_AT + 2 * i);
}

/* The head, as numbers of 8, 8 and 6 bytes. */
struct plan_head {
    uint64_t first, second, third;
};

static inline uint64_t four_numbers(uint64_t a, uint64_t b, uint64_t c, uint64_t d)
{
    return a | b << 16 | c << 32 | d << 48;
}

static inline struct plan_head head_for(uint32_t ntasks)
{
    struct plan_head head = {
        four_numbers(2, 0, 1, START_AT),
        four_numbers(1, 2, DOORS_AT, ntasks),
        four_numbers(3, cost_at(ntasks), 1, 0),
    };
    return head;
}

#endif
