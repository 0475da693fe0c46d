/* Planning by a plain triple loop: for each list, point and door what the step costs, read from the bytes. */
#include "planning.h"

plan_call OWN(triple_loop);

/* The charges on a door while a list is open. */
static inline uint64_t charges_on(const struct sheet *s, uint32_t list, size_t door)
{
    uint64_t sum = 0;

    for (const uint8_t *rule = s->rules; rule != s->points; rule += RULE_BYTES)
        if (rule_door(rule) == door && rule_least(rule) <= count_bits(rule_watched(rule) & list))
            sum += rule_charge(rule);
    return sum;
}

/* The row of a list, of whose tasks the first may come next. */
static inline void fill_row(const struct sheet *s, uint64_t *cells, size_t list, uint32_t first)
{
    uint32_t load = load_of(s, (uint32_t)list);

    for (size_t p = 0; p < s->npoints; p++) {
        uint64_t best = NO_COST;
        for (size_t d = 0; d < s->ndoors; d++) {
            const uint8_t *door = door_at(s, d);
            uint32_t task = door_task(door);
            if (first >> task & 1) {
                size_t rest = list & ~((size_t)1 << task);
                uint64_t cost = (uint64_t)distance(s, p, door_arrival(door)) * load + door_work(door)
                              + charges_on(s, (uint32_t)list, d) + cells[rest * s->npoints + door_departure(door)];
                best = lesser(cost, best);
            }
        }
        cells[list * s->npoints + p] = best;
    }
}

static void fill(const struct sheet *s, uint64_t *cells)
{
    end_row(s, cells);
    for (uint32_t list = 1; list <= full_list(s); list++) {
        uint32_t receivers = receivers_of(s, list);
        if ((receivers & ~list) == 0)
            fill_row(s, cells, list, list & ~receivers);
    }
}

uint32_t OWN(triple_loop)(const uint8_t *sheet, size_t len, uint64_t *cells, size_t ncells, uint8_t *plan,
                          size_t plan_len, uint64_t *cost)
{
    return plan_by(fill, sheet, len, cells, ncells, plan, plan_len, cost);
}
