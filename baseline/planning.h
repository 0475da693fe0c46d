/* What all ways to plan share: reading, the room, the choice of the doors, and the bytes of the plan. */
#ifndef PLANNING_H
#define PLANNING_H

#include "costs.h"
#include "plan_layout.h"
#include "read.h"

/* Fills the cells of the empty list and of every essential one. */
typedef void fill_call(const struct sheet *s, uint64_t *cells);

/* The load while a list is open. */
static inline uint32_t load_of(const struct sheet *s, uint32_t list)
{
    int32_t load = (int32_t)s->end_load;

    for (size_t t = 0; t < s->ntasks; t++)
        load += load_change(s, t) & -(int32_t)(list >> t & 1);
    return (uint32_t)load;
}

/* The charges on each door while a list is open. */
static inline void charges_by_door(const struct sheet *s, uint32_t list, uint64_t *charges)
{
    memset(charges, 0, MAX_DOORS * sizeof *charges);
    for (const uint8_t *rule = s->rules; rule != s->points; rule += RULE_BYTES)
        if (rule_least(rule) <= count_bits(rule_watched(rule) & list))
            charges[rule_door(rule)] += rule_charge(rule);
}

/* The first door, of a task that may come next, through which finishing costs what the cell here says. Cells that are
 * wrong, as tests/modes.sh has them, may say it of none: then the number of doors. */
static inline uint32_t next_door(const struct sheet *s, const uint64_t *cells, uint32_t list, uint32_t from)
{
    uint32_t first = list & ~receivers_of(s, list), load = load_of(s, list);
    uint64_t here = cells[list * s->npoints + from], charges[MAX_DOORS];

    charges_by_door(s, list, charges);
    for (uint32_t d = 0; d < s->ndoors; d++) {
        const uint8_t *door = door_at(s, d);
        uint32_t task = door_task(door), rest = list & ~(1u << task);
        uint64_t cost = (uint64_t)distance(s, from, door_arrival(door)) * load + door_work(door) + charges[d]
                      + cells[rest * s->npoints + door_departure(door)];
        if ((cost == here) & (first >> task & 1))
            return d;
    }
    return s->ndoors;
}

static inline void put_u16(uint8_t *at, uint32_t number)
{
    uint16_t low = (uint16_t)number;
    memcpy(at, &low, sizeof low);
}

/* Writes the cheapest plan, by cells that are filled, and answers its cost. */
static inline uint64_t write_plan(const struct sheet *s, const uint64_t *cells, uint8_t *plan)
{
    struct plan_head head = head_for(s->ntasks);
    uint32_t list = full_list(s), start = first_start(s, cells + list * s->npoints), from = start_point(s, start);
    uint64_t cost = cells[list * s->npoints + from];

    memcpy(plan, &head, START_AT);
    put_u16(plan + START_AT, start);
    for (uint8_t *at = plan + DOORS_AT; list; at += 2) {
        uint32_t d = next_door(s, cells, list, from);
        if (d == s->ndoors)
            break;
        put_u16(at, d);
        list &= ~(1u << door_task(door_at(s, d)));
        from = door_departure(door_at(s, d));
    }
    memcpy(plan + cost_at(s->ntasks), &cost, COST_BYTES);
    return cost;
}

/* vanplan_plan, by a way to fill the cells. */
ALWAYS_INLINE uint32_t plan_by(fill_call *fill, const uint8_t *sheet, size_t len, uint64_t *cells, size_t ncells,
                               uint8_t *plan, size_t plan_len, uint64_t *cost)
{
    struct sheet s;
    uint32_t refusal = read_sheet(sheet, len, &s);

    if (refusal)
        return refusal;
    if (ncells < (size_t)s.npoints << s.ntasks)
        return 20;
    if (plan_len < plan_length(s.ntasks))
        return 21;
    fill(&s, cells);
    *cost = write_plan(&s, cells, plan);
    return 0;
}

#endif
