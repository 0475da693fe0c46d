/* vanplan_validate in C: one walk over the steps, then one pass over the rules. */
#include "plan_layout.h"
#include "read.h"

validate_call OWN(validate);

/* 30: whether the length or a byte before the start is not as laid out. */
static inline int ill_formed(const uint8_t *plan, size_t plan_len, uint32_t ntasks)
{
    struct plan_head head = head_for(ntasks);

    if (plan_len != plan_length(ntasks))
        return 1;
    return ((u64_at(plan) ^ head.first) | (u64_at(plan + 8) ^ head.second)
            | (u64_at(plan + 16) ^ head.third) << 16) != 0;
}

/* 31: whether the start or a door is not in the sheet. */
static inline int not_in_sheet(const struct sheet *s, const uint8_t *plan)
{
    uint32_t bad = beyond(plan_start(plan), s->nstarts);

    for (size_t i = 0; i < s->ntasks; i++)
        bad |= beyond(plan_door(plan, i), s->ndoors);
    return (bad & BEYOND) != 0;
}

/* What a walk over the steps finds. */
struct walk {
    uint32_t done;               /* the tasks done */
    uint32_t broken;             /* the receivers done before a sender of theirs */
    uint64_t cost;               /* all but the charges */
    uint16_t open_at[MAX_DOORS]; /* the list that is open where a door is done, and the empty one for the other doors */
};

/* Before the first step the load is the end load and all changes; each task done takes its change away. */
static inline void walk_steps(const struct sheet *s, const uint8_t *plan, struct walk *w)
{
    uint32_t from = start_point(s, plan_start(plan)), open = full_list(s);
    int32_t load = (int32_t)s->end_load;

    memset(w, 0, sizeof *w);
    for (size_t t = 0; t < s->ntasks; t++)
        load += load_change(s, t);
    for (size_t i = 0; i < s->ntasks; i++) {
        uint32_t d = plan_door(plan, i);
        const uint8_t *door = door_at(s, d);
        uint32_t task = door_task(door);
        w->cost += (uint64_t)distance(s, from, door_arrival(door)) * (uint32_t)load + door_work(door);
        w->open_at[d] = (uint16_t)open;
        w->done |= 1u << task;
        open &= ~(1u << task);
        w->broken |= s->receivers[task] & ~open;
        load -= load_change(s, task);
        from = door_departure(door);
    }
    w->cost += end_cost(s, from);
}

/* The charges at the doors done. A least count is 1 or more, so that no rule on another door applies. */
static inline uint64_t charges(const struct sheet *s, const uint16_t *open_at)
{
    uint64_t sum = 0;

    for (const uint8_t *rule = s->rules; rule != s->points; rule += RULE_BYTES) {
        uint32_t applies = rule_least(rule) <= count_bits(open_at[rule_door(rule)] & rule_watched(rule));
        sum += rule_charge(rule) & (0 - applies);
    }
    return sum;
}

uint32_t OWN(validate)(const uint8_t *sheet, size_t len, const uint8_t *plan, size_t plan_len, uint64_t *cost)
{
    struct sheet s;
    struct walk w;
    uint32_t refusal = read_sheet(sheet, len, &s);

    if (refusal)
        return refusal;
    if (ill_formed(plan, plan_len, s.ntasks))
        return 30;
    if (not_in_sheet(&s, plan))
        return 31;
    walk_steps(&s, plan, &w);
    if (w.done != full_list(&s))
        return 32;
    if (w.broken)
        return 33;
    w.cost += charges(&s, w.open_at);
    if (u64_at(plan + cost_at(s.ntasks)) != w.cost)
        return 34;
    *cost = w.cost;
    return 0;
}
