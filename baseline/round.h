/* The row of a list, in a fast shape: one pass over the rules, one over the doors that gathers those whose task may
 * come next, then for each point the least over what was gathered. */
#ifndef ROUND_H
#define ROUND_H

#include "costs.h"

/* What a list has is put together from two halves, those of its tasks below 6 and of its other tasks. */
enum { HALF_TASKS = 6, HALF_LISTS = 1 << HALF_TASKS };

struct half {
    int32_t load;       /* the changes of its tasks */
    uint32_t receivers; /* of its tasks */
    uint64_t doors;     /* the set of the doors of its tasks */
};

/* The distances by columns, all those to one point together, that a way asks for. */
enum columns { NO_COLUMNS, COLUMNS_OF_32_BITS, COLUMNS_OF_64_BITS };

/* So many points are taken at once from columns of 64 bits, which end with a full step. */
enum { POINTS_IN_A_STEP = 4 };

/* What filling asks of a sheet, computed once. */
struct round {
    uint32_t end_load, ndoors, nrules, npoints;
    const uint8_t *distances;
    uint64_t work[MAX_DOORS];
    int32_t rest[MAX_DOORS]; /* where the cell of the rest is, from where its cells are counted */
    uint16_t to[MAX_DOORS];  /* where the arrival point is in a row of distances, in bytes */
    uint8_t task[MAX_DOORS];
    uint64_t charge[MAX_RULES];
    uint16_t watched[MAX_RULES], least[MAX_RULES];
    uint8_t rule_door[MAX_RULES];
    struct half low[HALF_LISTS], high[HALF_LISTS];
    uint32_t columns[MAX_POINTS][MAX_POINTS]; /* distances by "to", then "from"; only where they are asked for */
    uint64_t wide_columns[MAX_POINTS][MAX_POINTS] __attribute__((aligned(16))); /* and of 64 bits, for vectors */
};

/* The doors gathered for a list: where each arrives, and the part of its cost that does not hang on the point, which is
 * work, charges and the cell of the rest. */
struct gathered {
    uint16_t to[MAX_DOORS];
    uint64_t part[MAX_DOORS];
};

/* From where the cells of an open list's rests are counted: where all rows stand in the order of the lists, from the
 * beginning of the list's own row; elsewhere, for each task, from the beginning of the row of the rest without it. */
struct rests {
    const uint64_t *own;            /* in the order of the lists */
    const uint64_t *const *by_task; /* elsewhere; NULL in that order */
};

/* The cell of the rest after a door. */
ALWAYS_INLINE uint64_t rest_cell(const struct round *r, const struct rests *rests, size_t d)
{
    return (rests->by_task ? rests->by_task[r->task[d]] : rests->own)[r->rest[d]];
}

/* Gathers for a list, of whose tasks the first may come next, and answers how many doors. */
typedef size_t gather_call(const struct round *r, uint32_t list, uint32_t first, const struct rests *rests,
                           struct gathered *g);

/* Writes for each point the least over the m doors gathered. */
typedef void row_call(const struct round *r, uint32_t load, const struct gathered *g, size_t m, uint64_t *row);

static inline void prepare_doors(const struct sheet *s, int in_order, struct round *r, uint64_t *doors_of)
{
    for (size_t d = 0; d < s->ndoors; d++) {
        const uint8_t *door = door_at(s, d);
        uint32_t task = door_task(door);
        r->work[d] = door_work(door);
        r->rest[d] = (int32_t)door_departure(door) - (in_order ? (int32_t)(s->npoints << task) : 0);
        r->to[d] = (uint16_t)(door_arrival(door) * DISTANCE_BYTES);
        r->task[d] = (uint8_t)task;
        doors_of[task] |= 1ull << d;
    }
}

static inline void prepare_rules(const struct sheet *s, struct round *r)
{
    for (size_t i = 0; i < s->nrules; i++) {
        const uint8_t *rule = s->rules + i * RULE_BYTES;
        r->charge[i] = rule_charge(rule);
        r->watched[i] = (uint16_t)rule_watched(rule);
        r->least[i] = (uint16_t)rule_least(rule);
        r->rule_door[i] = (uint8_t)rule_door(rule);
    }
}

/* The half of the tasks from the lowest on. */
static inline void prepare_half(const struct sheet *s, const uint64_t *doors_of, size_t lowest, struct half *half)
{
    half[0] = (struct half){0, 0, 0};
    for (size_t i = 1; i < HALF_LISTS; i++) {
        const struct half *less = &half[i & (i - 1)];
        size_t task = lowest + (size_t)__builtin_ctzll(i);
        if (task >= s->ntasks)
            return;
        half[i].load = less->load + load_change(s, task);
        half[i].receivers = less->receivers | s->receivers[task];
        half[i].doors = less->doors | doors_of[task];
    }
}

static inline void prepare_columns(const struct sheet *s, struct round *r)
{
    for (size_t from = 0; from < s->npoints; from++)
        for (size_t to = 0; to < s->npoints; to++)
            r->columns[to][from] = distance(s, from, to);
}

/* From a point that the sheet has not, the distance is 0. */
static inline void prepare_wide_columns(const struct sheet *s, struct round *r)
{
    for (size_t from = 0; from < s->npoints; from++)
        for (size_t to = 0; to < s->npoints; to++)
            r->wide_columns[to][from] = distance(s, from, to);
    for (size_t from = s->npoints; from % POINTS_IN_A_STEP; from++)
        for (size_t to = 0; to < s->npoints; to++)
            r->wide_columns[to][from] = 0;
}

/* Whether all rows stand in the order of the lists decides how the cells of the rests are counted. */
static inline void prepare(const struct sheet *s, int in_order, struct round *r)
{
    uint64_t doors_of[MAX_TASKS] = {0};

    r->end_load = s->end_load;
    r->ndoors = s->ndoors;
    r->nrules = s->nrules;
    r->npoints = s->npoints;
    r->distances = s->distances;
    prepare_doors(s, in_order, r, doors_of);
    prepare_rules(s, r);
    prepare_half(s, doors_of, 0, r->low);
    prepare_half(s, doors_of, HALF_TASKS, r->high);
}

/* The receivers of the tasks in a list. */
ALWAYS_INLINE uint32_t receivers_in(const struct round *r, uint32_t list)
{
    return r->low[list % HALF_LISTS].receivers | r->high[list / HALF_LISTS].receivers;
}

/* Writes the row of an essential list, whose tasks have these receivers. */
ALWAYS_INLINE void list_row(gather_call *gather, row_call *row_of, const struct round *r, uint32_t list,
                            uint32_t receivers, const struct rests *rests, struct gathered *g, uint64_t *row)
{
    const struct half *low = &r->low[list % HALF_LISTS], *high = &r->high[list / HALF_LISTS];
    uint32_t load = r->end_load + (uint32_t)(low->load + high->load);
    size_t m = gather(r, list, list & ~receivers, rests, g);

    row_of(r, load, g, m, row);
}

#endif
