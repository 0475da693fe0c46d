/* Reading a task sheet: 10 to 15, then 17, then 16, each body in one pass. */
#ifndef READ_H
#define READ_H

#include "light.h"

/* Of contents line i: the number of entries, and body number and offset as one number. */
static inline uint32_t line_entries(const uint8_t *bytes, size_t i)
{
    return u16_at(bytes + 8 + 6 * i);
}

static inline uint32_t line_place(const uint8_t *bytes, size_t i)
{
    return u32_at(bytes + 4 + 6 * i);
}

static inline uint32_t place(uint32_t body, uint32_t offset)
{
    return body | offset << 16;
}

/* 12: whether a number of entries is outside its limits. A 0 wraps beyond the most where 1 is the fewest. */
static inline int wrong_entries(const uint8_t *bytes, struct sheet *s)
{
    s->ntasks = line_entries(bytes, 0);
    s->ndoors = line_entries(bytes, 1);
    s->nstarts = line_entries(bytes, 2);
    s->npairs = line_entries(bytes, 3);
    s->nrules = line_entries(bytes, 4);
    s->npoints = line_entries(bytes, 5);
    return s->ntasks - 1 >= MAX_TASKS || s->ndoors - 1 >= MAX_DOORS || s->nstarts - 1 >= MAX_STARTS
        || s->npairs > MAX_PAIRS || s->nrules > MAX_RULES || s->npoints - 1 >= MAX_POINTS
        || line_entries(bytes, 6) != s->npoints * s->npoints;
}

/* 13: whether a body number, an offset or the length is not what the numbers of entries make it. */
static inline int wrong_places(const uint8_t *bytes, size_t len, struct sheet *s)
{
    uint32_t doors = HEAD_BYTES + s->ntasks * TASK_BYTES;
    uint32_t starts = doors + s->ndoors * DOOR_BYTES;
    uint32_t pairs = starts + s->nstarts * START_BYTES;
    uint32_t rules = pairs + s->npairs * PAIR_BYTES;
    uint32_t points = rules + s->nrules * RULE_BYTES;
    uint32_t distances = points + s->npoints * POINT_BYTES;
    uint32_t end = distances + s->npoints * s->npoints * DISTANCE_BYTES;

    s->tasks = bytes + HEAD_BYTES;
    s->doors = bytes + doors;
    s->starts = bytes + starts;
    s->pairs = bytes + pairs;
    s->rules = bytes + rules;
    s->points = bytes + points;
    s->distances = bytes + distances;
    return ((line_place(bytes, 0) ^ place(1, HEAD_BYTES)) | (line_place(bytes, 1) ^ place(2, doors))
            | (line_place(bytes, 2) ^ place(3, starts)) | (line_place(bytes, 3) ^ place(4, pairs))
            | (line_place(bytes, 4) ^ place(5, rules)) | (line_place(bytes, 5) ^ place(6, points))
            | (line_place(bytes, 6) ^ place(7, distances)) | (len ^ end)) != 0;
}

/* 14: the bodies are scanned without a branch. For a number of 16 bits that is the limit or more, `beyond` has bit 16
 * set; the scans collect these bits. */
#define BEYOND 0x10000u

static inline uint32_t beyond(uint32_t number, uint32_t limit)
{
    return number + (BEYOND - limit);
}

/* The tasks that have a door are kept for 15. */
static inline uint32_t scan_doors(const struct sheet *s, uint64_t *served)
{
    uint32_t bad = 0;
    uint64_t tasks = 0;

    for (const uint8_t *door = s->doors; door != s->starts; door += DOOR_BYTES) {
        bad |= beyond(door_task(door), s->ntasks);
        bad |= beyond(door_arrival(door), s->npoints);
        bad |= beyond(door_departure(door), s->npoints);
        tasks |= 1ull << (door_task(door) & 63);
    }
    *served = tasks;
    return bad;
}

static inline uint32_t scan_starts(const struct sheet *s)
{
    uint32_t bad = 0;

    for (const uint8_t *start = s->starts; start != s->pairs; start += START_BYTES)
        bad |= beyond(u16_at(start), s->npoints);
    return bad;
}

/* The receivers of each task are kept for 17, and for whoever plans or validates. */
static inline uint32_t scan_pairs(struct sheet *s)
{
    uint32_t bad = 0;

    memset(s->receivers, 0, sizeof s->receivers);
    for (const uint8_t *pair = s->pairs; pair != s->rules; pair += PAIR_BYTES) {
        uint32_t sender = u16_at(pair), receiver = u16_at(pair + 2);
        bad |= beyond(sender, s->ntasks);
        bad |= beyond(receiver, s->ntasks);
        s->receivers[sender & 15] |= (uint16_t)(1u << (receiver & 15));
    }
    return bad;
}

static inline uint32_t scan_rules(const struct sheet *s)
{
    uint32_t bad = 0;

    for (const uint8_t *rule = s->rules; rule != s->points; rule += RULE_BYTES) {
        bad |= beyond(rule_door(rule), s->ndoors);
        bad |= beyond(rule_watched(rule), 1u << s->ntasks);
        bad |= beyond(rule_least(rule), MAX_TASKS + 1);
        bad |= rule_least(rule) - 1;
    }
    return bad;
}

/* The receivers of the tasks in a list. */
static inline uint32_t receivers_of(const struct sheet *s, uint32_t list)
{
    static const uint16_t bit[16] = {1,     1 << 1, 1 << 2,  1 << 3,  1 << 4,  1 << 5,  1 << 6,  1 << 7,
                                     1 << 8, 1 << 9, 1 << 10, 1 << 11, 1 << 12, 1 << 13, 1 << 14, 1 << 15};
    uint16_t receivers = 0, open = (uint16_t)list;

    for (size_t t = 0; t < 16; t++)
        receivers |= open & bit[t] ? s->receivers[t] : 0;
    return receivers;
}

/* 17: whether something stays when, again and again, the tasks are struck off that are receivers of none left. The call
 * that reads has it in line; elsewhere that is left to the compiler. */
#ifndef NO_ORDER_INLINE
#define NO_ORDER_INLINE static inline
#endif

NO_ORDER_INLINE int no_order(const struct sheet *s)
{
    uint32_t left = full_list(s);

    while (left) {
        uint32_t staying = left & receivers_of(s, left);
        if (staying == left)
            return 1;
        left = staying;
    }
    return 0;
}

/* The load of the lightest list of all: the end load and all negative changes. */
static inline int32_t lightest(const struct sheet *s)
{
    int32_t load = (int32_t)s->end_load;

    for (size_t t = 0; t < s->ntasks; t++) {
        int32_t change = load_change(s, t);
        load += change < 0 ? change : 0;
    }
    return load;
}

/* Reads a sheet, by a way to look for a light list: 0 and what it found, or the first number that applies. No list is
 * light unless the lightest of all is. What looks further gets a copy, so that the sheet need not stand in memory. */
ALWAYS_INLINE uint32_t read_by(light_call *some_light, const uint8_t *bytes, size_t len, struct sheet *s)
{
    uint64_t served;
    struct sheet copy;
    int light;

    if (len < HEAD_BYTES)
        return 10;
    if (u16_at(bytes) != 1)
        return 11;
    s->end_load = u16_at(bytes + 2);
    if (wrong_entries(bytes, s))
        return 12;
    if (wrong_places(bytes, len, s))
        return 13;
    if ((scan_doors(s, &served) | scan_starts(s) | scan_pairs(s) | scan_rules(s)) & BEYOND)
        return 14;
    if (served != full_list(s))
        return 15;
    light = lightest(s) < 0; /* before 17, where it takes less */
    if (no_order(s))
        return 17;
    if (!light)
        return 0;
    copy = *s;
    return some_light(&copy) ? 16 : 0;
}

/* By the fastest way: for whoever plans, prices or validates. */
static inline uint32_t read_sheet(const uint8_t *bytes, size_t len, struct sheet *s)
{
    return read_by(OWN(light_by_halves), bytes, len, s);
}

#endif
