/* A task sheet: where its numbers stand in the bytes. */
#ifndef SHEET_H
#define SHEET_H

#include <string.h>

#include "baseline.h"

enum { MAX_TASKS = 12, MAX_DOORS = 64, MAX_STARTS = 16, MAX_PAIRS = 32, MAX_RULES = 32, MAX_POINTS = 64 };

enum {
    HEAD_BYTES = 46,
    TASK_BYTES = 2,
    DOOR_BYTES = 10,
    START_BYTES = 2,
    PAIR_BYTES = 4,
    RULE_BYTES = 10,
    POINT_BYTES = 4,
    DISTANCE_BYTES = 2
};

/* Numbers in the bytes: x86-64 has the least significant byte first, as a sheet has. */
static inline uint32_t u16_at(const uint8_t *at)
{
    uint16_t number;
    memcpy(&number, at, sizeof number);
    return number;
}

static inline uint32_t u32_at(const uint8_t *at)
{
    uint32_t number;
    memcpy(&number, at, sizeof number);
    return number;
}

static inline uint64_t u64_at(const uint8_t *at)
{
    uint64_t number;
    memcpy(&number, at, sizeof number);
    return number;
}

/* A sheet that reads: its numbers of entries, where each body begins, which is where the one before ends, and for each
 * task the set of its receivers. */
struct sheet {
    uint32_t end_load;
    uint32_t ntasks, ndoors, nstarts, npairs, nrules, npoints;
    const uint8_t *tasks, *doors, *starts, *pairs, *rules, *points, *distances;
    uint16_t receivers[16];
};

static inline uint32_t full_list(const struct sheet *s)
{
    return (1u << s->ntasks) - 1;
}

static inline int32_t load_change(const struct sheet *s, size_t task)
{
    return (int16_t)u16_at(s->tasks + task * TASK_BYTES);
}

static inline const uint8_t *door_at(const struct sheet *s, size_t door)
{
    return s->doors + door * DOOR_BYTES;
}

/* Of a door's ten bytes. */
static inline uint32_t door_task(const uint8_t *door)
{
    return u16_at(door);
}

static inline uint32_t door_arrival(const uint8_t *door)
{
    return u16_at(door + 2);
}

static inline uint32_t door_departure(const uint8_t *door)
{
    return u16_at(door + 4);
}

static inline uint32_t door_work(const uint8_t *door)
{
    return u32_at(door + 6);
}

static inline uint32_t start_point(const struct sheet *s, size_t start)
{
    return u16_at(s->starts + start * START_BYTES);
}

/* Of a rule's ten bytes. */
static inline uint32_t rule_door(const uint8_t *rule)
{
    return u16_at(rule);
}

static inline uint32_t rule_watched(const uint8_t *rule)
{
    return u16_at(rule + 2);
}

static inline uint32_t rule_least(const uint8_t *rule)
{
    return u16_at(rule + 4);
}

static inline uint32_t rule_charge(const uint8_t *rule)
{
    return u32_at(rule + 6);
}

static inline uint32_t end_cost(const struct sheet *s, size_t point)
{
    return u32_at(s->points + point * POINT_BYTES);
}

/* The distances from a point, DISTANCE_BYTES for each point to go to. */
static inline const uint8_t *distances_from(const struct sheet *s, size_t point)
{
    return s->distances + point * s->npoints * DISTANCE_BYTES;
}

static inline uint32_t distance(const struct sheet *s, size_t from, size_t to)
{
    return u16_at(distances_from(s, from) + to * DISTANCE_BYTES);
}

/* How many are in a set of up to 16. Plain x86-64 has no instruction for it. */
static inline uint32_t count_bits(uint32_t set)
{
#ifdef __POPCNT__
    return (uint32_t)__builtin_popcount(set);
#else
    set = set - (set >> 1 & 0x5555);
    set = (set & 0x3333) + (set >> 2 & 0x3333);
    set = (set + (set >> 4)) & 0x0f0f;
    return (set + (set >> 8)) & 0x1f;
#endif
}

#endif
