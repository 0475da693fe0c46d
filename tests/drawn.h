/* For modes.c: task sheets of every size that are drawn, the same in every run. */
#ifndef DRAWN_H
#define DRAWN_H

#include <stdint.h>
#include <stdio.h>
#include <string.h>

#include "vanplan.h"

struct sheet {
    char name[64];
    uint8_t bytes[VANPLAN_MAX_SHEET_BYTES + 1];
    size_t len;
};

/* Of the generator by which sheets are drawn, the same in every run. */
static uint64_t state;

static uint32_t below(uint32_t limit)
{
    state ^= state << 13;
    state ^= state >> 7;
    state ^= state << 17;
    return (uint32_t)((state >> 32) * limit >> 32);
}

/* A cost, a distance or a load: small, so that plans tie; any; or near the most. */
static uint32_t number(size_t scale, uint32_t most)
{
    return scale == 0 ? below(4) : scale == 1 ? below(most) : most - below(1000);
}

/* A number of so many bytes, the least significant first, behind what is there. */
static void put(struct sheet *s, uint32_t number, size_t bytes)
{
    for (; bytes > 0; bytes--, number >>= 8)
        s->bytes[s->len++] = (uint8_t)number;
}

/* The bodies, and the bytes of an entry of each. */
enum { TASKS, DOORS, STARTS, PAIRS, RULES, POINTS, DISTANCES, BODIES };
static const uint32_t bytes_each[BODIES] = {2, 10, 2, 4, 10, 4, 2};

/* Of every twelve sheets one for each number of tasks. The first twelve, and some others, have the most doors and
 * points, or one fewer. */
static void draw_entries(size_t i, uint32_t *n)
{
    int large = i < 12 || below(16) == 0;

    n[TASKS] = 1 + i % 12;
    n[DOORS] = large ? 64 - below(2) : n[TASKS] + below(65 - n[TASKS]);
    n[STARTS] = 1 + below(16);
    n[PAIRS] = n[TASKS] > 1 && below(2) ? below(33) : 0;
    n[RULES] = below(2) ? below(33) : 0;
    n[POINTS] = large ? 64 - below(2) : 1 + below(n[TASKS] > 8 ? 16 : 64);
    n[DISTANCES] = n[POINTS] * n[POINTS];
}

static void put_head(struct sheet *s, const uint32_t *n, uint32_t end_load)
{
    uint32_t body, at = 46;

    put(s, 1, 2);
    put(s, end_load, 2);
    for (body = 0; body < BODIES; body++) {
        put(s, body + 1, 2);
        put(s, at, 2);
        put(s, n[body], 2);
        at += n[body] * bytes_each[body];
    }
}

static void put_doors(struct sheet *s, const uint32_t *n, size_t scale)
{
    uint32_t i;

    for (i = 0; i < n[DOORS]; i++) {
        put(s, i % n[TASKS], 2);
        put(s, below(n[POINTS]), 2);
        put(s, below(n[POINTS]), 2);
        put(s, number(scale, UINT32_MAX), 4);
    }
}

/* The sender of a pair has the lower number, so that some order keeps them all. */
static void put_pairs_and_rules(struct sheet *s, const uint32_t *n, size_t scale)
{
    uint32_t i;

    for (i = 0; i < n[PAIRS]; i++) {
        uint32_t sender = below(n[TASKS] - 1);
        put(s, sender, 2);
        put(s, sender + 1 + below(n[TASKS] - 1 - sender), 2);
    }
    for (i = 0; i < n[RULES]; i++) {
        put(s, below(n[DOORS]), 2);
        put(s, below(1u << n[TASKS]), 2);
        put(s, 1 + below(4), 2);
        put(s, number(scale, UINT32_MAX), 4);
    }
}

/* The first twelve have costs near the most and read. Of the others some have too little load, and some are damaged: a
 * bit is another one, or the last byte is missing. */
static void draw(size_t i, struct sheet *s)
{
    uint32_t n[BODIES], j;
    size_t scale = (i / 12 + 2) % 3;

    memset(s, 0, sizeof *s);
    snprintf(s->name, sizeof s->name, "drawn sheet %zu", i);
    draw_entries(i, n);
    put_head(s, n, number(scale, 65535));
    for (j = 0; j < n[TASKS]; j++)
        put(s, number(scale, 32767) - (scale == 0 ? below(2) : scale == 1 ? below(16384) : 0), 2);
    put_doors(s, n, scale);
    for (j = 0; j < n[STARTS]; j++)
        put(s, below(n[POINTS]), 2);
    put_pairs_and_rules(s, n, scale);
    for (j = 0; j < n[POINTS]; j++)
        put(s, number(scale, UINT32_MAX), 4);
    for (j = 0; j < n[DISTANCES]; j++)
        put(s, number(scale, 65535), 2);
    if (i >= 12 && below(6) == 0)
        s->bytes[below(100)] ^= (uint8_t)(1u << below(8));
    if (i >= 12 && below(12) == 0)
        s->len--;
}

#endif
