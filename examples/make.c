/* Makes a task sheet and writes it to a file: sheet A, two tasks and three points. Another round has other tables, and
 * nothing else changes: how many entries each body has is counted. A number that does not fit its bytes is told. Whether
 * the sheet is one that can be planned, examples/read.c tells.
 * A file that is there is never overwritten. The exit status is 0 if the sheet is there now, and 2 for anything else.
 *
 *     cc -I include examples/make.c -o target/make
 *     target/make target/a.sheet
 */
#include "output.h"

#include <inttypes.h>
#include <stdio.h>
#include <stdlib.h>
#include <string.h>

#include "vanplan.h"

#define ENTRIES(table) (sizeof table / sizeof *table)

static const int64_t end_load = 10;
/* For each task its load change: a delivery of 5 kilograms, and a pick-up of 3. */
static const int64_t changes[] = {5, -3};
/* For each door its task, the point to arrive at, the point to leave from, its work. */
static const int64_t doors[][4] = {{0, 1, 1, 4}, {1, 2, 2, 6}};
/* For each start its point. */
static const int64_t starts[] = {0};
/* For each pair its sender and its receiver, for each access rule its door, the watched tasks, the least count, the
 * charge: as {1, 0}, and {0, 2, 1, 50}, before the {0}. C has no empty table, so these two end with a row that does not
 * count. */
static const int64_t pairs[][2] = {{0}};
static const int64_t rules[][4] = {{0}};
/* For each point what it costs to end there, and a row with the distances to every point. */
static const int64_t end_costs[] = {0, 20, 30};
static const int64_t distances[][ENTRIES(end_costs)] = {{0, 2, 3}, {2, 0, 4}, {3, 4, 0}};

enum {
    TASKS = ENTRIES(changes),
    DOORS = ENTRIES(doors),
    STARTS = ENTRIES(starts),
    PAIRS = ENTRIES(pairs) - 1,
    RULES = ENTRIES(rules) - 1,
    POINTS = ENTRIES(end_costs),
    ROWS = ENTRIES(distances)
};

/* The number of entries of each body, and the bytes of one. */
static const int64_t bodies[7][2] = {{TASKS, 2}, {DOORS, 10}, {STARTS, 2},      {PAIRS, 4},
                                     {RULES, 10}, {POINTS, 4}, {ROWS * POINTS, 2}};

static uint8_t sheet[VANPLAN_MAX_SHEET_BYTES];
static size_t len;

/* A number of so many bytes, the least significant first, behind what is there. It is told by its field and entry where
 * it is not from the least to the most. */
static void put_between(const char *field, size_t entry, int64_t number, size_t bytes, int64_t least, int64_t most)
{
    uint64_t rest = (uint64_t)number;

    if (number < least || number > most) {
        fprintf(stderr, "%s %zu: %" PRId64 " is not from %" PRId64 " to %" PRId64 "\n", field, entry, number, least, most);
        exit(2);
    }
    if (bytes > sizeof sheet - len) {
        fprintf(stderr, "%s %zu: the sheet is longer than the longest, %d bytes\n", field, entry, VANPLAN_MAX_SHEET_BYTES);
        exit(2);
    }
    for (; bytes > 0; bytes--, rest >>= 8)
        sheet[len++] = (uint8_t)rest;
}

static void put(const char *field, size_t entry, int64_t number, size_t bytes)
{
    put_between(field, entry, number, bytes, 0, ((int64_t)1 << 8 * bytes) - 1);
}

/* The one number with a sign. */
static void put_change(size_t task, int64_t change)
{
    put_between("load change of task", task, change, 2, INT16_MIN, INT16_MAX);
}

static void head(void)
{
    int64_t at = 46;
    size_t body;

    put("kind at byte", 0, 1, 2);
    put("end load at byte", 2, end_load, 2);
    for (body = 0; body < 7; body++) {
        put("number of body", body + 1, (int64_t)body + 1, 2);
        put("place of body", body + 1, at, 2);
        put("entries of body", body + 1, bodies[body][0], 2);
        at += bodies[body][0] * bodies[body][1];
    }
}

static void all_bodies(void)
{
    char from[64];
    size_t i, j;

    for (i = 0; i < TASKS; i++)
        put_change(i, changes[i]);
    for (i = 0; i < DOORS; i++) {
        put("task of door", i, doors[i][0], 2);
        put("point to arrive at of door", i, doors[i][1], 2);
        put("point to leave from of door", i, doors[i][2], 2);
        put("work of door", i, doors[i][3], 4);
    }
    for (i = 0; i < STARTS; i++)
        put("point of start", i, starts[i], 2);
    for (i = 0; i != PAIRS; i++) {
        put("sender of pair", i, pairs[i][0], 2);
        put("receiver of pair", i, pairs[i][1], 2);
    }
    for (i = 0; i != RULES; i++) {
        put("door of access rule", i, rules[i][0], 2);
        put("watched tasks of access rule", i, rules[i][1], 2);
        put("least count of access rule", i, rules[i][2], 2);
        put("charge of access rule", i, rules[i][3], 4);
    }
    for (i = 0; i < POINTS; i++)
        put("end cost of point", i, end_costs[i], 4);
    for (i = 0; i < ROWS; i++) {
        snprintf(from, sizeof from, "distance from point %zu to point", i);
        for (j = 0; j < POINTS; j++)
            put(from, j, distances[i][j], 2);
    }
}

/* Writes the sheet to a new file. The same sheet may be there already. */
static int write_sheet(const char *name)
{
    static uint8_t there[VANPLAN_MAX_SHEET_BYTES + 1];
    size_t there_len = 0;
    enum found found = read_output(name, there, sizeof there, &there_len);

    if (found == FOUND && (there_len != len || memcmp(there, sheet, len))) {
        fprintf(stderr, "%s: another file is there, and is left as it is\n", name);
        return -1;
    }
    if (found == NOTHING && write_new(name, sheet, len)) {
        perror(name);
        return -1;
    }
    return found == FAILED ? -1 : 0;
}

int main(int argc, char **argv)
{
    if (argc != 2) {
        fprintf(stderr, "usage: %s SHEET\n", argv[0]);
        return 2;
    }
    head();
    all_bodies();
    if (write_sheet(argv[1]))
        return 2;
    printf("made %zu\n", len);
    return end_with(0);
}
