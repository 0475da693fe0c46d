/* Writes a plan to a file, from its start, its cost and its doors, and prints its length, or the number of the refusal.
 * An old plan in that file is replaced, and is removed where the new one is refused. Anything else that is there is left
 * as it is. The exit status is 0 for a plan, 1 for a refusal, and 2 for anything else.
 *
 *     cc -I include examples/write.c target/staticlib/libvanplan.a -o target/write
 *     target/write target/new.plan 0 92 0 1
 */
#include "output.h"

#include <errno.h>
#include <inttypes.h>
#include <stdio.h>
#include <stdlib.h>

#include "vanplan.h"

/* Room for more doors than a plan can have, and for the longest plan. */
static uint16_t doors[64];
static uint8_t plan[VANPLAN_MAX_PLAN_BYTES];

/* The decimal number in a word, at most so large. */
static uint64_t number(const char *word, uint64_t most)
{
    char *end;
    uintmax_t value;

    errno = 0;
    value = strtoumax(word, &end, 10);
    if (*word < '0' || *word > '9' || *end || errno || value > most) {
        fprintf(stderr, "not a number from 0 to %" PRIu64 ": %s\n", most, word);
        exit(2);
    }
    return value;
}

int main(int argc, char **argv)
{
    size_t n, i, written;
    uint16_t start;
    uint64_t cost;
    uint32_t refused;

    if (argc < 4 || argc > 4 + 64) {
        fprintf(stderr, "usage: %s PLAN START COST DOOR..\n", argv[0]);
        return 2;
    }
    if (find_plan(argv[1]) == FAILED)
        return 2;
    start = (uint16_t)number(argv[2], UINT16_MAX);
    cost = number(argv[3], UINT64_MAX);
    n = (size_t)argc - 4;
    for (i = 0; i < n; i++)
        doors[i] = (uint16_t)number(argv[4 + i], UINT16_MAX);
    refused = vanplan_write_plan(n, start, doors, n, cost, plan, sizeof plan, &written);
    if (refused) {
        if (remove_plan(argv[1]))
            return 2;
        printf("refused %" PRIu32 "\n", refused);
        return end_with(1);
    }
    if (write_plan(argv[1], plan, written))
        return 2;
    printf("written %zu\n", written);
    return end_with(0);
}
