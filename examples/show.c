/* Reads a plan of so many tasks from standard input and prints its start, its doors and its cost, or the number of the
 * refusal. The exit status is 0 for a plan, 1 for a refusal, and 2 for anything else.
 *
 *     cc -I include examples/show.c target/staticlib/libvanplan.a -o target/show
 *     target/show 2 < examples/a.plan
 */
#include <inttypes.h>
#include <stdio.h>
#include <stdlib.h>

#include "vanplan.h"

/* One byte more than the longest plan has shows that the input is longer. */
static uint8_t plan[VANPLAN_MAX_PLAN_BYTES + 1];
static uint16_t doors[VANPLAN_MAX_PLAN_DOORS];

int main(int argc, char **argv)
{
    size_t n, i, len;
    uint16_t start;
    uint64_t cost;
    uint32_t refused;
    char *end;

    n = argc == 2 ? (size_t)strtoul(argv[1], &end, 10) : 0;
    if (argc != 2 || *argv[1] < '0' || *argv[1] > '9' || *end) {
        fprintf(stderr, "usage: %s TASKS < PLAN\n", argv[0]);
        return 2;
    }
    len = fread(plan, 1, sizeof plan, stdin);
    if (ferror(stdin)) {
        perror("standard input");
        return 2;
    }
    refused = vanplan_read_plan(n, plan, len, &start, doors, VANPLAN_MAX_PLAN_DOORS, &cost);
    if (refused) {
        printf("refused %" PRIu32 "\n", refused);
    } else {
        printf("start %" PRIu16 " doors", start);
        for (i = 0; i < n; i++)
            printf(" %" PRIu16, doors[i]);
        printf(" cost %" PRIu64 "\n", cost);
    }
    if (fflush(stdout) || ferror(stdout)) {
        perror("standard output");
        return 2;
    }
    return refused ? 1 : 0;
}
