/* Plans a task sheet from standard input, writes the plan to a file, and prints its cost, its start and its doors, or
 * the number of the refusal. An old plan in that file is replaced, and is removed where the sheet is refused: no old plan
 * stands for a new sheet. Anything else that is there is left as it is, and nothing is planned.
 * The exit status is 0 for a plan, 1 for a refusal, and 2 for anything else.
 *
 *     cc -I include examples/plan.c target/staticlib/libvanplan.a -o target/plan
 *     target/plan target/new.plan < examples/a.sheet
 */
#include "output.h"

#include <inttypes.h>
#include <stdio.h>
#include <stdlib.h>

#include "vanplan.h"

/* One byte more than the longest sheet has shows that the input is longer. */
static uint8_t sheet[VANPLAN_MAX_SHEET_BYTES + 1];
static uint8_t plan[VANPLAN_MAX_PLAN_BYTES];
static uint16_t doors[VANPLAN_MAX_PLAN_DOORS];

static int refuse(const char *output, uint32_t number)
{
    if (remove_plan(output))
        return 2;
    printf("refused %" PRIu32 "\n", number);
    return end_with(1);
}

int main(int argc, char **argv)
{
    uint64_t tasks, points, cost, *cells;
    size_t n, i, len, ncells, plan_len;
    uint16_t start;
    uint32_t refused;

    if (argc != 2) {
        fprintf(stderr, "usage: %s PLAN < SHEET\n", argv[0]);
        return 2;
    }
    /* First, so that a sheet that is named as the output is neither lost nor planned. */
    if (find_plan(argv[1]) == FAILED)
        return 2;
    len = fread(sheet, 1, sizeof sheet, stdin);
    if (ferror(stdin)) {
        perror("standard input");
        return 2;
    }
    /* The sheet tells how many cells are needed: 2 MiB at most. */
    refused = vanplan_read(sheet, len, &tasks, &points);
    if (refused)
        return refuse(argv[1], refused);
    n = (size_t)tasks;
    plan_len = VANPLAN_PLAN_BYTES(tasks);
    ncells = VANPLAN_CELLS(tasks, points);
    cells = (uint64_t *)malloc(ncells * sizeof *cells);
    if (!cells) {
        perror("cells");
        return 2;
    }
    refused = vanplan_plan(sheet, len, cells, ncells, plan, plan_len, &cost);
    free(cells);
    if (!refused)
        refused = vanplan_read_plan(n, plan, plan_len, &start, doors, VANPLAN_MAX_PLAN_DOORS, &cost);
    if (refused)
        return refuse(argv[1], refused);
    if (write_plan(argv[1], plan, plan_len))
        return 2;
    printf("cost %" PRIu64 " start %" PRIu16 " doors", cost, start);
    for (i = 0; i < n; i++)
        printf(" %" PRIu16, doors[i]);
    printf("\n");
    return end_with(0);
}
