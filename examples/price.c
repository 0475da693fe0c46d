/* Prices a task sheet from standard input, and prints the cost and the start of its cheapest plan, and what the whole
 * round would cost from each point, or the number of the refusal.
 * The exit status is 0 for a price, 1 for a refusal, and 2 for anything else.
 *
 *     cc -I include examples/price.c target/staticlib/libvanplan.a -o target/price
 *     target/price < examples/a.sheet
 */
#include <inttypes.h>
#include <stdio.h>
#include <stdlib.h>

#include "vanplan.h"

/* One byte more than the longest sheet has shows that the input is longer. */
static uint8_t sheet[VANPLAN_MAX_SHEET_BYTES + 1];

/* The status to end with: this one, or 2 where standard output does not take what was printed. */
static int end_with(int status)
{
    if (fflush(stdout) || ferror(stdout)) {
        perror("standard output");
        return 2;
    }
    return status;
}

static int refuse(uint32_t number)
{
    printf("refused %" PRIu32 "\n", number);
    return end_with(1);
}

int main(void)
{
    uint64_t tasks, points, cost, *layers[2];
    const uint64_t *row;
    size_t len, ncells, layer, cells, i;
    uint16_t start;
    uint32_t refused;

    len = fread(sheet, 1, sizeof sheet, stdin);
    if (ferror(stdin)) {
        perror("standard input");
        return 2;
    }
    /* The sheet tells how many cells each layer needs: 462 KiB at most. */
    refused = vanplan_read(sheet, len, &tasks, &points);
    if (refused)
        return refuse(refused);
    ncells = VANPLAN_LAYER_CELLS(tasks, points);
    layers[0] = (uint64_t *)malloc(2 * ncells * sizeof *layers[0]);
    if (!layers[0]) {
        perror("layers");
        return 2;
    }
    layers[1] = layers[0] + ncells;
    refused = vanplan_price(sheet, len, layers[0], ncells, layers[1], ncells, &cost, &start);
    /* The even layer or the odd one, and as many of its cells as there are points. */
    if (!refused)
        refused = vanplan_price_row(sheet, len, layers[0], ncells, layers[1], ncells, &layer, &cells);
    if (refused)
        return refuse(refused);
    row = layers[layer];
    printf("cost %" PRIu64 " start %" PRIu16 " by point", cost, start);
    for (i = 0; i < cells; i++)
        printf(" %" PRIu64, row[i]);
    printf("\n");
    free(layers[0]);
    return end_with(0);
}
