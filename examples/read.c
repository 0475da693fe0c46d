/* Reads a task sheet from standard input and prints its numbers of tasks and points, or the number of its refusal.
 * The exit status is 0 if it reads, 1 for a refusal, and 2 for anything else.
 *
 *     cc -I include examples/read.c target/staticlib/libvanplan.a -o target/read
 *     target/read < examples/a.sheet
 */
#include <inttypes.h>
#include <stdio.h>

#include "vanplan.h"

/* One byte more than the longest sheet has shows that the input is longer. */
static uint8_t sheet[VANPLAN_MAX_SHEET_BYTES + 1];

int main(void)
{
    uint64_t tasks, points;
    size_t len = fread(sheet, 1, sizeof sheet, stdin);
    uint32_t refused;

    if (ferror(stdin)) {
        perror("standard input");
        return 2;
    }
    refused = vanplan_read(sheet, len, &tasks, &points);
    if (refused)
        printf("refused %" PRIu32 "\n", refused);
    else
        printf("tasks %" PRIu64 " points %" PRIu64 "\n", tasks, points);
    if (fflush(stdout) || ferror(stdout)) {
        perror("standard output");
        return 2;
    }
    return refused ? 1 : 0;
}
