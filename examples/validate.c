/* Validates a plan for a task sheet, each in a file, and prints its cost, or the number of the refusal.
 * The exit status is 0 if it is accepted, 1 for a refusal, and 2 for anything else.
 *
 *     cc -I include examples/validate.c target/staticlib/libvanplan.a -o target/validate
 *     target/validate examples/a.sheet examples/a.plan
 */
#include <inttypes.h>
#include <stdio.h>
#include <stdlib.h>

#include "vanplan.h"

/* One byte more than the longest of each has shows that the file is longer. */
static uint8_t sheet[VANPLAN_MAX_SHEET_BYTES + 1];
static uint8_t plan[VANPLAN_MAX_PLAN_BYTES + 1];

/* The bytes of a file, as many as there is room for. */
static size_t load(const char *name, uint8_t *room, size_t size)
{
    FILE *file = fopen(name, "rb");
    size_t len;

    if (!file) {
        perror(name);
        exit(2);
    }
    len = fread(room, 1, size, file);
    if (ferror(file)) {
        perror(name);
        exit(2);
    }
    fclose(file);
    return len;
}

int main(int argc, char **argv)
{
    uint64_t cost;
    size_t len, plan_len;
    uint32_t refused;

    if (argc != 3) {
        fprintf(stderr, "usage: %s SHEET PLAN\n", argv[0]);
        return 2;
    }
    len = load(argv[1], sheet, sizeof sheet);
    plan_len = load(argv[2], plan, sizeof plan);
    refused = vanplan_validate(sheet, len, plan, plan_len, &cost);
    if (refused)
        printf("refused %" PRIu32 "\n", refused);
    else
        printf("cost %" PRIu64 "\n", cost);
    if (fflush(stdout) || ferror(stdout)) {
        perror("standard output");
        return 2;
    }
    return refused ? 1 : 0;
}
