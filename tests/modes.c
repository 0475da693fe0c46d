/* For ../test: whether calls answer alike in every mode that a program may have put the processor's floats in.
 *
 *     modes SUBJECT MODE SHEET..
 *
 * The subject is `library`, with all its calls, or a build of the C of baseline/, with planning and pricing by the
 * order of doubles. Each call is made on the sheets named and on many that are drawn: first in the mode in which a
 * program starts, then in the mode named. What was noticed is printed:
 *
 *     same              nothing else
 *     wrong answers     an answer, a number, a byte or a cell is another one
 *     register changed  the register of the mode is another one behind the call, maybe in a flag alone
 *     signal            the call was ended by one
 *
 * If it is not the same for all calls, there is a line for each. Where it was noticed first stands on standard error.
 * The status is 0 if there was nothing, and 1 if there was. */
#define _POSIX_C_SOURCE 200809L
#include <setjmp.h>
#include <signal.h>
#include <stdio.h>
#include <stdlib.h>
#include <string.h>
#include <xmmintrin.h>

#include "baseline.h"
#include "drawn.h"

extern const struct build *const baseline_builds[];
extern const size_t baseline_count;

/* The register of the mode, MXCSR: flags of what has happened, denormals taken for zero, masks so that what happens is
 * no signal, two bits for how to round (to the nearest if neither is set), and denormals flushed to zero. */
enum { FLAGS = 0x3f, ZERO = 0x40, MASKED = 0x1f80, DOWN = 0x2000, UP = 0x4000, TO_ZERO = 0x6000, FLUSH = 0x8000 };

static const struct mode {
    const char *name;
    unsigned bits;
} modes[] = {
    {"nearest", MASKED}, /* in which a program starts */
    {"down", MASKED | DOWN},
    {"up", MASKED | UP},
    {"to zero", MASKED | TO_ZERO},
    {"flush", MASKED | FLUSH},
    {"denormals zero", MASKED | ZERO},
    {"denormals zero, flush", MASKED | ZERO | FLUSH},
    {"unmasked", 0},
    {"unmasked, up, flush", UP | FLUSH},
    {"unmasked, denormals zero, flush", ZERO | FLUSH},
};

/* A sheet, what is lent to plan and to price it, and a plan to validate, to read and to write. */
struct instance {
    struct sheet sheet;
    size_t ncells, nlayer, nplan;
    size_t words; /* of the memory that cells and layers are lent from, with some behind them */
    uint64_t tasks;
    uint8_t plan[VANPLAN_MAX_PLAN_BYTES];
    uint16_t start, doors[VANPLAN_MAX_PLAN_DOORS];
    uint64_t cost;
};

enum { SPARE = 8 };

/* All that a call may write, without padding. It is filled before each call, so that what stays is seen too. */
struct lent {
    uint64_t tasks, points, cost;
    size_t written, layer, row;
    uint32_t answer;
    uint16_t start, doors[VANPLAN_MAX_PLAN_DOORS + 1];
    uint8_t plan[VANPLAN_MAX_PLAN_BYTES + SPARE];
    uint64_t cells[VANPLAN_MAX_CELLS + 2 * SPARE];
};

static struct lent due, found;

static int load(const char *path, struct sheet *s)
{
    FILE *file = fopen(path, "rb");

    memset(s, 0, sizeof *s);
    snprintf(s->name, sizeof s->name, "%s", path);
    if (!file)
        return 0;
    s->len = fread(s->bytes, 1, sizeof s->bytes, file);
    return fclose(file) == 0;
}

/* Its cheapest plan, or one of two tasks. A third of the plans state another cost. */
static void add_plan(struct instance *s)
{
    static uint64_t cells[VANPLAN_MAX_CELLS];
    size_t written;

    s->tasks = 2;
    if (vanplan_plan(s->sheet.bytes, s->sheet.len, cells, VANPLAN_MAX_CELLS, s->plan, sizeof s->plan, &s->cost) == 0) {
        uint64_t points;
        vanplan_read(s->sheet.bytes, s->sheet.len, &s->tasks, &points);
        vanplan_read_plan(s->tasks, s->plan, VANPLAN_PLAN_BYTES(s->tasks), &s->start, s->doors, 12, &s->cost);
    }
    s->cost += below(3) == 0;
    vanplan_write_plan(s->tasks, s->start, s->doors, 12, s->cost, s->plan, sizeof s->plan, &written);
}

/* Room just as needed, or with some to spare; of eight rooms three are too small in one thing. Answers whether the
 * sheet reads. */
static int add_room(struct instance *s)
{
    uint64_t points = 1;
    int reads = vanplan_read(s->sheet.bytes, s->sheet.len, &s->tasks, &points) == 0;
    uint32_t small = below(8);
    size_t spare = small > 2 && below(2) ? SPARE : 0;

    s->ncells = VANPLAN_CELLS(s->tasks, points) + spare - (small == 0);
    s->nlayer = VANPLAN_LAYER_CELLS(s->tasks, points) + spare - (small == 1);
    s->nplan = VANPLAN_PLAN_BYTES(s->tasks) - (small == 2);
    s->words = (s->ncells > 2 * s->nlayer ? s->ncells : 2 * s->nlayer) + SPARE;
    return reads;
}

/* By which the subject plans and prices. */
static plan_call *planning;
static price_call *pricing;

static void plan(const struct instance *s, struct lent *l)
{
    l->answer = planning(s->sheet.bytes, s->sheet.len, l->cells, s->ncells, l->plan, s->nplan, &l->cost);
}

static void price(const struct instance *s, struct lent *l)
{
    l->answer = pricing(s->sheet.bytes, s->sheet.len, l->cells, s->nlayer, l->cells + s->nlayer, s->nlayer, &l->cost, &l->start);
}

static void price_row(const struct instance *s, struct lent *l)
{
    l->answer = vanplan_price_row(s->sheet.bytes, s->sheet.len, l->cells, s->nlayer, l->cells + s->nlayer, s->nlayer, &l->layer,
                                  &l->row);
}

static void read_sheet(const struct instance *s, struct lent *l)
{
    l->answer = vanplan_read(s->sheet.bytes, s->sheet.len, &l->tasks, &l->points);
}

static void validate(const struct instance *s, struct lent *l)
{
    l->answer = vanplan_validate(s->sheet.bytes, s->sheet.len, s->plan, VANPLAN_PLAN_BYTES(s->tasks), &l->cost);
}

static void write_plan(const struct instance *s, struct lent *l)
{
    l->answer = vanplan_write_plan(s->tasks, s->start, s->doors, 12, s->cost, l->plan, s->nplan, &l->written);
}

static void read_plan(const struct instance *s, struct lent *l)
{
    l->answer = vanplan_read_plan(s->tasks, s->plan, s->nplan, &l->start, l->doors, VANPLAN_MAX_PLAN_DOORS, &l->cost);
}

/* The C of baseline/ has the first two. */
static const struct call {
    const char *name;
    void (*make)(const struct instance *s, struct lent *l);
} calls[] = {
    {"planning", plan},
    {"pricing", price},
    {"telling the row", price_row},
    {"reading", read_sheet},
    {"validating", validate},
    {"writing a plan", write_plan},
    {"reading a plan", read_plan},
};

enum { CALLS_IN_C = 2, CALLS = sizeof calls / sizeof *calls };

/* What may be noticed. */
enum { WRONG_ANSWERS = 1, REGISTER_CHANGED = 2, SIGNAL = 4 };
static const char *const things[] = {"wrong answers", "register changed", "signal"};

static sigjmp_buf before_call;

static void back_to_before(int signal)
{
    (void)signal;
    siglongjmp(before_call, 1);
}

/* Makes a call with these bits in the register, and answers what was noticed but the answers. */
static int make_with(unsigned bits, const struct call *call, const struct instance *s, struct lent *l)
{
    unsigned behind;

    if (sigsetjmp(before_call, 1)) {
        _mm_setcsr(MASKED);
        return SIGNAL;
    }
    _mm_setcsr(bits);
    call->make(s, l);
    behind = _mm_getcsr();
    _mm_setcsr(MASKED);
    return behind == bits ? 0 : REGISTER_CHANGED;
}

static void fill(struct lent *l, size_t bytes)
{
    memset(l, 0xa5, bytes);
}

/* With all flags clear and, unless they would be signals, with all set. */
static int notice(const struct mode *mode, const struct call *call, const struct instance *s)
{
    size_t bytes = offsetof(struct lent, cells) + s->words * sizeof *due.cells;
    unsigned flags;
    int noticed = 0;

    fill(&due, bytes);
    call->make(s, &due);
    for (flags = 0; flags <= (mode->bits & MASKED ? FLAGS : 0); flags += FLAGS) {
        int of_call;
        fill(&found, bytes);
        of_call = make_with(mode->bits | flags, call, s, &found);
        noticed |= of_call;
        if (of_call != SIGNAL && memcmp(&due, &found, bytes) != 0)
            noticed |= WRONG_ANSWERS;
    }
    return noticed;
}

/* A call of a way, and what was noticed of it so far. */
struct result {
    const char *way, *call;
    int noticed;
};

static struct result results[CALLS + CALLS_IN_C * WAYS];
static size_t nresults;

/* The things in words. */
static const char *in_words(int noticed)
{
    static char words[64];
    size_t i;

    words[0] = 0;
    for (i = 0; i < sizeof things / sizeof *things; i++)
        if (noticed & 1 << i) {
            strcat(words, *words ? ", " : "");
            strcat(words, things[i]);
        }
    return *words ? words : "same";
}

static void check_sheet(const struct mode *mode, const struct instance *s, struct result *of_way, size_t ncalls)
{
    size_t i;

    for (i = 0; i < ncalls; i++) {
        struct result *r = &of_way[i];
        int noticed = notice(mode, &calls[i], s);
        if (noticed & ~r->noticed)
            fprintf(stderr, "%s, %s, mode %s, %s: %s\n", r->way, r->call, mode->name, s->sheet.name, in_words(noticed));
        r->noticed |= noticed;
    }
}

enum { DRAWN = 144, FEWEST_READ = 90, FEWEST_REFUSED = 30 };

/* Sheet i: those drawn come first, so that they are the same whatever is named. */
static void take(size_t i, char **paths, struct sheet *s)
{
    if (i < DRAWN) {
        draw(i, s);
    } else if (!load(paths[i - DRAWN], s)) {
        perror(paths[i - DRAWN]);
        exit(2);
    }
}

/* Checks the first calls of a way on all sheets. */
static void check_way(const char *way, size_t ncalls, const struct mode *mode, size_t npaths, char **paths)
{
    static struct instance s;
    struct result *of_way = results + nresults;
    size_t i, read = 0;

    for (i = 0; i < ncalls; i++, nresults++)
        of_way[i] = (struct result){way, calls[i].name, 0};
    state = 2026;
    for (i = 0; i < DRAWN + npaths; i++) {
        memset(&s, 0, sizeof s);
        take(i, paths, &s.sheet);
        add_plan(&s);
        read += add_room(&s);
        check_sheet(mode, &s, of_way, ncalls);
    }
    if (read < FEWEST_READ || DRAWN + npaths - read < FEWEST_REFUSED) {
        fprintf(stderr, "%zu sheets of %zu read: that is no test\n", read, DRAWN + npaths);
        exit(2);
    }
}

/* The ways of a build by the order of doubles. */
static void check_build(const struct build *build, const struct mode *mode, size_t npaths, char **paths)
{
    size_t i;

    for (i = 0; i < WAYS; i++) {
        const struct way *way = &build->ways[i];
        if (strcmp(way->points, "columns, doubles") == 0 || strcmp(way->points, "columns, SSE2") == 0) {
            planning = way->plan;
            pricing = way->price;
            check_way(way->points, CALLS_IN_C, mode, npaths, paths);
        }
    }
}

static void check_subject(const char *subject, const struct mode *mode, size_t npaths, char **paths)
{
    size_t i;

    if (strcmp(subject, "library") == 0) {
        planning = vanplan_plan;
        pricing = vanplan_price;
        check_way(subject, CALLS, mode, npaths, paths);
    }
    for (i = 0; i < baseline_count; i++)
        if (strcmp(baseline_builds[i]->target, subject) == 0)
            check_build(baseline_builds[i], mode, npaths, paths);
}

/* One line if the same was noticed of all calls, and otherwise one for each. Answers the status. */
static int print_results(void)
{
    size_t i, alike = 0, same = 0;

    for (i = 0; i < nresults; i++) {
        alike += results[i].noticed == results[0].noticed;
        same += results[i].noticed == 0;
    }
    if (alike == nresults)
        puts(in_words(results[0].noticed));
    else
        for (i = 0; i < nresults; i++)
            printf("%s, %s: %s\n", results[i].way, results[i].call, in_words(results[i].noticed));
    return same < nresults;
}

int main(int argc, char **argv)
{
    struct sigaction action;
    size_t i;

    if (argc < 3) {
        fprintf(stderr, "usage: %s SUBJECT MODE SHEET..\n", argv[0]);
        return 2;
    }
    memset(&action, 0, sizeof action);
    action.sa_handler = back_to_before;
    sigaction(SIGFPE, &action, NULL);
    for (i = 0; i < sizeof modes / sizeof *modes; i++)
        if (strcmp(modes[i].name, argv[2]) == 0)
            check_subject(argv[1], &modes[i], (size_t)argc - 3, argv + 3);
    if (nresults == 0) {
        fprintf(stderr, "there is no such subject or mode\n");
        return 2;
    }
    return print_results();
}
