/* vanplan: route planning and plan validation for delivery vans, from proved code. For C99 and C++.
 *
 * Link with libvanplan.a, which `tools/archive` writes to target/staticlib/ (x86-64 Linux). It allocates nothing, and
 * needs memcpy and memset of the C library and nothing else.
 *
 * Every call returns 0, or the number of a refusal, and where it refuses it has written nothing through any pointer.
 * Any bytes and any numbers may be passed: no call reads or writes outside of what it is lent, and every call ends. A
 * call keeps nothing from one call to the next and may be made from several threads at once.
 *
 * vanplan_plan and vanplan_price take up to 42 KB of stack, and each other call up to 2 KB. The floating-point state of
 * the processor (MXCSR) may be any: no call answers otherwise for it, and none changes it, no flag either.
 *
 * Where several refusals apply, the first in the order in which they are tested is returned, which is not always the
 * lowest: 17 is tested before 16. This is the order:
 *
 *     vanplan_read        10, 11, 12, 13, 14, 15, 17, 16
 *     vanplan_plan        as vanplan_read, then 20, 21
 *     vanplan_price       as vanplan_read, then 22
 *     vanplan_price_row   as vanplan_read, then 22
 *     vanplan_validate    as vanplan_read, then 30, 31, 32, 33, 34
 *     vanplan_write_plan  12, 21
 *     vanplan_read_plan   12, 30
 *
 * The caller ensures, since no call can test it, that a pointer with a length points to at least that many elements
 * (and is not NULL, even where the length is 0), that any other pointer points to one number that may be
 * written, and that what is written through overlaps nothing else that is passed.
 */
#ifndef VANPLAN_H
#define VANPLAN_H

#include <stddef.h>
#include <stdint.h>

#ifdef __cplusplus
extern "C" {
#endif

#define VANPLAN_VERSION "0.4.0"

/* The bytes of the longest task sheet. A caller that reads one byte more sees that its input is longer. */
#define VANPLAN_MAX_SHEET_BYTES 9638
/* The doors and the bytes of the longest plan. */
#define VANPLAN_MAX_PLAN_DOORS 12
#define VANPLAN_MAX_PLAN_BYTES 56
/* The work cells that are enough for planning any sheet: 2 MiB. */
#define VANPLAN_MAX_CELLS 262144
/* The cells of each of the two layers that are enough for pricing any sheet: twice 462 KiB. */
#define VANPLAN_MAX_LAYER_CELLS 59136

/* The work cells that planning a sheet of so many tasks and points needs, 2^N times P, and the bytes of its plan. For
 * the numbers that vanplan_read gives. */
#define VANPLAN_CELLS(tasks, points) (((size_t)1 << (tasks)) * (size_t)(points))
#define VANPLAN_PLAN_BYTES(tasks) (32 + 2 * (size_t)(tasks))

/* The cells of each of the two layers that pricing such a sheet needs, B times P: B is the largest number of lists of
 * tasks of one size, of twelve tasks 924, the lists of six. The argument tasks is evaluated more than once. */
#define VANPLAN_LAYER_CELLS(tasks, points) (VANPLAN_MOST_LISTS(tasks) * (size_t)(points))
#define VANPLAN_MOST_LISTS(tasks)                                                                                       \
    ((size_t)((tasks) < 2 ? 1 : (tasks) < 3 ? 2 : (tasks) < 4 ? 3 : (tasks) < 5 ? 6 : (tasks) < 6 ? 10                  \
              : (tasks) < 7 ? 20 : (tasks) < 8 ? 35 : (tasks) < 9 ? 70 : (tasks) < 10 ? 126 : (tasks) < 11 ? 252        \
              : (tasks) < 12 ? 462 : 924))

/* The refusals, by number. N is the number of tasks, P that of points, and B as above. */
enum vanplan_refusal {
    /* of a task sheet; 12 also where a plan is to have no task or more than 12, or more tasks than doors */
    VANPLAN_TOO_SHORT = 10,     /* shorter than 46 bytes */
    VANPLAN_WRONG_KIND = 11,    /* the kind is not 1 */
    VANPLAN_WRONG_ENTRIES = 12, /* a body has too few or too many entries, or not P times P distances */
    VANPLAN_WRONG_PLACES = 13,  /* a body number or offset is wrong, or the length is not the end of the last body */
    VANPLAN_OUT_OF_RANGE = 14,  /* a task, point, door or least count is out of range, or a watched bit at N or above is set */
    VANPLAN_NO_DOOR = 15,       /* some task has no door */
    VANPLAN_TOO_LIGHT = 16,     /* some list of tasks that the pairs allow to be open has a load below zero */
    VANPLAN_NO_ORDER = 17,      /* no order of the tasks keeps every pair */

    /* of the room for a plan, and for a price */
    VANPLAN_FEW_CELLS = 20,    /* fewer than 2^N times P work cells */
    VANPLAN_SHORT_BUFFER = 21, /* the buffer is shorter than 32 + 2 N bytes */
    VANPLAN_SHORT_LAYER = 22,  /* either layer has fewer than B times P cells */

    /* of a plan */
    VANPLAN_ILL_FORMED = 30,     /* the length, or a byte before 22, is not as laid out for N tasks */
    VANPLAN_NOT_IN_SHEET = 31,   /* the start or a door is not in the sheet */
    VANPLAN_DONE_TWICE = 32,     /* a task is done twice */
    VANPLAN_RECEIVER_FIRST = 33, /* a receiver is done before its sender */
    VANPLAN_WRONG_COST = 34      /* the stated cost is not the cost */
};

/* A task sheet is what has to be done in a round, and what it costs. It has seven bodies, one behind the other:
 *
 *     byte  holds                                                                        bytes each
 *     0     1: the kind of a task sheet                                                  2
 *     2     the end load, in kilograms: van and goods when all tasks are done            2
 *     4     for each body its number (1 to 7), the byte that it begins at, its entries   2
 *     46    body 1, and behind it bodies 2 to 7, with nothing between or behind them
 *
 *     body            entries     bytes of one  its fields, of 2 bytes, or 4 where it says so
 *     1 tasks         N, 1 to 12  2             the load change, signed: above 0 for a delivery, below 0 for a pick-up
 *     2 doors         1 to 64     10            the task, the point to arrive at, the point to leave from, the work (4)
 *     3 starts        1 to 16     2             the point
 *     4 pairs         0 to 32     4             the sender task, the receiver task
 *     5 access rules  0 to 32     10            the door, the watched tasks, the least count (1 to 12), the charge (4)
 *     6 points        P, 1 to 64  4             what it costs to end there (4)
 *     7 distances     P times P   2             the distance in decametres: row by row, from the row's point to the column's
 *
 * All numbers are little-endian and unsigned, but the load change, which is in two's complement. Tasks, doors, starts and
 * points are numbered from 0, as they stand in the sheet. Watched tasks are a number in which bit j stands for task j.
 * Work, charges, end costs and the cost of a round are in kilogram decametres; no sheet that reads has a cost of 2^40.
 *
 * A round begins at a start and does every task once, each through one of its doors, and the sender of each pair before
 * its receiver. A task is open until its door is done: at its own leg and its own door it still is. The leg to a door
 * goes from the point of the start, or the one that the door before was left from, to the point that the door is arrived at,
 * also where they are the same, and costs its distance times the load: the end load and the load changes of all open
 * tasks. A door costs its work, and the charge of each access rule on it of whose watched tasks at least the least count
 * are open. The point that the last door is left from costs its end cost.
 *
 * The pairs allow a list of tasks to be open if it has the receiver of each pair whose sender it has. These lists, and
 * no others, are open on the way of some round, so 16 is for them alone: no leg of a round has a load below zero.
 * Another list may have one, as the pick-up of a crate without its delivery, where the pick-up is the sender and the
 * delivery the receiver of a pair. */

/* Reads a task sheet, and tells how much there is to plan.
 *
 *     sheet, len  in   the bytes of the sheet
 *     tasks       out  the number of its tasks N, 1 to 12
 *     points      out  the number of its points P, 1 to 64
 *
 * Returns 0, or refuses the sheet with 10 to 17. */
uint32_t vanplan_read(const uint8_t *sheet, size_t len, uint64_t *tasks, uint64_t *points);

/* Plans a task sheet: finds its cheapest plan.
 *
 *     sheet, len     in      the bytes of the sheet
 *     cells, ncells  in out  work cells, VANPLAN_CELLS(N, P) or more
 *     buf, buf_len   in out  room for the plan, VANPLAN_PLAN_BYTES(N) bytes or more
 *     cost           out     the cost of the plan
 *
 * Returns 0, or refuses the sheet with 10 to 17 and the room with 20 and 21.
 * 0: the first 32 + 2 N bytes of buf are the cheapest plan. Of plans of equal cost it is the first by start number, then
 * by first door, second door and so on. The bytes of buf from there on are as they were.
 * A list of tasks is a number K below 2^N in which bit j stands for task j. For every list that the pairs allow to be
 * open, the empty list too, and for every point p, cells[K * P + p] is the cost to finish: the least that the rest of a
 * round costs where the van stands at p and the tasks of K are open. All other cells are as they were. Nothing of this
 * depends on what cells and buf held before. */
uint32_t vanplan_plan(const uint8_t *sheet, size_t len, uint64_t *cells, size_t ncells, uint8_t *buf, size_t buf_len,
                      uint64_t *cost);

/* Prices a task sheet: finds the cost and the start of its cheapest plan, without the plan. From three tasks on this takes
 * fewer cells than planning.
 *
 *     sheet, len   in      the bytes of the sheet
 *     even, neven  in out  the layer for lists of an even number of tasks, VANPLAN_LAYER_CELLS(N, P) cells or more
 *     odd, nodd    in out  the layer for lists of an odd number of tasks, as many cells or more
 *     cost         out     the cost of the plan that vanplan_plan writes
 *     start        out     the start of that plan
 *
 * Returns 0, or refuses the sheet with 10 to 17 and the layers with 22.
 * 0: the first P cells of one layer, of even if N is even and of odd if it is odd, are the cost to finish the whole round
 * from each point: what vanplan_plan leaves in cells[(2^N - 1) * P + p]. The cells of each layer from B times P on are as
 * they were. What all other cells hold is left open, since lists are written over those of two tasks fewer: cell i is as
 * it was, or the cost to finish from point i % P with some list open that the pairs allow, that the layer is for, and
 * that has i / P lists of its size below it. Nothing else depends on what the layers held before. */
uint32_t vanplan_price(const uint8_t *sheet, size_t len, uint64_t *even, size_t neven, uint64_t *odd, size_t nodd,
                       uint64_t *cost, uint16_t *start);

/* Tells where in the two layers vanplan_price leaves the cost to finish the whole round from each point.
 *
 *     sheet, len   in   the bytes of the sheet
 *     even, neven  in   the layers that it is priced in. Only the numbers of their cells count, so this may be asked
 *     odd, nodd    in   before pricing too
 *     layer        out  0 for the even layer, 1 for the odd one
 *     cells        out  P: the costs are the first P cells of that layer
 *
 * Returns 0, or the number that vanplan_price refuses this sheet and these layers with. */
uint32_t vanplan_price_row(const uint8_t *sheet, size_t len, const uint64_t *even, size_t neven, const uint64_t *odd,
                           size_t nodd, size_t *layer, size_t *cells);

/* Validates a plan, made by anyone, for a task sheet.
 *
 *     sheet, len      in   the bytes of the sheet
 *     plan, plan_len  in   the bytes of the plan
 *     cost            out  the cost of the plan, which is the one that it states; a wrong one is 34 and not corrected
 *
 * Returns 0, or refuses the sheet with 10 to 17 and the plan with 30 to 34.
 * 0: the plan does every task once, keeps every pair, and costs what it states. It may be dearer than need be. */
uint32_t vanplan_validate(const uint8_t *sheet, size_t len, const uint8_t *plan, size_t plan_len, uint64_t *cost);

/* A plan is a start, a door for each of n tasks in the order in which they are done, and a cost. It has 32 + 2 n bytes:
 *
 *     byte      holds                                   bytes each
 *     0         2, 0: the kind of a plan, and zero      2
 *     4         1, 22, 1: body 1 is at 22, 1 entry      2
 *     10        2, 24, n: body 2 is at 24, n entries    2
 *     16        3, 24 + 2 n, 1: body 3, 1 entry         2
 *     22        the start's number                      2
 *     24        the n doors' numbers                    2
 *     24 + 2 n  the cost                                8
 *
 * All numbers are unsigned and little-endian. */

/* Writes a plan as bytes. Its start, doors and cost may have any value.
 *
 *     n              in      the number of its tasks, 1 to 12
 *     start          in      its start
 *     doors, ndoors  in      its doors are the first n of these
 *     cost           in      its cost
 *     buf, buf_len   in out  room for the plan, VANPLAN_PLAN_BYTES(n) bytes or more
 *     written        out     32 + 2 n, the bytes that were written
 *
 * Returns 0, or 12 if n is not 1 to 12 or ndoors is below n, or 21 if there is too little room.
 * 0: the first 32 + 2 n bytes of buf are the plan, and those from there on are as they were. */
uint32_t vanplan_write_plan(size_t n, uint16_t start, const uint16_t *doors, size_t ndoors, uint64_t cost,
                            uint8_t *buf, size_t buf_len, size_t *written);

/* Reads the bytes of a plan, whatever its start, doors and cost are.
 *
 *     n              in   the number of tasks that it has to have, 1 to 12
 *     bytes, len     in   the bytes of the plan
 *     start          out  its start
 *     doors, ndoors  out  the first n are its doors and the others 0; VANPLAN_MAX_PLAN_DOORS are enough for any plan
 *     cost           out  the cost that it states
 *
 * Returns 0, or 12 if n is not 1 to 12 or ndoors is below n, or 30 if the bytes are no plan of n tasks. */
uint32_t vanplan_read_plan(size_t n, const uint8_t *bytes, size_t len, uint16_t *start, uint16_t *doors, size_t ndoors,
                           uint64_t *cost);

#ifdef __cplusplus
}
#endif

#endif
