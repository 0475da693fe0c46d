/* vanplan_plan in C by each way to gather and to take the least, and this build's table of calls. */
#include "planning.h"
#include "table.h"
#include "ways.h"

#define PLAN(name, gathering, points, gather, row_of, columns)                                                         \
    static void fill_##name(const struct sheet *s, uint64_t *cells)                                                    \
    {                                                                                                                  \
        fill_by(gather, row_of, columns, s, cells);                                                                    \
    }                                                                                                                  \
    static uint32_t plan_##name(const uint8_t *sheet, size_t len, uint64_t *cells, size_t ncells, uint8_t *plan,       \
                                size_t plan_len, uint64_t *cost)                                                       \
    {                                                                                                                  \
        return plan_by(fill_##name, sheet, len, cells, ncells, plan, plan_len, cost);                                  \
    }

EACH_WAY(PLAN)

#define DECLARE_PRICE(name, ...) extern price_call OWN(price_##name);

EACH_WAY(DECLARE_PRICE)

#define DECLARE_READ(name, ...) extern read_call OWN(read_##name);

EACH_LOOK(DECLARE_READ)

extern validate_call OWN(validate);
extern plan_call OWN(triple_loop);
extern const struct build OWN(build);

#ifdef __clang__
#define COMPILER "clang"
#else
#define COMPILER "gcc"
#endif

#define READ_CALL(name, loads, essential) {loads, essential, OWN(read_##name)},
#define CALLS(name, gathering, points, ...) {gathering, points, plan_##name, OWN(price_##name)},

const struct build OWN(build) = {
    COMPILER, __VERSION__, TARGET, {EACH_LOOK(READ_CALL)}, OWN(validate), OWN(triple_loop), {EACH_WAY(CALLS)},
};
