/* The calls of vanplan in C: what ./bench holds the proved library against.
 *
 * Every source here but builds.c is compiled by each compiler for each target, with PREFIX the name of that build. A
 * build hands out its calls in a struct, so that all builds stand side by side in one program. */
#ifndef BASELINE_H
#define BASELINE_H

#include <stddef.h>
#include <stdint.h>

/* As the calls of include/vanplan.h: 0, or the number of a refusal with nothing written. */
typedef uint32_t read_call(const uint8_t *sheet, size_t len, uint64_t *tasks, uint64_t *points);
typedef uint32_t validate_call(const uint8_t *sheet, size_t len, const uint8_t *plan, size_t plan_len, uint64_t *cost);
typedef uint32_t plan_call(const uint8_t *sheet, size_t len, uint64_t *cells, size_t ncells, uint8_t *plan,
                           size_t plan_len, uint64_t *cost);
typedef uint32_t price_call(const uint8_t *sheet, size_t len, uint64_t *even, size_t neven, uint64_t *odd, size_t nodd,
                            uint64_t *cost, uint16_t *start);

/* One way to read. */
struct look {
    const char *loads, *essential;
    read_call *read;
};

/* One way to plan and to price. */
struct way {
    const char *gathering, *points;
    plan_call *plan;
    price_call *price;
};

enum { LOOKS = 2, WAYS = 9 };

struct build {
    const char *compiler, *version, *target;
    struct look looks[LOOKS];
    validate_call *validate;
    plan_call *triple_loop;
    struct way ways[WAYS];
};

#define JOIN_AS_IS(prefix, name) prefix##_##name
#define JOIN(prefix, name) JOIN_AS_IS(prefix, name)
#define OWN(name) JOIN(PREFIX, name)

#define ALWAYS_INLINE static inline __attribute__((always_inline))

#endif
