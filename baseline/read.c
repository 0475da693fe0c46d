/* vanplan_read in C by each way to look for a light list. */
#define NO_ORDER_INLINE ALWAYS_INLINE
#include "read.h"

#define READ(name, loads, essential)                                                                                   \
    read_call OWN(read_##name);                                                                                        \
    uint32_t OWN(read_##name)(const uint8_t *sheet, size_t len, uint64_t *tasks, uint64_t *points)                     \
    {                                                                                                                  \
        struct sheet s;                                                                                                \
        uint32_t refusal = read_by(OWN(light_##name), sheet, len, &s);                                                 \
                                                                                                                       \
        if (refusal)                                                                                                   \
            return refusal;                                                                                            \
        *tasks = s.ntasks;                                                                                             \
        *points = s.npoints;                                                                                           \
        return 0;                                                                                                      \
    }

EACH_LOOK(READ)
