/* The ways to look for an essential list with a load below zero. */
#include "light.h"

/* In the shape that the goal names: the lists one by one in increasing order, the load of each summed over its tasks,
 * and then the pairs one by one. */

/* So many pairs stand in line without a loop. */
enum { IN_A_ROW = 8 };

/* What each list is held against: the changes of the tasks, 0 for those that the sheet has not; and of each pair its
 * sender, and both, as lists, with pairs that no list breaks behind them to fill the last row. */
struct against {
    int32_t change[MAX_TASKS];
    struct {
        uint32_t sender, both;
    } pair[MAX_PAIRS];
};

static inline void prepare(const struct sheet *s, struct against *a)
{
    memset(a->change, 0, sizeof a->change);
    for (size_t t = 0; t < s->ntasks; t++)
        a->change[t] = load_change(s, t);
    for (size_t i = 0; i < s->npairs; i++) {
        const uint8_t *pair = s->pairs + i * PAIR_BYTES;
        a->pair[i].sender = 1u << u16_at(pair);
        a->pair[i].both = a->pair[i].sender | 1u << u16_at(pair + 2);
    }
    for (size_t i = s->npairs; i % IN_A_ROW; i++) {
        a->pair[i].sender = 1;
        a->pair[i].both = 0;
    }
}

static inline int32_t changes_of(const struct against *a, uint32_t list)
{
    int32_t sum = 0;

    for (size_t t = 0; t < MAX_TASKS; t++)
        sum += list & 1u << t ? a->change[t] : 0;
    return sum;
}

/* Up to the first pair whose sender is in the list without its receiver. */
static inline int keeps(const struct against *a, size_t npairs, uint32_t list)
{
    for (size_t i = 0; i < npairs; i += IN_A_ROW)
        for (size_t j = i; j < i + IN_A_ROW; j++)
            if ((list & a->pair[j].both) == a->pair[j].sender)
                return 0;
    return 1;
}

int OWN(light_one_by_one)(const struct sheet *s)
{
    struct against a;
    int32_t end_load = (int32_t)s->end_load;
    uint32_t full = full_list(s), npairs = s->npairs;

    prepare(s, &a);
    for (uint32_t list = 1; list <= full; list++)
        if (end_load + changes_of(&a, list) < 0 && keeps(&a, npairs, list))
            return 1;
    return 0;
}

/* In the fastest shape: load and receivers of a list are put together from two halves, those of its tasks below 6 and
 * of its other tasks. */

enum { HALF_TASKS = 6, HALF_LISTS = 1 << HALF_TASKS };

struct halves {
    int32_t load[HALF_LISTS];
    uint32_t receivers[HALF_LISTS];
};

/* The half of the tasks from the lowest on; each task doubles the lists. One that the sheet has not changes nothing. */
static inline void prepare_halves(const struct sheet *s, size_t lowest, struct halves *h)
{
    h->load[0] = 0;
    h->receivers[0] = 0;
    for (size_t t = 0, lists = 1; t < HALF_TASKS; t++, lists *= 2) {
        int32_t change = lowest + t < s->ntasks ? load_change(s, lowest + t) : 0;
        uint32_t receivers = s->receivers[lowest + t];
        for (size_t i = 0; i < lists; i++) {
            h->load[lists + i] = h->load[i] + change;
            h->receivers[lists + i] = h->receivers[i] | receivers;
        }
    }
}

/* Whether some list with this upper half has a load below zero and all receivers of its tasks, without a branch. */
static inline int light_with(const struct halves *low, int32_t load, uint32_t receivers, uint32_t upper)
{
    uint32_t found = 0;

    for (uint32_t i = 0; i < HALF_LISTS; i++)
        found |= (uint32_t)(low->load[i] + load < 0) & (((low->receivers[i] | receivers) & ~(upper | i)) == 0);
    return found != 0;
}

/* An upper half that lacks a receiver in that half is in no essential list. */
int OWN(light_by_halves)(const struct sheet *s)
{
    struct halves low, high;

    prepare_halves(s, 0, &low);
    prepare_halves(s, HALF_TASKS, &high);
    for (uint32_t i = 0; i <= full_list(s) / HALF_LISTS; i++) {
        uint32_t upper = i * HALF_LISTS, lacking = high.receivers[i] & ~upper;
        if (lacking < HALF_LISTS && light_with(&low, (int32_t)s->end_load + high.load[i], high.receivers[i], upper))
            return 1;
    }
    return 0;
}
