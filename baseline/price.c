/* vanplan_price in C by each way to gather and to take the least. */
#include "layers.h"
#include "read.h"
#include "ways.h"

/* Fills the two layers, so that the one of the number of tasks begins with the row of the full list. */
typedef void fill_layers_call(const struct sheet *s, uint64_t *even, uint64_t *odd);

/* vanplan_price, by a way to fill the layers. */
ALWAYS_INLINE uint32_t price_by(fill_layers_call *fill, const uint8_t *sheet, size_t len, uint64_t *even, size_t neven,
                                uint64_t *odd, size_t nodd, uint64_t *cost, uint16_t *start)
{
    struct sheet s;
    uint32_t refusal = read_sheet(sheet, len, &s), best;
    const uint64_t *row;
    size_t needed;

    if (refusal)
        return refusal;
    needed = (size_t)most_lists(s.ntasks) * s.npoints;
    if (neven < needed || nodd < needed)
        return 22;
    fill(&s, even, odd);
    row = s.ntasks % 2 ? odd : even;
    best = first_start(&s, row);
    *cost = row[start_point(&s, best)];
    *start = (uint16_t)best;
    return 0;
}

#define PRICE(name, gathering, points, gather, row_of, columns)                                                        \
    static void fill_##name(const struct sheet *s, uint64_t *even, uint64_t *odd)                                      \
    {                                                                                                                  \
        fill_layers_by(gather, row_of, columns, s, even, odd);                                                         \
    }                                                                                                                  \
    price_call OWN(price_##name);                                                                                      \
    uint32_t OWN(price_##name)(const uint8_t *sheet, size_t len, uint64_t *even, size_t neven, uint64_t *odd,          \
                               size_t nodd, uint64_t *cost, uint16_t *start)                                           \
    {                                                                                                                  \
        return price_by(fill_##name, sheet, len, even, neven, odd, nodd, cost, start);                                 \
    }

EACH_WAY(PRICE)
