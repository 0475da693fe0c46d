/* 16, where the lightest list of all is below zero: whether some essential list is. Each way to look for one has its
 * name, and what it is called in the tables: how it gets the load of a list, and how it knows an essential one. */
#ifndef LIGHT_H
#define LIGHT_H

#include "sheet.h"

#define EACH_LOOK(LOOK)                                                                                                \
    LOOK(one_by_one, "sums", "pairs")                                                                                  \
    LOOK(by_halves, "halves", "masks")

typedef int light_call(const struct sheet *s);

#define DECLARE_LIGHT(name, ...) extern light_call OWN(light_##name);

EACH_LOOK(DECLARE_LIGHT)

#endif
