/* sides.c: the library and the plain implementation. */
#include "sides.h"

#include <hogvuldur.h>

#include "plain.h"

const struct side sides[SIDES] = {
    {"library", hogvuldur_plan, hogvuldur_one_round},
    {"plain C", plain_plan, plain_one_round},
};
