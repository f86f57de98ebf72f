/* measure.h: how long each call takes on each side. */
#ifndef MEASURE_H
#define MEASURE_H

#include "boards.h"
#include "sides.h"

/* A load check is one round on a plan: it counts all loads and finds none above m. */
enum call { PLAN, ONE_ROUND, LOAD_CHECK, CALLS };

struct measured {
    uint64_t least[CALLS][SIDES];  /* nanoseconds of the shortest run so far; 0 before the first */
    uint64_t rounds[CALLS][SIDES]; /* that the call made */
    uint64_t excess;               /* of the deal */
};

/* The shortest time between two looks at the clock, which is part of every time measured. */
uint64_t clock_cost(void);

/* Runs every call of both sides in turn, several times, and keeps the shortest. */
void measure(const struct board *board, struct measured *measured);

#endif
