/*
 * plain.h: the paper's own algorithm in plain C, the competitor of the benchmark.
 *
 * Both calls take the same memory as the library's and give the same kind of answer (see include/hogvuldur.h). What is
 * refused is found by the checks of tests/second and told by its number alone. The load table is kept in the lent
 * scratch and the rest in static memory, so calls must not run at the same time.
 */
#ifndef PLAIN_H
#define PLAIN_H

#include "sides.h"

side_call plain_plan, plain_one_round;

#endif
