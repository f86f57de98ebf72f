/* Random numbers: the same stream for the same seed and board, on every machine. */
#ifndef CHANCE_H
#define CHANCE_H

#include <stdbool.h>
#include <stddef.h>
#include <stdint.h>

void chance_start(uint64_t seed, uint64_t board);

/* A number below `limit`, which is not 0. */
unsigned chance_below(unsigned limit);

/* A number from `least` to `most`. */
unsigned chance_between(unsigned least, unsigned most);

bool chance_one_in(unsigned times);

/* One of the numbers given. */
unsigned chance_of(const unsigned *numbers, size_t count);

#endif
