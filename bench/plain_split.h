/* plain_split.h: the paper's RECOLOR: the nets of two crossbars are split by Euler circuits. */
#ifndef PLAIN_SPLIT_H
#define PLAIN_SPLIT_H

#include "job.h"

/* The two FPGAs of a net. */
struct plain_ends {
    uint16_t fpga[2];
};

/* The side of each of k nets, 0 for crossbar A and 1 for crossbar B; they stand until the next call. */
const uint8_t *plain_split(const struct job *job, const struct plain_ends *nets, unsigned k);

#endif
