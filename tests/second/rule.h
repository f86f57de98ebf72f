/* One round by the rule of document 01: what a round must choose, and whether its result keeps the rule. */
#ifndef RULE_H
#define RULE_H

#include "board.h"

struct choice {
    unsigned fpga, a, b;
};

/* The FPGA and the crossbars A and B that a round takes; false when the assignment is legal. */
bool choose(const struct job *job, const struct loads *loads, struct choice *choice);

/* A round from one assignment to the next. */
struct round {
    const struct job *job;
    struct choice choice;
    const uint16_t *before, *after;
};

/* Null when the round keeps the rule, otherwise a text that says where it does not. */
const char *round_fault(const struct round *round);

/* Connected groups of nets on A and B with all loads even and an odd number of nets. */
unsigned odd_groups(const struct round *round);

#endif
