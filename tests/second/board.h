/* What document 01 counts on a board: degree, load, total, spread, excess. */
#ifndef BOARD_H
#define BOARD_H

#include <stdbool.h>

#include "job.h"

/* An assignment counted: the loads of all pairs and the totals of all crossbars. */
struct loads {
    unsigned load[MOST_FPGAS][MOST_CROSSBARS];
    unsigned total[MOST_CROSSBARS];
};

void count_degrees(const struct job *job, unsigned degrees[MOST_FPGAS]);

/* Refusal 12. */
struct verdict check_degrees(const struct job *job);

/* Refusal 13. */
struct verdict check_assignment(const struct job *job, const uint16_t *plan);

/* The deal: net i starts on crossbar i mod c. */
void deal(const struct job *job, uint16_t *plan);

void count_loads(const struct job *job, const uint16_t *plan, struct loads *loads);
unsigned excess(const struct job *job, const struct loads *loads, unsigned fpga);
unsigned total_excess(const struct job *job, const struct loads *loads);
unsigned greatest_total(const struct job *job, const struct loads *loads);
unsigned spread(const struct job *job, const struct loads *loads);

#endif
