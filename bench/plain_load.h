/* plain_load.h: the load table in plain C: f rows, one for each FPGA, of c loads, one for each crossbar. */
#ifndef PLAIN_LOAD_H
#define PLAIN_LOAD_H

#include "job.h"

/* As net_end of job.h, but inline: every walk over the nets needs it. */
static inline unsigned plain_end(const struct job *job, unsigned net, unsigned end)
{
    const uint8_t *at = job->nets + 4 * net + 2 * end;
    return (unsigned)at[0] << 8 | at[1];
}

/* Fills the table from nothing. */
void plain_count_loads(const struct job *job, const uint16_t *plan, uint16_t *load);

/* The total excess. */
uint64_t plain_excess(const struct job *job, const uint16_t *load);

/* The lowest FPGA at or above `from` with a load above m; f if there is none. */
unsigned plain_lowest_over(const struct job *job, const uint16_t *load, unsigned from);

/* The lowest crossbar in an FPGA's row with a load above m, or below m; c if there is none. */
unsigned plain_crowded(const struct job *job, const uint16_t *row);
unsigned plain_with_room(const struct job *job, const uint16_t *row);

#endif
