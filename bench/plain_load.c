/* plain_load.c: counting the load table, and searching it. */
#include "plain_load.h"

#include <string.h>

void plain_count_loads(const struct job *job, const uint16_t *plan, uint16_t *load)
{
    memset(load, 0, (size_t)job->f * job->c * sizeof *load);
    for (unsigned net = 0; net < job->n; net++) {
        load[plain_end(job, net, 0) * job->c + plan[net]]++;
        load[plain_end(job, net, 1) * job->c + plan[net]]++;
    }
}

uint64_t plain_excess(const struct job *job, const uint16_t *load)
{
    uint64_t excess = 0;
    for (unsigned i = 0; i < job->f * job->c; i++)
        if (load[i] > job->width)
            excess += load[i] - job->width;
    return excess;
}

unsigned plain_crowded(const struct job *job, const uint16_t *row)
{
    unsigned x = 0;
    while (x < job->c && row[x] <= job->width)
        x++;
    return x;
}

unsigned plain_with_room(const struct job *job, const uint16_t *row)
{
    unsigned x = 0;
    while (x < job->c && row[x] >= job->width)
        x++;
    return x;
}

unsigned plain_lowest_over(const struct job *job, const uint16_t *load, unsigned from)
{
    unsigned v = from;
    while (v < job->f && plain_crowded(job, load + v * job->c) == job->c)
        v++;
    return v;
}
