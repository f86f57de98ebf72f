#include "board.h"

#include <string.h>

void count_degrees(const struct job *job, unsigned degrees[MOST_FPGAS])
{
    memset(degrees, 0, MOST_FPGAS * sizeof *degrees);
    for (unsigned net = 0; net < job->n; net++)
        for (unsigned end = 0; end < 2; end++) degrees[net_end(job, net, end)]++;
}

struct verdict check_degrees(const struct job *job)
{
    unsigned degrees[MOST_FPGAS];
    count_degrees(job, degrees);
    for (unsigned fpga = 0; fpga < job->f; fpga++)
        if (degrees[fpga] > job->width * job->c) return refuse(12, fpga, 0);
    return done;
}

struct verdict check_assignment(const struct job *job, const uint16_t *plan)
{
    for (unsigned net = 0; net < job->n; net++)
        if (plan[net] >= job->c) return refuse(13, net, 0);
    return done;
}

void deal(const struct job *job, uint16_t *plan)
{
    for (unsigned net = 0; net < job->n; net++) plan[net] = (uint16_t)(net % job->c);
}

void count_loads(const struct job *job, const uint16_t *plan, struct loads *loads)
{
    memset(loads->total, 0, sizeof loads->total);
    memset(loads->load, 0, job->f * sizeof *loads->load);
    for (unsigned net = 0; net < job->n; net++) {
        loads->total[plan[net]]++;
        for (unsigned end = 0; end < 2; end++) loads->load[net_end(job, net, end)][plan[net]]++;
    }
}

unsigned excess(const struct job *job, const struct loads *loads, unsigned fpga)
{
    unsigned sum = 0;
    for (unsigned crossbar = 0; crossbar < job->c; crossbar++)
        if (loads->load[fpga][crossbar] > job->width) sum += loads->load[fpga][crossbar] - job->width;
    return sum;
}

unsigned total_excess(const struct job *job, const struct loads *loads)
{
    unsigned sum = 0;
    for (unsigned fpga = 0; fpga < job->f; fpga++) sum += excess(job, loads, fpga);
    return sum;
}

unsigned greatest_total(const struct job *job, const struct loads *loads)
{
    unsigned greatest = 0;
    for (unsigned crossbar = 0; crossbar < job->c; crossbar++)
        if (loads->total[crossbar] > greatest) greatest = loads->total[crossbar];
    return greatest;
}

unsigned spread(const struct job *job, const struct loads *loads)
{
    unsigned greatest = greatest_total(job, loads), least = greatest;
    for (unsigned crossbar = 0; crossbar < job->c; crossbar++)
        if (loads->total[crossbar] < least) least = loads->total[crossbar];
    return greatest - least;
}
