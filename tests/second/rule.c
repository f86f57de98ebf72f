#include "rule.h"

#include <stdarg.h>
#include <stdio.h>

static struct loads old, new;

bool choose(const struct job *job, const struct loads *loads, struct choice *choice)
{
    for (unsigned fpga = 0; fpga < job->f; fpga++) {
        const unsigned *load = loads->load[fpga];
        unsigned a = 0, b = 0;
        while (a < job->c && load[a] <= job->width) a++;
        if (a == job->c) continue;
        /* No degree is above the limit, so some load is below the width. */
        while (b < job->c && load[b] >= job->width) b++;
        choice->fpga = fpga;
        choice->a = a;
        choice->b = b;
        return true;
    }
    return false;
}

static const char *fault(const char *format, ...)
{
    static char text[200];
    va_list arguments;
    va_start(arguments, format);
    vsnprintf(text, sizeof text, format, arguments);
    va_end(arguments);
    return text;
}

static bool on_a_or_b(const struct choice *choice, unsigned crossbar)
{
    return crossbar == choice->a || crossbar == choice->b;
}

static const char *fault_in_nets(const struct round *round)
{
    for (unsigned net = 0; net < round->job->n; net++) {
        unsigned from = round->before[net], to = round->after[net];
        bool stays = on_a_or_b(&round->choice, from) ? on_a_or_b(&round->choice, to) : to == from;
        if (!stays) return fault("net %u went from crossbar %u to %u", net, from, to);
    }
    return NULL;
}

static const char *fault_at_fpga(const struct round *round, unsigned fpga)
{
    unsigned a = round->choice.a, b = round->choice.b, m = round->job->width;
    unsigned s = old.load[fpga][a] + old.load[fpga][b];
    unsigned on_a = new.load[fpga][a], on_b = new.load[fpga][b];
    unsigned apart = on_a > on_b ? on_a - on_b : on_b - on_a;
    bool most = s > 2 * m || (on_a <= m && on_b <= m);
    bool least = s < 2 * m || (on_a >= m && on_b >= m);
    bool even = s % 2 == 1 ? apart == 1 : apart == 0 || apart == 2;
    if (most && least && even) return NULL;
    return fault("FPGA %u with %u nets on A and B and width %u has now %u on A and %u on B", fpga, s, m, on_a, on_b);
}

static const char *fault_in_totals(const struct round *round)
{
    unsigned on_a = new.total[round->choice.a], on_b = new.total[round->choice.b];
    if (on_a == on_b || on_a == on_b + 1) return NULL;
    return fault("the new totals are %u on A and %u on B", on_a, on_b);
}

/* What follows from the rule: no excess rises, their sum falls, the spread never widens. */
static const char *fault_in_progress(const struct round *round)
{
    const struct job *job = round->job;
    unsigned excess_before = total_excess(job, &old), excess_after = total_excess(job, &new);
    unsigned spread_before = spread(job, &old), spread_after = spread(job, &new);
    for (unsigned fpga = 0; fpga < job->f; fpga++)
        if (excess(job, &new, fpga) > excess(job, &old, fpga)) return fault("the excess of FPGA %u rises", fpga);
    if (excess_after >= excess_before) return fault("total excess goes from %u to %u", excess_before, excess_after);
    if (spread_after > spread_before) return fault("spread goes from %u to %u", spread_before, spread_after);
    return NULL;
}

const char *round_fault(const struct round *round)
{
    const char *why = fault_in_nets(round);
    if (why) return why;
    count_loads(round->job, round->before, &old);
    count_loads(round->job, round->after, &new);
    for (unsigned fpga = 0; fpga < round->job->f && !why; fpga++) why = fault_at_fpga(round, fpga);
    if (!why) why = fault_in_totals(round);
    if (!why) why = fault_in_progress(round);
    return why;
}

static unsigned group_of(const unsigned *parent, unsigned fpga)
{
    while (parent[fpga] != fpga) fpga = parent[fpga];
    return fpga;
}

unsigned odd_groups(const struct round *round)
{
    const struct job *job = round->job;
    unsigned parent[MOST_FPGAS], load[MOST_FPGAS] = {0}, nets[MOST_FPGAS] = {0}, count = 0;
    bool uneven[MOST_FPGAS] = {false};
    for (unsigned fpga = 0; fpga < job->f; fpga++) parent[fpga] = fpga;
    for (unsigned net = 0; net < job->n; net++) {
        unsigned x = net_end(job, net, 0), y = net_end(job, net, 1);
        if (!on_a_or_b(&round->choice, round->before[net])) continue;
        load[x]++;
        load[y]++;
        parent[group_of(parent, x)] = group_of(parent, y);
    }
    for (unsigned fpga = 0; fpga < job->f; fpga++) {
        nets[group_of(parent, fpga)] += load[fpga];
        if (load[fpga] % 2 == 1) uneven[group_of(parent, fpga)] = true;
    }
    /* Each net was counted at both its ends. */
    for (unsigned fpga = 0; fpga < job->f; fpga++) count += !uneven[fpga] && nets[fpga] / 2 % 2 == 1;
    return count;
}
