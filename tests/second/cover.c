#include "cover.h"

#include <inttypes.h>
#include <stdio.h>

#include "calls.h"
#include "report.h"

enum { MOST_REFUSAL = 32, MANY_ROUNDS = 20, NET_LINE = 6 };

static unsigned long answers[CALL_COUNT + 1][MOST_REFUSAL + 1];
static unsigned long asked[CALL_COUNT + 1][MOST_REFUSAL + 1];

/* Texts that break and that stop short, by line, the nets' lines as one; that go on behind no net and behind some. */
static unsigned long breaks[NET_LINE + 1][2], goes_on[2];

static struct {
    unsigned long rounds, with_odd_group, with_odd_groups, newly_over;
    unsigned long chains, settled, many, full;
    uint64_t most_rounds, most_excess;
    unsigned least[4], most[4]; /* of f, c, m and n */
} seen;

/* By call, of boards with an odd m: planned with a degree at the limit, and refused with one above it. */
static unsigned long odd_at_limit[CALL_COUNT + 1], odd_above[CALL_COUNT + 1];

void cover_answer(unsigned call, unsigned refusal)
{
    answers[call][refusal]++;
}

void cover_asked(unsigned call, unsigned refusal)
{
    asked[call][refusal]++;
}

void cover_text(struct verdict verdict, bool stops_short)
{
    if (verdict.number == 31)
        breaks[verdict.p < NET_LINE ? verdict.p : NET_LINE][stops_short]++;
    else
        goes_on[verdict.p > NET_LINE]++;
}

/* Whether the round put a new pair over the width. */
static bool newly_over(const struct round *round)
{
    static struct loads before, after;
    const struct job *job = round->job;
    count_loads(job, round->before, &before);
    count_loads(job, round->after, &after);
    for (unsigned fpga = 0; fpga < job->f; fpga++)
        for (unsigned crossbar = 0; crossbar < job->c; crossbar++)
            if (before.load[fpga][crossbar] <= job->width && after.load[fpga][crossbar] > job->width) return true;
    return false;
}

void cover_round(const struct round *round)
{
    unsigned groups = odd_groups(round);
    seen.rounds++;
    seen.with_odd_group += groups == 1;
    seen.with_odd_groups += groups > 1;
    seen.newly_over += newly_over(round);
}

static bool is_full(const struct job *job)
{
    unsigned degrees[MOST_FPGAS];
    count_degrees(job, degrees);
    for (unsigned fpga = 0; fpga < job->f; fpga++)
        if (degrees[fpga] == job->width * job->c) return true;
    return false;
}

void cover_degrees(unsigned call, const struct job *job, unsigned refusal)
{
    if (job->m % 2 == 0) return;
    odd_at_limit[call] += refusal == 0 && is_full(job);
    odd_above[call] += refusal == 12;
}

static void cover_numbers(const struct job *job)
{
    const unsigned number[4] = {job->f, job->c, job->m, job->n};
    for (int i = 0; i < 4; i++) {
        if (seen.chains == 1 || number[i] < seen.least[i]) seen.least[i] = number[i];
        if (number[i] > seen.most[i]) seen.most[i] = number[i];
    }
}

void cover_chain(const struct job *job, uint64_t rounds, uint64_t excess)
{
    seen.chains++;
    seen.settled += rounds == 0;
    seen.many += rounds >= MANY_ROUNDS;
    seen.full += is_full(job);
    if (rounds > seen.most_rounds) seen.most_rounds = rounds;
    if (excess > seen.most_excess) seen.most_excess = excess;
    cover_numbers(job);
}

void cover_print(void)
{
    printf("covered, as call: done, and each refusal with how often it was due\n");
    for (unsigned call = 0; call <= CALL_COUNT; call++) {
        printf("  %-15s done %lu;", call_names[call], answers[call][0]);
        for (unsigned refusal = 1; refusal <= MOST_REFUSAL; refusal++)
            if (answers[call][refusal] > 0) printf(" %u: %lu", refusal, answers[call][refusal]);
        putchar('\n');
    }
    printf("  of FPGAs asked about: spare 9: %lu; headroom 9: %lu 10: %lu 27: %lu\n", asked[CALL_SPARE][9],
           asked[CALL_HEADROOM][9], asked[CALL_HEADROOM][10], asked[CALL_HEADROOM][27]);
    printf("  texts that break, and that stop short, in lines 1 to 5 and in a net's:");
    for (unsigned line = 1; line <= NET_LINE; line++) printf(" %lu, %lu;", breaks[line][0], breaks[line][1]);
    printf(" that go on behind no net %lu, behind some %lu\n", goes_on[0], goes_on[1]);
    printf("  rounds %lu: with one odd group %lu, with more %lu, with a new pair over the width %lu\n", seen.rounds,
           seen.with_odd_group, seen.with_odd_groups, seen.newly_over);
    printf("  chains %lu: settled at once %lu, of %d rounds or more %lu, with a degree at the limit %lu\n", seen.chains,
           seen.settled, MANY_ROUNDS, seen.many, seen.full);
    printf("  of their jobs: f %u to %u, c %u to %u, m %u to %u, n %u to %u\n", seen.least[0], seen.most[0],
           seen.least[1], seen.most[1], seen.least[2], seen.most[2], seen.least[3], seen.most[3]);
    printf("  odd m: at the limit planned %lu, listed %lu; above it refused %lu, listed %lu\n", odd_at_limit[CALL_PLAN],
           odd_at_limit[CALL_LISTING], odd_above[CALL_PLAN], odd_above[CALL_LISTING]);
    printf("  longest chain %" PRIu64 " rounds, largest starting excess %" PRIu64 "\n", seen.most_rounds,
           seen.most_excess);
}

/* The refusals that documents 01 and 02 name for each call; of calls that only read, those of the job. */
static bool is_due(unsigned call, unsigned refusal)
{
    bool job = (refusal >= 1 && refusal <= 10) || refusal == 27, sheet = refusal >= 21 && refusal <= 26;
    switch (call) {
    case CALL_WRITE_JOB: return (job && refusal > 2 && refusal != 8) || refusal == 11;
    case CALL_READ_TEXT: return (job && refusal > 2 && refusal != 8) || refusal == 11 || refusal == 31 || refusal == 32;
    case CALL_WRITE_TEXT: return job || refusal == 11;
    case CALL_ONE_ROUND:
    case CALL_FINISH: return job || (refusal >= 11 && refusal <= 13);
    case CALL_PLAN: return job || refusal == 11 || refusal == 12;
    case CALL_WRITE_SHEET: return job || refusal == 11 || refusal == 13 || refusal == 24 || refusal == 25;
    case CALL_READ_SHEET: return job || sheet || refusal == 11;
    case CALL_AUDIT:
    case CALL_EVIDENCE: return job || sheet;
    case CALL_SPARE:
    case CALL_HEADROOM:
    case CALL_LISTING: return job || refusal == 12;
    default: return job;
    }
}

static void demand(bool occurred, const char *what)
{
    if (!occurred) report_failure("never covered: %s", what);
}

void cover_demand(bool with_listing)
{
    static const unsigned least[4] = {1, 1, 2, 0}, most[4] = {MOST_FPGAS, MOST_CROSSBARS, MOST_WIRES, MOST_NETS};
    for (unsigned call = 0; call <= CALL_COUNT; call++) {
        if (call == CALL_LISTING && !with_listing) continue;
        if (answers[call][0] == 0) report_failure("never covered: %s done", call_names[call]);
        for (unsigned refusal = 1; refusal <= MOST_REFUSAL; refusal++)
            if (is_due(call, refusal) && answers[call][refusal] == 0)
                report_failure("never covered: %s with refusal %u", call_names[call], refusal);
    }
    demand(asked[CALL_SPARE][9] > 0, "spare of an FPGA that the board has not");
    demand(asked[CALL_HEADROOM][9] > 0 && asked[CALL_HEADROOM][27] > 0 && asked[CALL_HEADROOM][10] > 0,
           "headroom of a first and of a second FPGA that the board has not, and of one twice");
    for (unsigned line = 1; line <= NET_LINE; line++)
        demand(breaks[line][0] > 0 && breaks[line][1] > 0, "a text that breaks, and one that stops short, in each line");
    demand(goes_on[0] > 0 && goes_on[1] > 0, "text behind no net and behind some");
    demand(seen.settled > 0, "a chain of no rounds");
    demand(seen.rounds > 0, "a round that moves nets");
    demand(seen.many > 0, "a chain of many rounds");
    demand(seen.with_odd_group > 0, "a round with an odd group");
    demand(seen.with_odd_groups > 0, "a round with several odd groups");
    demand(seen.newly_over > 0, "a round with a new pair over the width");
    demand(seen.full > 0, "a degree at the limit");
    demand(odd_at_limit[CALL_PLAN] > 0 && odd_above[CALL_PLAN] > 0, "a plan for odd m, at and above the limit");
    demand(!with_listing || (odd_at_limit[CALL_LISTING] > 0 && odd_above[CALL_LISTING] > 0),
           "a listing for odd m, at and above the limit");
    for (int i = 0; i < 4; i++)
        demand(seen.least[i] == least[i] && seen.most[i] == most[i], "the smallest and largest of f, c, m and n");
}
