#include "nets.h"

#include <string.h>

#include "cases.h"
#include "chain.h"
#include "chance.h"
#include "text.h"
#include "typed.h"

static uint16_t numbers[MOST_NETS];

/* Some calls that look at the job in different ways. */
static void some_calls(struct file job, unsigned n)
{
    struct list plan = {numbers, n};
    case_check(job);
    case_numbers(job);
    case_evidence(job, job);
    case_spare(job, 0);
    case_plan(job, plan, LEAST_SCRATCH);
}

/* Makes a net faulty, for 9, 27 or 10, and now and then leaves it as it is. */
static void spoil(uint16_t *ends, unsigned f)
{
    const unsigned outside[] = {f, f + 1, 255, 256, 65535};
    unsigned end = chance_below(2);
    switch (chance_below(5)) {
    case 0:
    case 1: ends[end] = (uint16_t)chance_of(outside, 5); break;
    case 2: ends[0] = ends[1] = (uint16_t)chance_of(outside, 5); break;
    case 3: ends[end] = ends[1 - end]; break;
    default: break;
    }
}

void faulty_nets(struct made *board)
{
    unsigned n = board->number[3], f = board->number[0];
    if (n == 0) return;
    const unsigned places[] = {0, n - 1, chance_below(n), chance_below(n)};
    struct list ends = {board->ends, 2 * (size_t)n};
    memset(numbers, 0, sizeof numbers);
    for (size_t i = 0; i < sizeof places / sizeof *places; i++) {
        /* Two nets at once, of which the first is to be named. */
        unsigned one = places[i], other = chance_below(n);
        uint16_t kept[4] = {ends.numbers[2 * one], ends.numbers[2 * one + 1], ends.numbers[2 * other],
                            ends.numbers[2 * other + 1]};
        spoil(&ends.numbers[2 * one], f);
        if (chance_one_in(3)) spoil(&ends.numbers[2 * other], f);
        case_write_job(board->number, ends, job_size(n));
        case_read_text(text_of(board->number, board->ends), job_size(n));
        some_calls(made_job(board), n);
        ends.numbers[2 * other] = kept[2];
        ends.numbers[2 * other + 1] = kept[3];
        ends.numbers[2 * one] = kept[0];
        ends.numbers[2 * one + 1] = kept[1];
    }
}

void wrong_lengths(struct made *board)
{
    struct file job = made_job(board);
    for (size_t off = 0; off <= 10; off++) {
        struct file wrong = {job.bytes, job.length + off - 5};
        case_check(wrong);
        case_net(wrong, 0);
    }
}
