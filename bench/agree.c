/* agree.c: results are held against the rule and the counts of tests/second, which the rounds of neither side use. */
#include "agree.h"

#include <hogvuldur.h>
#include <stdio.h>
#include <stdlib.h>
#include <string.h>

#include "rule.h"
#include "sides.h"

static struct file file;
static struct job job;

static void expect(bool right, const struct side *side, const char *what)
{
    if (right)
        return;
    fprintf(stderr, "wrong: %s: %s (f %u, c %u, m %u, n %u)\n", side->name, what, job.f, job.c, job.m, job.n);
    exit(1);
}

static void make(const struct side *side, side_call *call, uint16_t *plan, uint64_t answer[4])
{
    static uint16_t scratch[HOGVULDUR_SCRATCH];
    uint16_t number = call(file.bytes, file.length, plan, MOST_NETS, scratch, HOGVULDUR_SCRATCH, answer);
    expect(number == HOGVULDUR_DONE, side, "a call is refused");
}

static void check_plan(const struct side *side)
{
    static struct loads loads;
    static uint16_t plan[MOST_NETS];
    uint64_t answer[4];
    deal(&job, plan);
    count_loads(&job, plan, &loads);
    uint64_t start = total_excess(&job, &loads);
    make(side, side->plan, plan, answer);
    expect(answer[1] == start, side, "the starting excess is not the deal's");
    expect(check_assignment(&job, plan).number == 0, side, "a plan names a crossbar that is not there");
    count_loads(&job, plan, &loads);
    expect(total_excess(&job, &loads) == 0, side, "a plan is not legal");
    expect(spread(&job, &loads) <= 1, side, "a plan is not balanced");
}

/* Says if the rule asks for a round. */
static bool check_round(const struct side *side, const uint16_t *before, uint16_t *after)
{
    static struct loads loads;
    struct round round = {&job, {0, 0, 0}, before, after};
    uint64_t answer[4];
    memcpy(after, before, job.n * sizeof *after);
    make(side, side->one_round, after, answer);
    count_loads(&job, before, &loads);
    bool moves = choose(&job, &loads, &round.choice);
    const uint64_t right[4] = {moves, round.choice.fpga, round.choice.a, round.choice.b};
    expect(memcmp(answer, right, sizeof right) == 0, side, "a round is made on something else");
    if (moves) {
        const char *fault = round_fault(&round);
        expect(fault == NULL, side, fault);
    } else {
        expect(memcmp(before, after, job.n * sizeof *after) == 0, side, "a settled assignment is changed");
    }
    return moves;
}

/* From the deal until settled, with the results of the two sides in turn. */
static void check_rounds(void)
{
    static uint16_t before[MOST_NETS], after[SIDES][MOST_NETS];
    bool moves = true;
    deal(&job, before);
    for (unsigned made = 0; moves; made++) {
        for (unsigned s = 0; s < SIDES; s++)
            moves = check_round(&sides[s], before, after[s]);
        memcpy(before, after[made % SIDES], sizeof before);
    }
}

void agree_on_board(const struct board *board)
{
    file = board_job(board);
    read_job(file, &job);
    for (unsigned s = 0; s < SIDES; s++)
        check_plan(&sides[s]);
    check_rounds();
}
