#include "chain.h"

#include <string.h>

#include "cover.h"
#include "hold.h"
#include "report.h"
#include "rule.h"
#include "sheet.h"

/* The longest assignment buffer lent: some numbers more than there can be nets. */
enum { MOST_PLAN = MOST_NETS + 64 };

/* A chain of rounds: how many, the excess at its start, the assignment at its end. */
struct chain {
    bool whole;
    uint64_t rounds, excess;
    uint16_t numbers[MOST_PLAN];
};

static struct chain chain;

uint64_t last_rounds(void)
{
    return chain.rounds;
}

uint64_t last_excess(void)
{
    return chain.excess;
}

/* Refusals 1 to 12. */
static struct verdict check_plan(struct file file, struct list plan, size_t scratch_length, struct job *job)
{
    struct verdict verdict = read_job(file, job);
    if (verdict.number != 0) return verdict;
    if (plan.length < job->n || scratch_length < LEAST_SCRATCH) return refuse(11, 0, 0);
    return check_degrees(job);
}

/* Refusals 1 to 13. */
static struct verdict check_start(struct file file, struct list plan, size_t scratch_length, struct job *job)
{
    struct verdict verdict = check_plan(file, plan, scratch_length, job);
    return verdict.number != 0 ? verdict : check_assignment(job, plan.numbers);
}

static struct call round_call(enum call_name name, struct file file, struct list plan, size_t scratch_length)
{
    struct call call = call_on(name, file);
    lend_list(&call, LENT_PLAN, plan);
    lend_room(&call, LENT_SCRATCH, scratch_length);
    return call;
}

static struct expected expect_scratch_cleared(struct expected expected)
{
    expected.front[LENT_SCRATCH].size = 2 * (size_t)LEAST_SCRATCH;
    return expected;
}

static void list_from_memory(uint16_t *numbers, const uint8_t *memory, size_t length)
{
    for (size_t i = 0; i < length; i++) numbers[i] = (uint16_t)(memory[2 * i] | memory[2 * i + 1] << 8);
}

/* A round on an assignment that is not legal. The result replaces the numbers of the list. */
static enum outcome case_moving(const struct call *call, const struct job *job, struct choice choice, struct list plan)
{
    uint16_t before[MOST_NETS];
    struct round round = {job, choice, before, plan.numbers};
    struct expected expected = expect_scratch_cleared(expect_answer(1, choice.fpga, choice.a, choice.b));
    expected.front[LENT_PLAN].size = 2 * (size_t)job->n;
    expected.front[LENT_PLAN].free = true;
    memcpy(before, plan.numbers, job->n * sizeof *before);
    list_from_memory(plan.numbers, hold(call, &expected)->after[LENT_PLAN], job->n);
    const char *fault = round_fault(&round);
    if (fault) report_fault("the round breaks the rule: %s", fault);
    if (case_failed()) return FAULTY;
    cover_round(&round);
    return MOVED;
}

enum outcome case_one_round(struct file file, struct list plan, size_t scratch_length)
{
    static struct loads loads;
    struct job job;
    struct choice choice;
    struct call call = round_call(CALL_ONE_ROUND, file, plan, scratch_length);
    struct verdict verdict = check_start(file, plan, scratch_length, &job);
    struct expected expected = expect_refusal(verdict);
    if (verdict.number != 0) {
        hold(&call, &expected);
        return REFUSED;
    }
    count_loads(&job, plan.numbers, &loads);
    if (choose(&job, &loads, &choice)) return case_moving(&call, &job, choice, plan);
    expected = expect_scratch_cleared(expected);
    hold(&call, &expected);
    return case_failed() ? FAULTY : SETTLED;
}

/* Rounds from an assignment until it is legal. The excess falls in every round, so this ends. */
static void follow(struct file file, struct list start, size_t scratch_length)
{
    static struct loads loads;
    struct job job;
    struct list plan = {chain.numbers, start.length};
    enum outcome outcome;
    memset(&chain, 0, sizeof chain);
    memcpy(chain.numbers, start.numbers, start.length * sizeof *start.numbers);
    while ((outcome = case_one_round(file, plan, scratch_length)) == MOVED) chain.rounds++;
    chain.whole = outcome == SETTLED;
    if (!chain.whole) return;
    read_job(file, &job);
    count_loads(&job, start.numbers, &loads);
    chain.excess = total_excess(&job, &loads);
    cover_chain(&job, chain.rounds, chain.excess);
}

/* Finish and plan make the very rounds of the one-round call, so count and assignment are those of the chain. */
static bool hold_against_chain(const struct call *call, struct list plan, size_t nets)
{
    static uint8_t memory[2 * MOST_NETS];
    struct expected expected = expect_scratch_cleared(expect_answer(chain.rounds, chain.excess, 0, 0));
    for (size_t i = 0; i < nets; i++) {
        memory[2 * i] = (uint8_t)chain.numbers[i];
        memory[2 * i + 1] = (uint8_t)(chain.numbers[i] >> 8);
    }
    expected.front[LENT_PLAN].size = 2 * nets;
    expected.front[LENT_PLAN].bytes = memory;
    hold(call, &expected);
    memcpy(plan.numbers, chain.numbers, nets * sizeof *plan.numbers);
    return !case_failed();
}

static bool hold_refused(const struct call *call, struct verdict verdict)
{
    struct expected expected = expect_refusal(verdict);
    hold(call, &expected);
    return false;
}

bool case_rounds(struct file file, struct list plan, size_t scratch_length)
{
    struct job job;
    struct verdict verdict = check_start(file, plan, scratch_length, &job);
    follow(file, plan, scratch_length);
    struct call call = round_call(CALL_FINISH, file, plan, scratch_length);
    if (verdict.number != 0) return hold_refused(&call, verdict);
    return chain.whole && hold_against_chain(&call, plan, job.n);
}

bool case_plan(struct file file, struct list plan, size_t scratch_length)
{
    uint16_t dealt[MOST_PLAN];
    struct job job;
    struct list start = {dealt, plan.length};
    struct verdict verdict = check_plan(file, plan, scratch_length, &job);
    cover_degrees(CALL_PLAN, &job, verdict.number);
    if (verdict.number == 0) {
        memcpy(dealt, plan.numbers, plan.length * sizeof *dealt);
        deal(&job, dealt);
        follow(file, start, scratch_length);
    }
    struct call call = round_call(CALL_PLAN, file, plan, scratch_length);
    if (verdict.number != 0) return hold_refused(&call, verdict);
    if (!chain.whole || !hold_against_chain(&call, plan, job.n)) return false;
    if (check_loads(&job, plan.numbers).number != 0) report_fault("the plan is not legal and balanced");
    return !case_failed();
}
