/*
 * plain.c: plan and one round by the paper's figure 2.
 *
 * The load table is counted once for each call and then kept up to date, and each crossbar has a list of its nets: so a
 * round looks only at the nets of its two crossbars, as the paper's running time asks.
 */
#include "plain.h"

#include <string.h>

#include "board.h"
#include "plain_load.h"
#include "plain_split.h"

#define NO_NET UINT16_MAX

static uint16_t first_net[MOST_CROSSBARS];
static uint16_t next_net[MOST_NETS];

/* An assignment under way. */
struct state {
    struct job job;
    uint16_t *plan;
    uint16_t *load;
};

/* What a round is made on: FPGA v, its crossbar A with too many nets and its crossbar B with room. */
struct over {
    unsigned v, a, b;
};

static void put_on(uint16_t *plan, unsigned net, unsigned crossbar)
{
    plan[net] = (uint16_t)crossbar;
    next_net[net] = first_net[crossbar];
    first_net[crossbar] = (uint16_t)net;
}

static void begin(struct state *state)
{
    for (unsigned x = 0; x < state->job.c; x++)
        first_net[x] = NO_NET;
    for (unsigned net = 0; net < state->job.n; net++)
        put_on(state->plan, net, state->plan[net]);
    plain_count_loads(&state->job, state->plan, state->load);
}

/* Takes the nets of one crossbar off its list; returns how many there are with the k before. */
static unsigned take_off(const struct state *state, unsigned crossbar, uint16_t *nets, struct plain_ends *ends,
                         unsigned k)
{
    for (unsigned net = first_net[crossbar]; net != NO_NET; net = next_net[net]) {
        nets[k] = (uint16_t)net;
        ends[k].fpga[0] = (uint16_t)plain_end(&state->job, net, 0);
        ends[k].fpga[1] = (uint16_t)plain_end(&state->job, net, 1);
        k++;
    }
    first_net[crossbar] = NO_NET;
    return k;
}

static void move_load(struct state *state, unsigned v, unsigned from, unsigned to)
{
    uint16_t *row = state->load + v * state->job.c;
    row[from]--;
    row[to]++;
}

static void recolour(struct state *state, unsigned a, unsigned b)
{
    static uint16_t nets[MOST_NETS];
    static struct plain_ends ends[MOST_NETS];
    unsigned k = take_off(state, a, nets, ends, 0);
    k = take_off(state, b, nets, ends, k);
    const uint8_t *side = plain_split(&state->job, ends, k);
    for (unsigned e = 0; e < k; e++) {
        unsigned from = state->plan[nets[e]], to = side[e] == 0 ? a : b;
        if (from != to) {
            move_load(state, ends[e].fpga[0], from, to);
            move_load(state, ends[e].fpga[1], from, to);
        }
        put_on(state->plan, nets[e], to);
    }
}

/* One round; the lowest FPGA over m is known to be no lower than `from`. Says v = f, and does nothing, if none is. */
static struct over make_round(struct state *state, unsigned from)
{
    struct over over = {plain_lowest_over(&state->job, state->load, from), 0, 0};
    if (over.v == state->job.f)
        return over;
    const uint16_t *row = state->load + over.v * state->job.c;
    over.a = plain_crowded(&state->job, row);
    over.b = plain_with_room(&state->job, row);
    recolour(state, over.a, over.b);
    return over;
}

/* No FPGA's excess rises in a round (the paper's lemma 4): so the search goes on where it last found one. */
static unsigned make_rounds(struct state *state)
{
    unsigned rounds = 0;
    for (struct over over = make_round(state, 0); over.v < state->job.f; over = make_round(state, over.v))
        rounds++;
    return rounds;
}

/* Refusals 1 to 12, all but 11 by the checks of tests/second. */
static unsigned check(struct file file, size_t plan_length, size_t scratch_length, struct job *job)
{
    unsigned number = read_job(file, job).number;
    if (number != 0)
        return number;
    if (plan_length < job->n || scratch_length < LEAST_SCRATCH)
        return 11;
    return check_degrees(job).number;
}

static void clear_scratch(uint16_t *scratch)
{
    memset(scratch, 0, LEAST_SCRATCH * sizeof *scratch);
}

uint16_t plain_plan(const uint8_t *job, size_t job_length, uint16_t *plan, size_t plan_length,
                    uint16_t *scratch, size_t scratch_length, uint64_t answer[4])
{
    const struct file file = {job, job_length};
    struct state state = {.plan = plan, .load = scratch};
    unsigned number = check(file, plan_length, scratch_length, &state.job);
    if (number != 0)
        return (uint16_t)number;
    deal(&state.job, plan);
    begin(&state);
    memset(answer, 0, 4 * sizeof *answer);
    answer[1] = plain_excess(&state.job, state.load);
    answer[0] = make_rounds(&state);
    clear_scratch(scratch);
    return 0;
}

uint16_t plain_one_round(const uint8_t *job, size_t job_length, uint16_t *plan, size_t plan_length,
                         uint16_t *scratch, size_t scratch_length, uint64_t answer[4])
{
    const struct file file = {job, job_length};
    struct state state = {.plan = plan, .load = scratch};
    unsigned number = check(file, plan_length, scratch_length, &state.job);
    if (number == 0)
        number = check_assignment(&state.job, plan).number;
    if (number != 0)
        return (uint16_t)number;
    begin(&state);
    struct over over = make_round(&state, 0);
    clear_scratch(scratch);
    bool moved = over.v < state.job.f;
    answer[0] = moved;
    answer[1] = moved ? over.v : 0;
    answer[2] = over.a;
    answer[3] = over.b;
    return 0;
}
