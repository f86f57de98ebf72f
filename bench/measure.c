/* measure.c: the two sides run in turn on the same memory, which is made the same before each run. */
#define _POSIX_C_SOURCE 200809L
#include "measure.h"

#include <hogvuldur.h>
#include <stdio.h>
#include <stdlib.h>
#include <string.h>
#include <time.h>

#include "board.h"

/* A call is repeated until its runs took this long, in nanoseconds. */
#define LONG_ENOUGH 20000000
/* From this many nanoseconds on, other programs are likely to run in between. */
#define LONG_RUN 1000000

static struct file job;
static uint16_t start[CALLS][MOST_NETS]; /* what each call finds in the assignment's buffer */

static uint16_t plan[MOST_NETS];
static uint16_t scratch[HOGVULDUR_SCRATCH];

static uint64_t look(clockid_t clock)
{
    struct timespec now;
    clock_gettime(clock, &now);
    return (uint64_t)now.tv_sec * 1000000000u + (uint64_t)now.tv_nsec;
}

uint64_t clock_cost(void)
{
    uint64_t least = UINT64_MAX;
    for (unsigned i = 0; i < 10000; i++) {
        uint64_t began = look(CLOCK_MONOTONIC), took = look(CLOCK_MONOTONIC) - began;
        least = took < least ? took : least;
    }
    return least;
}

/* A short run is timed by the finer clock; a long one by this program's own processor time, whatever else runs. */
static clockid_t clock_for(uint64_t nanoseconds)
{
    return nanoseconds < LONG_RUN ? CLOCK_MONOTONIC : CLOCK_PROCESS_CPUTIME_ID;
}

/* One run from cleared memory; returns its nanoseconds. */
static uint64_t time_call(enum call call, const struct side *side, clockid_t clock, uint64_t answer[4])
{
    side_call *made = call == PLAN ? side->plan : side->one_round;
    memset(scratch, 0, sizeof scratch);
    memcpy(plan, start[call], sizeof plan);
    uint64_t began = look(clock);
    uint16_t number = made(job.bytes, job.length, plan, MOST_NETS, scratch, HOGVULDUR_SCRATCH, answer);
    uint64_t took = look(clock) - began;
    if (number != HOGVULDUR_DONE) {
        fprintf(stderr, "wrong: %s gives refusal %u in a timed run\n", side->name, number);
        exit(1);
    }
    return took;
}

/* Both sides in turn, so that what else the machine does meets both alike. */
static void repeat(enum call call, uint64_t least[SIDES], uint64_t answer[SIDES][4])
{
    uint64_t spent = 0;
    while (spent < LONG_ENOUGH)
        for (unsigned s = 0; s < SIDES; s++) {
            uint64_t took = time_call(call, &sides[s], clock_for(least[s]), answer[s]);
            spent += took;
            if (least[s] == 0 || took < least[s])
                least[s] = took;
        }
}

/* Plan and one round start from the deal, the load check from the plain C's plan. */
static void prepare(const struct board *board)
{
    struct job numbers;
    uint64_t answer[4];
    job = board_job(board);
    read_job(job, &numbers);
    deal(&numbers, start[PLAN]);
    deal(&numbers, start[ONE_ROUND]);
    time_call(PLAN, &sides[PLAIN], CLOCK_MONOTONIC, answer);
    memcpy(start[LOAD_CHECK], plan, sizeof plan);
}

void measure(const struct board *board, struct measured *measured)
{
    uint64_t answer[SIDES][4];
    prepare(board);
    for (unsigned call = CALLS; call-- > 0;) {
        repeat((enum call)call, measured->least[call], answer);
        for (unsigned s = 0; s < SIDES; s++)
            measured->rounds[call][s] = answer[s][0];
    }
    measured->excess = answer[PLAIN][1];
}
