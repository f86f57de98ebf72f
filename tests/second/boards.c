#include "boards.h"

#include <string.h>

#include "cases.h"
#include "chain.h"
#include "chance.h"
#include "damage.h"
#include "make.h"
#include "nets.h"
#include "sheet.h"
#include "texts.h"
#include "wrong.h"

/* The board at hand, and an assignment with some numbers behind it that no call may change. */
static struct made board;
static uint16_t numbers[MOST_NETS + BEYOND];

static void job_cases(struct file job)
{
    unsigned f = board.number[0], n = board.number[3];
    const unsigned nets[] = {0, n / 2, n, n + 1, 65535, chance_below(n + 1), n > 0 ? n - 1 : 0};
    const unsigned fpgas[] = {0, f - 1, f, 65535, chance_below(f), chance_below(f), chance_below(f)};
    case_check(job);
    case_numbers(job);
    case_net_section(job);
    for (size_t i = 0; i < sizeof nets / sizeof *nets; i++) case_net(job, nets[i]);
    for (size_t i = 0; i < sizeof fpgas / sizeof *fpgas; i++) {
        case_spare(job, fpgas[i]);
        case_headroom(job, fpgas[i], chance_of(fpgas, 7));
        case_headroom(job, chance_below(f), chance_below(f));
    }
}

static void writer_cases(struct file job)
{
    unsigned n = board.number[3];
    struct list ends = {board.ends, 2 * (size_t)n};
    case_write_job(board.number, ends, job.length);
    case_write_job(board.number, ends, job.length + chance_between(1, 9));
    case_write_job(board.number, ends, job.length - 1);
    case_write_job(board.number, ends, 0);
    ends.length += chance_between(1, 9);
    case_write_job(board.number, ends, job.length);
    if (n == 0) return;
    ends.length = 2 * (size_t)n - 1;
    case_write_job(board.number, ends, job.length);
}

/* The assignment as lent: of the least length or a little longer. */
static struct list lent_plan(void)
{
    struct list plan = {numbers, board.number[3] + (size_t)chance_below(3)};
    for (size_t i = board.number[3]; i < plan.length; i++) numbers[i] = (uint16_t)chance_below(65536);
    return plan;
}

static size_t lent_scratch(void)
{
    return LEAST_SCRATCH + (chance_one_in(3) ? chance_between(1, 40) : 0);
}

/* A finished assignment with a few nets moved, and a job with a few nets changed. */
static void last_month_cases(struct file job)
{
    unsigned c = board.number[1], n = board.number[3];
    for (unsigned i = chance_between(1, 5); n > 0 && i > 0; i--) numbers[chance_below(n)] = (uint16_t)chance_below(c);
    case_rounds(job, lent_plan(), lent_scratch());
    make_changes(&board, chance_between(1, 6));
    job = made_job(&board);
    wrong_sheet_of(job, numbers);
    case_rounds(job, lent_plan(), lent_scratch());
}

static void start_cases(struct file job, unsigned starts)
{
    for (unsigned i = 0; i < starts; i++) {
        if (chance_one_in(2))
            make_random_start(&board, numbers);
        else
            make_heap_start(&board, numbers);
        bool finished = case_rounds(job, lent_plan(), lent_scratch());
        /* Often legal and not balanced. */
        if (finished) case_write_sheet(job, lent_plan(), MOST_SHEET);
        if (finished) wrong_sheet_of(job, numbers);
    }
}

static void short_cases(struct file job)
{
    static const size_t scratch[] = {0, 1, LEAST_SCRATCH - 1, LEAST_SCRATCH / 2};
    static const unsigned outside[] = {0, 1, 2, 255, 65535};
    unsigned n = board.number[3], c = board.number[1];
    struct list plan = {numbers, n};
    struct job read;
    read_job(job, &read);
    make_random_start(&board, numbers);
    for (size_t i = 0; i < sizeof scratch / sizeof *scratch; i++) {
        case_rounds(job, plan, scratch[i]);
        case_plan(job, plan, scratch[i]);
    }
    case_write_sheet(job, plan, sheet_size(&read) - 1);
    case_write_sheet(job, plan, 0);
    if (n == 0) return;
    plan.length = n - 1;
    case_rounds(job, plan, LEAST_SCRATCH);
    case_plan(job, plan, LEAST_SCRATCH);
    case_write_sheet(job, plan, sheet_size(&read));
    plan.length = n;
    for (unsigned i = chance_between(1, 3); i > 0; i--) {
        unsigned beyond = c + chance_of(outside, 5);
        numbers[chance_below(n)] = (uint16_t)(beyond > 65535 ? 65535 : beyond);
    }
    case_rounds(job, plan, LEAST_SCRATCH);
    case_write_sheet(job, plan, sheet_size(&read));
}

/* The sheet of the plan, and sheets with faults. */
static void sheet_cases(struct file job, unsigned wrong_sheets)
{
    static uint8_t bytes[MOST_SHEET];
    struct job read;
    read_job(job, &read);
    struct list plan = {numbers, read.n};
    struct file sheet = {bytes, put_sheet(&read, numbers, bytes)};
    case_write_sheet(job, plan, sheet.length);
    case_write_sheet(job, lent_plan(), sheet.length + chance_between(1, 9));
    sheet_calls(job, sheet);
    for (unsigned i = 0; i < wrong_sheets; i++) wrong_sheet(job, sheet);
    another_sheet(job);
}

/* Several faults at once; of a quarter of the smallest boards every byte of job and sheet. */
static void damage_cases(struct file job, unsigned several, bool every_byte)
{
    static uint8_t bytes[MOST_SHEET];
    struct job read;
    read_job(job, &read);
    struct file sheet = {bytes, put_sheet(&read, numbers, bytes)};
    for (unsigned i = 0; i < several; i++) damage_several(job, lent_plan(), sheet);
    if (!every_byte) return;
    damage_job(job, lent_plan(), sheet);
    damage_sheet(job, sheet);
}

void run_board(unsigned long number)
{
    static const enum size sizes[16] = {TINY, SMALL, TINY, MIDDLE, TINY,  SMALL, EDGE, TINY,
                                        TINY, SMALL, TINY, LARGE,  SMALL, TINY,  TINY, MIDDLE};
    enum size size = sizes[number % 16];
    make_board(&board, size);
    faulty_nets(&board);
    wrong_lengths(&board);
    struct file job = made_job(&board);
    job_cases(job);
    writer_cases(job);
    board_texts(&board, size < MIDDLE ? 8 : 2);
    short_cases(job);
    start_cases(job, size < MIDDLE ? 4 : 1);
    if (!case_plan(job, lent_plan(), lent_scratch())) make_random_start(&board, numbers);
    sheet_cases(job, 8);
    damage_cases(job, size == TINY ? 10 : 2, size == TINY && chance_one_in(4));
    last_month_cases(job);
}
