#include "limits.h"

#include <string.h>

#include "cases.h"
#include "chain.h"
#include "chance.h"
#include "damage.h"
#include "make.h"
#include "nets.h"
#include "report.h"
#include "sheet.h"
#include "text.h"
#include "typed.h"

/* The job at hand: nets that take turns between FPGAs 0 and 1, or 1 and 0. */
static uint8_t bytes[MOST_JOB + BEYOND];
static uint16_t ends[2 * MOST_NETS + BEYOND];
static uint16_t numbers[MOST_NETS + BEYOND];

static const unsigned values_f[] = {0, 1, 2, 256, 257, 512, 65535};
static const unsigned values_c[] = {0, 1, 2, 128, 129, 256, 65535};
static const unsigned values_m[] = {0, 1, 2, 3, 63, 64, 65, 66, 256, 258, 65535};
static const unsigned values_n[] = {0, 1, 2, 4096, 4097, 65535};

enum { COUNT_F = 7, COUNT_C = 7, COUNT_M = 11, COUNT_N = 6 };

/* A job with these numbers, of the length that n asks for as far as there is memory. */
static struct file limit_job(const unsigned number[4])
{
    struct file job = {bytes, JOB_HEAD};
    put_number(bytes, 3);
    for (size_t i = 0; i < 4; i++) put_number(bytes + 2 + 2 * i, number[i]);
    for (size_t i = 0; i < 2 * (MOST_NETS + (size_t)1); i++) put_number(bytes + JOB_HEAD + 2 * i, ends[i]);
    job.length += 4 * (size_t)(number[3] > MOST_NETS ? MOST_NETS + 1 : number[3]);
    return job;
}

static void numbers_case(const unsigned number[4])
{
    unsigned n = number[3] > MOST_NETS ? MOST_NETS + 1 : number[3];
    struct list list = {ends, 2 * (size_t)n};
    struct file job = limit_job(number);
    case_check(job);
    case_write_job(number, list, job.length);
    if (number[3] <= MOST_NETS + 1) case_read_text(text_of(number, ends), job.length);
    if (job.length > 1000) return;
    struct list plan = {numbers, n};
    struct file sheet = {bytes, job.length};
    every_call(job, plan, sheet);
}

static void all_numbers(void)
{
    for (unsigned f = 0; f < COUNT_F; f++)
        for (unsigned c = 0; c < COUNT_C; c++)
            for (unsigned m = 0; m < COUNT_M; m++) {
                const unsigned number[4] = {values_f[f], values_c[c], values_m[m], values_n[chance_below(COUNT_N)]};
                numbers_case(number);
            }
    for (unsigned n = 0; n < COUNT_N; n++) {
        const unsigned number[4] = {2, 128, 64, values_n[n]};
        numbers_case(number);
    }
}

/* Lengths around 10 + 4n, for n around its limit. */
static void all_lengths(void)
{
    for (unsigned n = MOST_NETS - 1; n <= MOST_NETS + 1; n++)
        for (unsigned off = 0; off <= 8; off++) {
            const unsigned number[4] = {2, 128, 64, n};
            struct file job = limit_job(number);
            job.length += off;
            job.length -= 4;
            case_check(job);
        }
    for (unsigned count = 0; count < 8; count++) {
        const unsigned number[4] = {2, 2, 2, 4097};
        struct file job = limit_job(number);
        put_number(bytes, count == 7 ? 0x0300 : count);
        job.length = JOB_HEAD + count;
        case_check(job);
    }
}

/* Lists and rooms of every length around the least, for few nets and for the most. */
static void all_rooms(void)
{
    static const unsigned nets[] = {0, 1, 2, 5, 4095, 4096};
    for (size_t i = 0; i < sizeof nets / sizeof *nets; i++) {
        const unsigned number[4] = {2, 128, 64, nets[i]};
        size_t least = 2 * (size_t)nets[i];
        for (size_t length = least < 3 ? 0 : least - 3; length <= least + 3; length++) {
            struct list list = {ends, length};
            for (size_t room = job_size(nets[i]) - 3; room <= job_size(nets[i]) + 3; room++)
                case_write_job(number, list, room);
        }
    }
}

/* The plan of the most nets, its sheet, and the lengths around it. */
static void most_nets(void)
{
    static uint8_t sheet_bytes[MOST_SHEET + BEYOND];
    const unsigned number[4] = {2, 128, 64, MOST_NETS};
    struct file job = limit_job(number);
    struct list plan = {numbers, MOST_NETS};
    struct job read;
    read_job(job, &read);
    memset(numbers, 0, sizeof numbers);
    case_rounds(job, plan, LEAST_SCRATCH);
    case_plan(job, plan, LEAST_SCRATCH);
    struct file sheet = {sheet_bytes, put_sheet(&read, numbers, sheet_bytes)};
    case_write_sheet(job, plan, MOST_SHEET);
    case_write_sheet(job, plan, MOST_SHEET - 1);
    for (size_t off = 0; off <= 4; off++) {
        struct file other = {sheet_bytes, sheet.length + off - 2};
        sheet_calls(job, other);
    }
}

/* Faulty nets among the most nets: the last one too is looked at. */
static void most_faulty_nets(void)
{
    static struct made made = {{2, 128, 64, MOST_NETS}, {0}, {0}};
    memcpy(made.ends, ends, sizeof ends);
    for (int i = 0; i < 8; i++) faulty_nets(&made);
}

void run_limits(void)
{
    report_part("limits", 0);
    for (size_t i = 0; i < sizeof ends / sizeof *ends; i++) ends[i] = (uint16_t)((i + i / 2) % 2);
    all_numbers();
    all_lengths();
    all_rooms();
    most_nets();
    most_faulty_nets();
}
