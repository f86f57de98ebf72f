#include "damage.h"

#include <string.h>

#include "cases.h"
#include "chain.h"
#include "chance.h"
#include "make.h"
#include "sheet.h"
#include "text.h"
#include "typed.h"

enum { VALUES = 5 };

/* What a byte is changed to. */
static uint8_t changed(uint8_t byte, unsigned value)
{
    switch (value) {
    case 0: return (uint8_t)(byte + 1);
    case 1: return (uint8_t)(byte - 1);
    case 2: return 0;
    case 3: return 255;
    default: return (uint8_t)chance_below(256);
    }
}

static struct list copy_of(struct list plan)
{
    static uint16_t numbers[MOST_NETS + BEYOND];
    struct list copy = {numbers, plan.length};
    memcpy(numbers, plan.numbers, plan.length * sizeof *numbers);
    return copy;
}

void sheet_calls(struct file job, struct file sheet)
{
    struct job read;
    read_job(job, &read);
    case_audit(job, sheet);
    case_evidence(job, sheet);
    case_read_sheet(job, sheet, read.n + chance_below(3));
    if (read.n > 0 && chance_one_in(4)) case_read_sheet(job, sheet, read.n - 1);
}

void every_call(struct file job, struct list plan, struct file sheet)
{
    struct job read;
    read_job(job, &read);
    case_check(job);
    case_numbers(job);
    case_net(job, chance_below(read.n + 2));
    case_net_section(job);
    case_write_text(job, text_size(&read) + chance_below(3));
    case_rounds(job, copy_of(plan), LEAST_SCRATCH + chance_below(3));
    case_plan(job, copy_of(plan), LEAST_SCRATCH + chance_below(3));
    case_write_sheet(job, plan, sheet_size(&read) + chance_below(3));
    case_spare(job, chance_below(read.f + 2));
    case_headroom(job, chance_below(read.f + 2), chance_below(read.f + 2));
    sheet_calls(job, sheet);
}

/* What goes with the damaged file. */
static struct {
    struct file job, sheet;
    struct list plan;
} beside;

static void calls_on_job(struct file damaged)
{
    every_call(damaged, beside.plan, beside.sheet);
}

static void calls_on_sheet(struct file damaged)
{
    sheet_calls(beside.job, damaged);
}

/* The calls on a file with each byte changed in turn, cut to each length, and with 1 to `more` bytes behind it. */
static void damage(struct file file, size_t more, void (*calls_on)(struct file damaged))
{
    uint8_t bytes[MOST_JOB + BEYOND];
    struct file damaged = {bytes, file.length};
    memcpy(bytes, file.bytes, file.length);
    for (size_t place = 0; place < file.length; place++) {
        for (unsigned value = 0; value < VALUES; value++) {
            bytes[place] = changed(file.bytes[place], value);
            calls_on(damaged);
        }
        bytes[place] = file.bytes[place];
    }
    for (damaged.length = 0; damaged.length < file.length; damaged.length++) calls_on(damaged);
    for (damaged.length = file.length + 1; damaged.length <= file.length + more; damaged.length++) {
        bytes[damaged.length - 1] = (uint8_t)chance_below(2);
        calls_on(damaged);
    }
}

void damage_job(struct file job, struct list plan, struct file sheet)
{
    beside.plan = plan;
    beside.sheet = sheet;
    damage(job, 5, calls_on_job);
}

void damage_sheet(struct file job, struct file sheet)
{
    beside.job = job;
    damage(sheet, 3, calls_on_sheet);
}

/* Changes a few bytes, most of them a little, and sometimes the length. */
static struct file damage_file(struct file file, uint8_t *bytes)
{
    struct file damaged = {bytes, file.length};
    memcpy(bytes, file.bytes, file.length);
    memset(bytes + file.length, 0, BEYOND);
    for (unsigned faults = chance_below(4); faults > 0 && file.length > 0; faults--) {
        /* The low bytes are the odd ones: small changes there are the likely mistakes. */
        unsigned place = chance_below((unsigned)file.length) | 1;
        bytes[place] = changed(bytes[place], chance_below(VALUES));
    }
    if (chance_one_in(4)) damaged.length += chance_below(5);
    if (chance_one_in(4)) damaged.length -= chance_below(5);
    return damaged;
}

/* Some numbers at or above c, and sometimes a list that is too short. */
static struct list damage_plan(struct list plan, unsigned c, uint16_t *numbers)
{
    struct list damaged = {numbers, plan.length};
    const unsigned outside[] = {c, c + 1, 65535, 255, 256 + chance_below(c)};
    memcpy(numbers, plan.numbers, plan.length * sizeof *numbers);
    for (unsigned faults = chance_below(3); faults > 0 && plan.length > 0; faults--)
        numbers[chance_below((unsigned)plan.length)] = (uint16_t)chance_of(outside, 5);
    if (plan.length > 0 && chance_one_in(4)) damaged.length--;
    return damaged;
}

void damage_several(struct file job, struct list plan, struct file sheet)
{
    uint8_t job_bytes[MOST_JOB + BEYOND], sheet_bytes[MOST_SHEET + BEYOND];
    uint16_t numbers[MOST_NETS + BEYOND];
    struct job read;
    struct file damaged_job = chance_one_in(2) ? damage_file(job, job_bytes) : job;
    struct file damaged_sheet = chance_one_in(2) ? damage_file(sheet, sheet_bytes) : sheet;
    read_job(job, &read);
    struct list damaged_plan = damage_plan(plan, read.c, numbers);
    every_call(damaged_job, damaged_plan, damaged_sheet);
    if (chance_one_in(4)) {
        size_t scratch = chance_one_in(2) ? LEAST_SCRATCH - 1 : chance_below(8);
        case_rounds(damaged_job, copy_of(damaged_plan), scratch);
        case_plan(damaged_job, copy_of(damaged_plan), scratch);
    }
}
