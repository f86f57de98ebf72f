/*
 * Plans the job on standard input and prints its sheet, a number of two bytes to each group of four hexadecimal digits.
 * A refused job prints `refused`, the refusal's number and its two places, and the exit status is 1. What cannot be read or
 * written is said on standard error, and the status is 2.
 */
#include <errno.h>
#include <inttypes.h>
#include <stdio.h>
#include <string.h>

#include "hogvuldur.h"

/* One byte more than the longest job has, so that a job that is too long is seen to be. */
static uint8_t job[HOGVULDUR_MOST_JOB_BYTES + 1];
static uint16_t plan[HOGVULDUR_MOST_NETS];
static uint16_t scratch[HOGVULDUR_SCRATCH];
static uint8_t sheet[HOGVULDUR_MOST_SHEET_BYTES];
static uint64_t answer[4];

static int cannot(const char *what)
{
    fprintf(stderr, "sheet: cannot %s: %s\n", what, strerror(errno));
    return 2;
}

static void print_refusal(unsigned number)
{
    printf("refused %u %" PRIu64 " %" PRIu64 "\n", number, answer[HOGVULDUR_P], answer[HOGVULDUR_Q]);
}

static void print_sheet(size_t length)
{
    for (size_t i = 0; i + 1 < length; i += 2) printf("%s%02x%02x", i == 0 ? "" : " ", sheet[i], sheet[i + 1]);
    printf("\n");
}

/* Leaves the sheet's length in the answer. */
static uint16_t make_sheet(size_t length)
{
    uint16_t number = hogvuldur_plan(job, length, plan, HOGVULDUR_MOST_NETS, scratch, HOGVULDUR_SCRATCH, answer);
    if (number != HOGVULDUR_DONE) return number;
    return hogvuldur_write_sheet(job, length, plan, HOGVULDUR_MOST_NETS, sheet, sizeof sheet, answer);
}

int main(void)
{
    size_t length = fread(job, 1, sizeof job, stdin);
    if (ferror(stdin)) return cannot("read the job");
    uint16_t number = make_sheet(length);
    if (number == HOGVULDUR_DONE)
        print_sheet((size_t)answer[HOGVULDUR_WRITTEN]);
    else
        print_refusal(number);
    if (fflush(stdout) != 0) return cannot("write");
    return number == HOGVULDUR_DONE ? 0 : 1;
}
