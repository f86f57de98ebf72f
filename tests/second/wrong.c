#include "wrong.h"

#include <string.h>

#include "chance.h"
#include "damage.h"
#include "make.h"
#include "sheet.h"

static uint8_t bytes[MOST_SHEET + BEYOND];

void wrong_sheet_of(struct file job, const uint16_t *plan)
{
    struct job read;
    read_job(job, &read);
    struct file sheet = {bytes, put_sheet(&read, plan, bytes)};
    sheet_calls(job, sheet);
}

/* Moves nets and writes the totals that belong to them. */
static void move_nets(const struct job *job, struct file sheet)
{
    uint16_t plan[MOST_NETS];
    sheet_numbers(job, sheet, plan);
    if (check_assignment(job, plan).number != 0) return;
    for (unsigned i = chance_between(1, 4); i > 0; i--)
        plan[chance_below(job->n)] = (uint16_t)chance_below(job->c);
    put_sheet(job, plan, bytes);
}

/* Exchanges the crossbars of two nets: all totals stay right. */
static void exchange_nets(const struct job *job)
{
    uint8_t *one = bytes + SHEET_HEAD + 2 * (size_t)chance_below(job->n);
    uint8_t *other = bytes + SHEET_HEAD + 2 * (size_t)chance_below(job->n);
    for (int i = 0; i < 2; i++) {
        uint8_t kept = one[i];
        one[i] = other[i];
        other[i] = kept;
    }
}

static void change_number(const struct job *job)
{
    const unsigned outside[] = {job->c, job->c + 1, 65535, 256 + chance_below(job->c), chance_below(job->c)};
    put_number(bytes + SHEET_HEAD + 2 * (size_t)chance_below(job->n), chance_of(outside, 5));
}

/* One total too many here and one too few there, or only one of both. */
static void change_totals(const struct job *job, struct file sheet)
{
    size_t first = SHEET_HEAD + 2 * (size_t)job->n + 2;
    size_t more = first + 2 * (size_t)chance_below(job->c), fewer = first + 2 * (size_t)chance_below(job->c);
    put_number(bytes + more, file_number(sheet, more) + 1);
    if (chance_one_in(2)) put_number(bytes + fewer, file_number(sheet, fewer) - 1);
}

static void change_head(const struct job *job, struct file sheet)
{
    const size_t places[] = {0, 2, 4, 6, 8, SHEET_HEAD + 2 * (size_t)job->n};
    const unsigned changes[] = {1, 65535, 2, 256};
    size_t place = places[chance_below(6)];
    put_number(bytes + place, file_number(sheet, place) + chance_of(changes, 4));
}

static void add_fault(const struct job *job, struct file *sheet)
{
    unsigned fault = chance_below(6);
    /* The first three need a net. */
    if (job->n == 0 && fault < 3) fault += 3;
    switch (fault) {
    case 0: move_nets(job, *sheet); break;
    case 1: exchange_nets(job); break;
    case 2: change_number(job); break;
    case 3: change_totals(job, *sheet); break;
    case 4: change_head(job, *sheet); break;
    default: sheet->length = sheet->length + chance_below(7) - 3;
    }
}

void wrong_sheet(struct file job, struct file sheet)
{
    struct job read;
    struct file wrong = {bytes, sheet.length};
    read_job(job, &read);
    memcpy(bytes, sheet.bytes, sheet.length);
    memset(bytes + sheet.length, 0, BEYOND);
    for (unsigned faults = chance_one_in(2) ? 1 : chance_between(2, 4); faults > 0; faults--) add_fault(&read, &wrong);
    sheet_calls(job, wrong);
}

void another_sheet(struct file job)
{
    static struct made other;
    uint16_t plan[MOST_NETS];
    struct job read;
    make_board(&other, TINY);
    read_job(made_job(&other), &read);
    deal(&read, plan);
    struct file sheet = {bytes, put_sheet(&read, plan, bytes)};
    sheet_calls(job, sheet);
}
