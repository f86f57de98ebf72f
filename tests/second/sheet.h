/* Sheets: what the writer writes, the audit, and the evidence. */
#ifndef SHEET_H
#define SHEET_H

#include "board.h"

enum { SHEET_HEAD = 10, MOST_SHEET = 12 + 2 * MOST_NETS + 2 * MOST_CROSSBARS };

/* The stretch at fault: in the job (0) or the sheet (1), its first byte, how many. */
struct evidence {
    unsigned file;
    uint64_t first, size;
};

size_t sheet_size(const struct job *job);

/* Refusals 24 and 25 of an assignment. */
struct verdict check_loads(const struct job *job, const uint16_t *plan);

/* Writes the sheet of any assignment, legal or not; gives the length. */
size_t put_sheet(const struct job *job, const uint16_t *plan, uint8_t *room);

/* The crossbar numbers of a sheet of the right length. */
void sheet_numbers(const struct job *job, struct file sheet, uint16_t *plan);

struct verdict audit(struct file job_file, struct file sheet);

struct evidence evidence(struct file job_file, struct file sheet);

#endif
