/* Sheets that look right and are not: wrong loads, spread, totals, heads, lengths, or another job's. */
#ifndef WRONG_H
#define WRONG_H

#include "calls.h"

/* A sheet with one or a few random faults. */
void wrong_sheet(struct file job, struct file sheet);

/* The sheet of an assignment that may be illegal or not balanced. */
void wrong_sheet_of(struct file job, const uint16_t *plan);

/* The sheet of another job. */
void another_sheet(struct file job);

#endif
