/* Counts the cases and prints those that fail, so that they can be run again. */
#ifndef REPORT_H
#define REPORT_H

#include "calls.h"

void report_seed(uint64_t seed);

/* What the next cases belong to, such as document 01's "numbered case" 7. */
void report_part(const char *name, unsigned long number);

/* The next cases belong to this random board. */
void report_board(unsigned long number);

/* A new case begins. */
void report_case(const struct call *call);

/* The case fails, and why. */
void report_fault(const char *format, ...);

bool case_failed(void);

/* Something other than a case fails. */
void report_failure(const char *format, ...);

/* Prints the last line and gives the exit status. */
int report_end(void);

#endif
