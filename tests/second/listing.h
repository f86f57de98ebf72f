/* The listing program, held against the plan call. */
#ifndef LISTING_H
#define LISTING_H

#include <stdint.h>

/* Runs the program on jobs with each refusal, jobs at the limits, and so many random boards. */
void run_listings(char *const command[], unsigned long boards, uint64_t seed);

#endif
