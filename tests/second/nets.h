/* Jobs with nets that name wrong FPGAs, and jobs of a wrong length. */
#ifndef NETS_H
#define NETS_H

#include "make.h"

/* Faulty nets at the start, at the end and between, in a job and in the list for the job writer. */
void faulty_nets(struct made *board);

/* The board's job with bytes too few and too many. */
void wrong_lengths(struct made *board);

#endif
