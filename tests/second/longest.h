/* Texts with many nets: counts at their limits, the longest text of a job, and the longest of the form. */
#ifndef LONGEST_H
#define LONGEST_H

void run_longest(void);

#endif
