/* Each number of a job at its limits and beside them, alone and with others. */
#ifndef LIMITS_H
#define LIMITS_H

void run_limits(void);

#endif
