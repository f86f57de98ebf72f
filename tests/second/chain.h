/* Rounds: each one held against the rule, and finish and plan held against the chain of them. */
#ifndef CHAIN_H
#define CHAIN_H

#include "calls.h"

enum outcome { REFUSED, SETTLED, MOVED, FAULTY };

/* One round. Its result replaces the numbers of the list. */
enum outcome case_one_round(struct file job, struct list plan, size_t scratch_length);

/*
 * Follows the rounds from a start to a legal assignment by the one-round call, then makes the finish call from the
 * same start. Gives the legal assignment back in the list; false when there was a refusal or a fault.
 */
bool case_rounds(struct file job, struct list plan, size_t scratch_length);

/* The same for the deal and the plan call. The list gives the length and what is in it before. */
bool case_plan(struct file job, struct list plan, size_t scratch_length);

/* Of the last chain: how many rounds, and the excess at its start. */
uint64_t last_rounds(void);
uint64_t last_excess(void);

#endif
