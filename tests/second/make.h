/* Random boards of many sizes and shapes. */
#ifndef MAKE_H
#define MAKE_H

#include <stdbool.h>

#include "job.h"

/* Room behind the longest job and the longest list, for lengths that are too long. */
enum { BEYOND = 64 };

enum size { TINY, SMALL, MIDDLE, LARGE, EDGE };

struct made {
    unsigned number[4]; /* f, c, m, n */
    uint16_t ends[2 * MOST_NETS + BEYOND];
    uint8_t bytes[MOST_JOB + BEYOND];
};

void make_board(struct made *made, enum size size);

/* Gives some nets new ends, as from one month to the next. */
void make_changes(struct made *made, unsigned changes);

/* The job file of a board, written anew from its numbers and ends. */
struct file made_job(struct made *made);

/* Starting assignments: each net at random; all on one crossbar. */
void make_random_start(const struct made *made, uint16_t *plan);
void make_heap_start(const struct made *made, uint16_t *plan);

#endif
