/*
 * boards.h: the boards that are measured, the same in every run.
 *
 * Of two kinds. A mixed board starts from a netlist that fills every wire (each FPGA has m nets on each crossbar),
 * mixes its order by a fixed seed, and keeps the first n nets: with all of them kept every degree is at the limit m
 * times c, and the deal is far from legal. A hot board is dealt legally but for `hot` pairs of FPGAs whose 2m nets all
 * start on one crossbar: each pair needs one round, however many nets and crossbars there are, so that one number can
 * grow alone.
 */
#ifndef BOARDS_H
#define BOARDS_H

#include <stdbool.h>

#include "job.h"

enum kind { MIXED, HOT };

struct board {
    enum kind kind;
    unsigned f, c, m, n;
    unsigned hot; /* pairs of FPGAs, of a hot board */
};

/* Boards that belong together in a table. */
struct series {
    const char *title;
    bool one_grows; /* from each board to the next only one number grows */
    bool plan_only; /* only plan makes more than one round, so only it can show how rounds count */
    const struct board *boards;
    unsigned count;
};

#define SERIES 5
extern const struct series all_series[SERIES];

/* The board's job; its bytes stand until the next call. */
struct file board_job(const struct board *board);

#endif
