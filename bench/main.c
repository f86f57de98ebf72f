/*
 * main.c: the library beside the paper's algorithm in plain C, in one program.
 *
 * First the results of both are checked on every board; a wrong one ends the program with status 1. Then each call is
 * timed, in passes over all boards, and the shortest time of each is printed. No time is judged.
 */
#include <stdio.h>

#include "agree.h"
#include "table.h"

/* Passes over all boards, so that a busy moment of the machine does not fall on all runs of one board. */
#define PASSES 7
#define MOST_IN_SERIES 8

int main(void)
{
    static struct measured measured[SERIES][MOST_IN_SERIES];
    for (unsigned s = 0; s < SERIES; s++)
        for (unsigned b = 0; b < all_series[s].count; b++)
            agree_on_board(&all_series[s].boards[b]);
    printf("The results of both sides are right on every board.\n");
    printf("Times are the shortest of all runs in %d passes, in microseconds, with %.3f for the clock itself.\n",
           PASSES, (double)clock_cost() / 1000);
    for (unsigned pass = 0; pass < PASSES; pass++)
        for (unsigned s = 0; s < SERIES; s++)
            for (unsigned b = 0; b < all_series[s].count; b++)
                measure(&all_series[s].boards[b], &measured[s][b]);
    for (unsigned s = 0; s < SERIES; s++)
        print_table(&all_series[s], measured[s]);
    return 0;
}
