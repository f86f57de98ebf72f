/* All cases of one random board. */
#ifndef BOARDS_H
#define BOARDS_H

void run_board(unsigned long number);

#endif
