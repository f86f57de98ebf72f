/* agree.h: both sides give right results, by the rule of the second program. Checked before any timing. */
#ifndef AGREE_H
#define AGREE_H

#include "boards.h"

/* Plans, and every round from the deal until settled. The first fault is printed and ends the program. */
void agree_on_board(const struct board *board);

#endif
