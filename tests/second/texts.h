/* Texts changed in every place: a few small ones, and at random those of random boards. */
#ifndef TEXTS_H
#define TEXTS_H

#include "make.h"

void run_texts(void);

/* The text and the job of a board there and back, and the text with some changes. */
void board_texts(struct made *board, unsigned changes);

/* Tries a text with other bytes in place of some, which may be none. */
void try_changed(struct file text, size_t place, size_t taken, const void *put, size_t count);

#endif
