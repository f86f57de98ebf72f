/* Jobs as text, by ticket 3 of document 02: what a text says, where it breaks, and the text of given numbers. */
#ifndef TEXT_H
#define TEXT_H

#include "job.h"

enum {
    MOST_NUMBER = 65535,                /* in a text, whatever it stands for */
    HEAD_LINES = 5,                     /* lines before the nets */
    MOST_LINE = 11,                     /* bytes of the longest line without its newline */
    MOST_TYPED = 29 + 8 * MOST_NETS,    /* bytes of the longest text of a job */
    MOST_FORM = 37 + 12 * MOST_NUMBER   /* bytes of the longest text of the form */
};

/* What a text of the form says, be it a job or not. */
struct typed {
    unsigned number[4]; /* f, c, m, n */
    uint16_t ends[2 * MOST_NUMBER];
};

/* Refusals 31 and 32. */
struct verdict read_form(struct file text, struct typed *typed);

/* These, then 3 to 7, then 9, 27 and 10 net by net. */
struct verdict read_typed(struct file text, struct typed *typed);

/* Writes a text and a zero behind it without looking at the numbers; gives the length. */
size_t put_text(uint8_t *room, const unsigned number[4], const uint16_t *ends);

/* The bytes of the text of a job. */
size_t text_size(const struct job *job);

/* The text in memory of its own, until the next is made. */
struct file text_of(const unsigned number[4], const uint16_t *ends);

#endif
