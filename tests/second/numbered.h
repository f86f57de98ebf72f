/* The cases 1 to 11 of document 01, with the numbers and bytes that stand there, and what the tickets of document 02 add. */
#ifndef NUMBERED_H
#define NUMBERED_H

void run_numbered(void);

#endif
