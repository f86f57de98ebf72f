/* The two calls on texts, as cases, and a text or a job there and back. */
#ifndef TYPED_H
#define TYPED_H

#include "calls.h"

/* What the call wrote, in its room until the next case; of no bytes after a refusal. */
struct file case_read_text(struct file text, size_t room_length);
struct file case_write_text(struct file job, size_t room_length);

/* A text with no room, a little too little, and enough; if it is a job's, that job's text is the same again. */
void try_text(struct file text);

/* A job likewise: if it is not refused, its text is read as the same job. */
void try_job(struct file job);

#endif
