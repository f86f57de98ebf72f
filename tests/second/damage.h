/* Jobs, sheets and assignments with faults, one or several, and every call on them. */
#ifndef DAMAGE_H
#define DAMAGE_H

#include "calls.h"

/* Every call that takes a job. */
void every_call(struct file job, struct list plan, struct file sheet);

/* Every prefix, some bytes too many, and every byte changed. */
void damage_job(struct file job, struct list plan, struct file sheet);
void damage_sheet(struct file job, struct file sheet);

/* Several faults at once. */
void damage_several(struct file job, struct list plan, struct file sheet);

/* The calls that take a sheet. */
void sheet_calls(struct file job, struct file sheet);

#endif
