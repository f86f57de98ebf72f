/* One case for each public call: its inputs, what document 01 says to them, and the comparison. */
#ifndef CASES_H
#define CASES_H

#include "calls.h"

void case_check(struct file job);
void case_numbers(struct file job);
void case_net(struct file job, unsigned net);
void case_net_section(struct file job);
void case_write_job(const unsigned number[4], struct list ends, size_t room_length);
void case_spare(struct file job, unsigned fpga);
void case_headroom(struct file job, unsigned first, unsigned second);

/* The sheet writer wrote: bytes of its room, or null after a refusal. */
const uint8_t *case_write_sheet(struct file job, struct list plan, size_t room_length);
void case_read_sheet(struct file job, struct file sheet, size_t plan_length);
void case_audit(struct file job, struct file sheet);
void case_evidence(struct file job, struct file sheet);

#endif
