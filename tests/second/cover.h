/* Counts what the cases covered. A run that misses a refusal or a kind of round fails. */
#ifndef COVER_H
#define COVER_H

#include "rule.h"

/* A call was to answer with this refusal, or 0 for done. */
void cover_answer(unsigned call, unsigned refusal);

/* A call was to answer so to the FPGAs asked about, on a job that it accepts. */
void cover_asked(unsigned call, unsigned refusal);

/* A text was to be refused so, 31 or 32; one that breaks may stop short where it does. */
void cover_text(struct verdict verdict, bool stops_short);

/* A call was to plan this job, or to refuse it. */
void cover_degrees(unsigned call, const struct job *job, unsigned refusal);

/* A round kept the rule. */
void cover_round(const struct round *round);

/* A chain of rounds reached a legal assignment. */
void cover_chain(const struct job *job, uint64_t rounds, uint64_t excess);

void cover_print(void);

/* Reports each thing that document 01 or 02 names and that never occurred. */
void cover_demand(bool with_listing);

#endif
