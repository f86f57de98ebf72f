/* Holds what a call did against what document 01 says it does. */
#ifndef HOLD_H
#define HOLD_H

#include "calls.h"

/* What an accepted call writes to the front of a lent buffer. All that it writes is at the front. */
struct front {
    size_t size;
    const uint8_t *bytes; /* null: zeros */
    bool free;            /* the rule leaves a choice, and the case checks the bytes itself */
};

struct expected {
    unsigned refusal; /* of the job or the call, for the count of what was covered */
    unsigned returned;
    uint64_t answer[4];
    struct front front[LENT_COUNT];
};

struct expected expect_refusal(struct verdict verdict);
struct expected expect_answer(uint64_t first, uint64_t second, uint64_t third, uint64_t fourth);

/* Bytes at the front of one buffer; the answer is how many of its elements they are. */
struct expected expect_written(enum lent_name name, const uint8_t *bytes, size_t size);

/* Makes the call and compares. Ends the program if the driver broke down. */
const struct reply *hold(const struct call *call, const struct expected *expected);

#endif
