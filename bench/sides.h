/* sides.h: the two sides of the comparison, behind the same two calls. */
#ifndef SIDES_H
#define SIDES_H

#include <stddef.h>
#include <stdint.h>

typedef uint16_t side_call(const uint8_t *job, size_t job_length, uint16_t *plan, size_t plan_length,
                           uint16_t *scratch, size_t scratch_length, uint64_t answer[4]);

struct side {
    const char *name;
    side_call *plan, *one_round;
};

enum { LIBRARY, PLAIN, SIDES };

extern const struct side sides[SIDES];

#endif
