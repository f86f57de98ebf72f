/* Calls of the library, made by the driver. */
#ifndef CALLS_H
#define CALLS_H

#include <stdbool.h>
#include <stddef.h>
#include <stdint.h>

#include "../stream.h"
#include "job.h"

/* The longest buffer that any case lends, in bytes. */
enum { MOST_LENT = 800000 };

/* In counts and reports: the listing program, as one more call. */
enum { CALL_LISTING = CALL_COUNT };

/* A lent buffer: the given bytes, then the fill. */
struct lent {
    size_t length; /* in elements */
    uint8_t fill;
    const uint8_t *given;
    size_t given_size;
};

struct call {
    unsigned name; /* of enum call_name */
    unsigned number[4];
    struct lent lent[LENT_COUNT];
};

/* A list of numbers that a call may write to. */
struct list {
    uint16_t *numbers;
    size_t length;
};

struct reply {
    unsigned returned;
    uint64_t answer[4];
    uint8_t *before[LENT_COUNT], *after[LENT_COUNT]; /* all bytes of the lent buffers */
    bool guard_changed[LENT_COUNT + 1];
};

extern const char *const call_names[CALL_COUNT + 1];
extern const char *const lent_names[LENT_COUNT + 1];
extern const size_t lent_element_size[LENT_COUNT];

bool driver_start(char *const command[]);
void driver_end(void);

/* A call with a job; the other buffers are empty until lent. */
struct call call_on(enum call_name name, struct file job);
void lend_file(struct call *call, enum lent_name name, struct file file);
void lend_list(struct call *call, enum lent_name name, struct list list);
/* Lends memory that holds nothing but the fill. */
void lend_room(struct call *call, enum lent_name name, size_t length);

size_t lent_size(const struct call *call, unsigned name);

/* False when the driver ended, as it does when the library breaks down. */
bool driver_call(const struct call *call, struct reply *reply);

#endif
