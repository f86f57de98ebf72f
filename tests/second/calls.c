#include "calls.h"

#include <string.h>

#include "chance.h"
#include "process.h"

const char *const call_names[CALL_COUNT + 1] = {
    "check", "numbers", "net", "net_section", "write_job", "read_text", "write_text", "one_round", "finish", "plan",
    "write_sheet", "read_sheet", "audit", "evidence", "spare", "headroom", "listing program",
};

const char *const lent_names[LENT_COUNT + 1] = {"job", "text", "sheet", "ends", "plan", "room", "scratch", "answer"};

const size_t lent_element_size[LENT_COUNT] = LENT_ELEMENT_SIZES;

static struct process driver;
static uint8_t lists[LENT_COUNT][MOST_LENT]; /* lent lists as the driver's memory holds them */
static uint8_t before[LENT_COUNT][MOST_LENT], after[LENT_COUNT][MOST_LENT];

bool driver_start(char *const command[])
{
    return process_start(&driver, command);
}

void driver_end(void)
{
    process_end(&driver);
}

struct call call_on(enum call_name name, struct file job)
{
    struct call call;
    memset(&call, 0, sizeof call);
    call.name = name;
    for (int i = 0; i < LENT_COUNT; i++) call.lent[i].fill = (uint8_t)chance_between(1, 255);
    lend_file(&call, LENT_JOB, job);
    return call;
}

void lend_file(struct call *call, enum lent_name name, struct file file)
{
    call->lent[name].length = file.length;
    call->lent[name].given = file.bytes;
    call->lent[name].given_size = file.length;
}

void lend_list(struct call *call, enum lent_name name, struct list list)
{
    for (size_t i = 0; i < list.length; i++) {
        lists[name][2 * i] = (uint8_t)list.numbers[i];
        lists[name][2 * i + 1] = (uint8_t)(list.numbers[i] >> 8);
    }
    call->lent[name].length = list.length;
    call->lent[name].given = lists[name];
    call->lent[name].given_size = 2 * list.length;
}

void lend_room(struct call *call, enum lent_name name, size_t length)
{
    call->lent[name].length = length;
}

size_t lent_size(const struct call *call, unsigned name)
{
    return call->lent[name].length * lent_element_size[name];
}

static void give_number(uint64_t number, int bytes)
{
    for (int i = bytes - 1; i >= 0; i--) putc((int)(number >> (8 * i) & 0xFF), driver.to);
}

static bool take(uint8_t *to, size_t size)
{
    return size == 0 || fread(to, 1, size, driver.from) == size;
}

static bool take_number(uint64_t *number, size_t bytes)
{
    uint8_t byte[8];
    if (!take(byte, bytes)) return false;
    *number = 0;
    for (size_t i = 0; i < bytes; i++) *number = *number << 8 | byte[i];
    return true;
}

static bool give_call(const struct call *call)
{
    give_number(call->name, 1);
    for (int i = 0; i < 4; i++) give_number(call->number[i], 2);
    for (int i = 0; i < LENT_COUNT; i++) {
        const struct lent *lent = &call->lent[i];
        give_number(lent->length, 4);
        give_number(lent->fill, 1);
        give_number(lent->given_size, 4);
        if (lent->given_size > 0) fwrite(lent->given, 1, lent->given_size, driver.to);
    }
    return fflush(driver.to) == 0;
}

/* Puts a run of changed bytes in its place: into the image of the buffer, or a mark for its guards. */
static void put_run(const struct call *call, struct reply *reply, uint64_t name, uint64_t at, size_t length,
                    const uint8_t *bytes)
{
    size_t size = name == LENT_ANSWER ? 0 : lent_size(call, (unsigned)name);
    for (size_t i = 0; i < length; i++) {
        if (at + i < GUARD_SIZE || at + i - GUARD_SIZE >= size)
            reply->guard_changed[name] = true;
        else
            reply->after[name][at + i - GUARD_SIZE] = bytes[i];
    }
}

static bool take_run(const struct call *call, struct reply *reply, uint64_t name)
{
    static uint8_t bytes[MOST_LENT + 2 * GUARD_SIZE];
    uint64_t at, length, equal;
    if (!take_number(&at, 4) || !take_number(&length, 4) || !take_number(&equal, 1)) return false;
    if (name > LENT_ANSWER || length == 0 || length > sizeof bytes) return false;
    if (!take(bytes, equal ? 1 : length)) return false;
    if (equal) memset(bytes, bytes[0], length);
    put_run(call, reply, name, at, length, bytes);
    return true;
}

static void start_reply(const struct call *call, struct reply *reply)
{
    memset(reply, 0, sizeof *reply);
    for (unsigned i = 0; i < LENT_COUNT; i++) {
        const struct lent *lent = &call->lent[i];
        size_t size = lent_size(call, i);
        memset(before[i], lent->fill, size);
        if (lent->given_size > 0) memcpy(before[i], lent->given, lent->given_size);
        memcpy(after[i], before[i], size);
        reply->before[i] = before[i];
        reply->after[i] = after[i];
    }
}

bool driver_call(const struct call *call, struct reply *reply)
{
    uint64_t returned, name;
    start_reply(call, reply);
    if (!give_call(call) || !take_number(&returned, 2)) return false;
    reply->returned = (unsigned)returned;
    for (int i = 0; i < 4; i++)
        if (!take_number(&reply->answer[i], 8)) return false;
    while (take_number(&name, 1)) {
        if (name == NO_MORE_RUNS) return true;
        if (!take_run(call, reply, name)) return false;
    }
    return false;
}
