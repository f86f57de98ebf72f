#include "hold.h"

#include <inttypes.h>
#include <stdlib.h>
#include <string.h>

#include "cover.h"
#include "report.h"

struct expected expect_refusal(struct verdict verdict)
{
    struct expected expected = expect_answer(verdict.p, verdict.q, 0, 0);
    expected.refusal = verdict.number;
    expected.returned = verdict.number;
    return expected;
}

struct expected expect_answer(uint64_t first, uint64_t second, uint64_t third, uint64_t fourth)
{
    struct expected expected;
    memset(&expected, 0, sizeof expected);
    expected.answer[0] = first;
    expected.answer[1] = second;
    expected.answer[2] = third;
    expected.answer[3] = fourth;
    return expected;
}

struct expected expect_written(enum lent_name name, const uint8_t *bytes, size_t size)
{
    struct expected expected = expect_answer(size / lent_element_size[name], 0, 0, 0);
    expected.front[name].size = size;
    expected.front[name].bytes = bytes;
    return expected;
}

static void hold_answer(const struct reply *reply, const struct expected *expected)
{
    const uint64_t *want = expected->answer, *got = reply->answer;
    if (reply->returned != expected->returned)
        report_fault("returned: expected %u, got %u", expected->returned, reply->returned);
    if (memcmp(want, got, sizeof reply->answer) != 0)
        report_fault("answer: expected %" PRIu64 " %" PRIu64 " %" PRIu64 " %" PRIu64 ", got %" PRIu64 " %" PRIu64
                     " %" PRIu64 " %" PRIu64, want[0], want[1], want[2], want[3], got[0], got[1], got[2], got[3]);
}

/* The buffer before the call, with its front as the call should leave it. */
static const uint8_t *wanted(const struct reply *reply, unsigned name, const struct front *front)
{
    uint8_t *bytes = reply->before[name];
    if (front->size == 0) return bytes;
    if (front->free)
        memcpy(bytes, reply->after[name], front->size);
    else if (front->bytes)
        memcpy(bytes, front->bytes, front->size);
    else
        memset(bytes, 0, front->size);
    return bytes;
}

static void hold_memory(const struct call *call, const struct reply *reply, unsigned name, const struct front *front)
{
    size_t size = lent_size(call, name), first = 0, differ = 0;
    const uint8_t *want = wanted(reply, name, front), *got = reply->after[name];
    if (memcmp(want, got, size) == 0) return;
    while (want[first] == got[first]) first++;
    for (size_t i = first; i < size; i++) differ += want[i] != got[i];
    report_fault("%s: %zu bytes differ, the first is byte %zu: expected %02x, got %02x", lent_names[name], differ,
                 first, want[first], got[first]);
}

const struct reply *hold(const struct call *call, const struct expected *expected)
{
    static struct reply reply;
    report_case(call);
    cover_answer(call->name, expected->refusal);
    if (!driver_call(call, &reply)) {
        report_fault("the driver broke down");
        exit(report_end());
    }
    hold_answer(&reply, expected);
    for (unsigned i = 0; i < LENT_COUNT; i++) hold_memory(call, &reply, i, &expected->front[i]);
    for (unsigned i = 0; i <= LENT_COUNT; i++)
        if (reply.guard_changed[i]) report_fault("bytes beside the %s were written", lent_names[i]);
    return &reply;
}
