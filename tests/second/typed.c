#include "typed.h"

#include <string.h>

#include "chance.h"
#include "cover.h"
#include "hold.h"
#include "report.h"
#include "text.h"

/* Whether a text that breaks at this place stops short there. */
static bool stops_short(struct file text, struct verdict at)
{
    size_t place = 0;
    for (uint64_t line = 1; line < at.p; line++)
        while (text.bytes[place++] != '\n') {}
    return place + at.q == text.length;
}

/* Makes the call and gives the front of its room, as long as it should be. */
static struct file written(const struct call *call, const struct expected *expected)
{
    const struct reply *reply = hold(call, expected);
    struct file front = {reply->after[LENT_ROOM], reply->returned == 0 ? expected->front[LENT_ROOM].size : 0};
    return front;
}

struct file case_read_text(struct file text, size_t room_length)
{
    static const uint8_t nothing[1];
    static struct typed typed;
    static uint8_t job[MOST_JOB];
    const struct file none = {nothing, 0};
    struct call call = call_on(CALL_READ_TEXT, none);
    struct verdict verdict = read_typed(text, &typed);
    if (verdict.number == 0 && room_length < job_size(typed.number[3])) verdict = refuse(11, 0, 0);
    if (verdict.number == 31 || verdict.number == 32)
        cover_text(verdict, verdict.number == 31 && stops_short(text, verdict));
    struct expected expected = expect_refusal(verdict);
    if (verdict.number == 0) expected = expect_written(LENT_ROOM, job, put_job(job, typed.number, typed.ends));
    lend_file(&call, LENT_TEXT, text);
    lend_room(&call, LENT_ROOM, room_length);
    return written(&call, &expected);
}

/* The text of a job, and a zero behind it. */
static size_t put_text_of(uint8_t *room, const struct job *job)
{
    static uint16_t ends[2 * MOST_NETS];
    const unsigned number[4] = {job->f, job->c, job->m, job->n};
    for (unsigned i = 0; i < 2 * job->n; i++) ends[i] = (uint16_t)net_end(job, i / 2, i % 2);
    return put_text(room, number, ends);
}

struct file case_write_text(struct file file, size_t room_length)
{
    static uint8_t text[MOST_TYPED + 1];
    struct job job;
    struct call call = call_on(CALL_WRITE_TEXT, file);
    struct verdict verdict = read_job(file, &job);
    size_t length = put_text_of(text, &job);
    if (verdict.number == 0 && room_length < length) verdict = refuse(11, 0, 0);
    struct expected expected = expect_refusal(verdict);
    if (verdict.number == 0) expected = expect_written(LENT_ROOM, text, length);
    lend_room(&call, LENT_ROOM, room_length);
    return written(&call, &expected);
}

/* What a call wrote, in other memory, to be lent to the next. */
static struct file copy_of(struct file file)
{
    static uint8_t bytes[MOST_TYPED];
    struct file copy = {bytes, file.length};
    memcpy(bytes, file.bytes, file.length);
    return copy;
}

static void must_be_same(struct file want, struct file got, const char *what)
{
    if (got.length != want.length || memcmp(got.bytes, want.bytes, got.length) != 0)
        report_failure("there and back: %s is another", what);
}

void try_text(struct file text)
{
    static struct typed typed;
    unsigned refusal = read_typed(text, &typed).number;
    size_t least = job_size(typed.number[3] > MOST_NETS ? MOST_NETS : typed.number[3]);
    case_read_text(text, 0);
    case_read_text(text, least - 1);
    struct file job = case_read_text(text, least + chance_below(3));
    if (refusal != 0 || case_failed()) return;
    must_be_same(text, case_write_text(copy_of(job), text.length + chance_below(3)), "a text");
}

void try_job(struct file job)
{
    struct job read;
    unsigned refusal = read_job(job, &read).number;
    size_t least = text_size(&read);
    case_write_text(job, 0);
    case_write_text(job, least - 1);
    struct file text = case_write_text(job, least + chance_below(3));
    if (refusal != 0 || case_failed()) return;
    must_be_same(job, case_read_text(copy_of(text), job.length + chance_below(3)), "a job");
}
