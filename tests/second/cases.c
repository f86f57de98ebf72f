#include "cases.h"

#include <string.h>

#include "cover.h"
#include "hold.h"
#include "report.h"
#include "sheet.h"

void case_check(struct file file)
{
    struct job job;
    struct call call = call_on(CALL_CHECK, file);
    struct expected expected = expect_refusal(read_job(file, &job));
    hold(&call, &expected);
}

void case_numbers(struct file file)
{
    struct job job;
    struct call call = call_on(CALL_NUMBERS, file);
    unsigned refusal = read_job(file, &job).number;
    struct expected expected = expect_answer(job.f, job.c, job.m, job.n);
    expected.refusal = refusal;
    hold(&call, &expected);
}

void case_net(struct file file, unsigned net)
{
    struct job job;
    struct call call = call_on(CALL_NET, file);
    unsigned refusal = read_job(file, &job).number;
    struct expected expected = expect_answer(0, 0, 0, 0);
    if (net < job.n) {
        expected = expect_answer(net_end(&job, net, 0), net_end(&job, net, 1), 0, 0);
        expected.returned = 1;
    }
    expected.refusal = refusal;
    call.number[0] = net;
    hold(&call, &expected);
}

void case_net_section(struct file file)
{
    struct job job;
    struct call call = call_on(CALL_NET_SECTION, file);
    unsigned refusal = read_job(file, &job).number;
    struct expected expected = expect_answer(refusal == 0 ? JOB_HEAD : 0, 4 * job.n, 0, 0);
    expected.refusal = refusal;
    hold(&call, &expected);
}

static struct verdict check_write_job(const unsigned number[4], struct list ends, size_t room_length)
{
    unsigned f = number[0], n = number[3];
    struct verdict verdict = check_numbers(f, number[1], number[2], n);
    if (verdict.number != 0) return verdict;
    if (ends.length < 2 * (size_t)n || room_length < job_size(n)) return refuse(11, 0, 0);
    for (unsigned net = 0; net < n && verdict.number == 0; net++)
        verdict = check_net(f, net, ends.numbers[2 * net], ends.numbers[2 * net + 1]);
    return verdict;
}

void case_write_job(const unsigned number[4], struct list ends, size_t room_length)
{
    static const uint8_t nothing[1];
    static uint8_t job[MOST_JOB];
    const struct file none = {nothing, 0};
    struct call call = call_on(CALL_WRITE_JOB, none);
    struct verdict verdict = check_write_job(number, ends, room_length);
    struct expected expected = expect_refusal(verdict);
    memcpy(call.number, number, sizeof call.number);
    lend_list(&call, LENT_ENDS, ends);
    lend_room(&call, LENT_ROOM, room_length);
    if (verdict.number == 0) expected = expect_written(LENT_ROOM, job, put_job(job, number, ends.numbers));
    hold(&call, &expected);
}

/* The job's refusals and 12, which come before any question about an FPGA. */
static struct verdict check_for_spare(struct file file, struct job *job)
{
    struct verdict verdict = read_job(file, job);
    return verdict.number != 0 ? verdict : check_degrees(job);
}

static unsigned spare(const struct job *job, unsigned fpga)
{
    unsigned degrees[MOST_FPGAS];
    count_degrees(job, degrees);
    return job->width * job->c - degrees[fpga];
}

void case_spare(struct file file, unsigned fpga)
{
    struct job job;
    struct call call = call_on(CALL_SPARE, file);
    struct verdict verdict = check_for_spare(file, &job);
    if (verdict.number == 0) {
        if (fpga >= job.f) verdict = refuse(9, fpga, 0);
        cover_asked(CALL_SPARE, verdict.number);
    }
    struct expected expected = expect_refusal(verdict);
    if (verdict.number == 0) expected = expect_answer(spare(&job, fpga), 0, 0, 0);
    call.number[0] = fpga;
    hold(&call, &expected);
}

/* Of two FPGAs asked about; no byte is at fault, so the second place is 0. */
static struct verdict check_asked(unsigned f, unsigned first, unsigned second)
{
    if (first >= f) return refuse(9, first, 0);
    if (second >= f) return refuse(27, second, 0);
    if (first == second) return refuse(10, first, 0);
    return done;
}

void case_headroom(struct file file, unsigned first, unsigned second)
{
    struct job job;
    struct call call = call_on(CALL_HEADROOM, file);
    struct verdict verdict = check_for_spare(file, &job);
    if (verdict.number == 0) {
        verdict = check_asked(job.f, first, second);
        cover_asked(CALL_HEADROOM, verdict.number);
    }
    struct expected expected = expect_refusal(verdict);
    if (verdict.number == 0) {
        unsigned one = spare(&job, first), other = spare(&job, second);
        expected = expect_answer(one < other ? one : other, 0, 0, 0);
    }
    call.number[0] = first;
    call.number[1] = second;
    hold(&call, &expected);
}

static struct verdict check_write_sheet(struct file file, struct list plan, size_t room_length, struct job *job)
{
    struct verdict verdict = read_job(file, job);
    if (verdict.number != 0) return verdict;
    if (plan.length < job->n || room_length < sheet_size(job)) return refuse(11, 0, 0);
    verdict = check_assignment(job, plan.numbers);
    return verdict.number != 0 ? verdict : check_loads(job, plan.numbers);
}

const uint8_t *case_write_sheet(struct file file, struct list plan, size_t room_length)
{
    static uint8_t sheet[MOST_SHEET];
    struct job job;
    struct call call = call_on(CALL_WRITE_SHEET, file);
    struct verdict verdict = check_write_sheet(file, plan, room_length, &job);
    struct expected expected = expect_refusal(verdict);
    lend_list(&call, LENT_PLAN, plan);
    lend_room(&call, LENT_ROOM, room_length);
    if (verdict.number == 0) expected = expect_written(LENT_ROOM, sheet, put_sheet(&job, plan.numbers, sheet));
    const struct reply *reply = hold(&call, &expected);
    return reply->returned == 0 ? reply->after[LENT_ROOM] : NULL;
}

void case_read_sheet(struct file file, struct file sheet, size_t plan_length)
{
    static uint8_t numbers[2 * MOST_NETS];
    struct job job;
    struct call call = call_on(CALL_READ_SHEET, file);
    struct verdict verdict = audit(file, sheet);
    read_job(file, &job);
    if (verdict.number == 0 && plan_length < job.n) verdict = refuse(11, 0, 0);
    struct expected expected = expect_refusal(verdict);
    lend_file(&call, LENT_SHEET, sheet);
    lend_room(&call, LENT_PLAN, plan_length);
    if (verdict.number == 0) {
        /* A sheet has the high byte first, memory the low byte. */
        for (size_t i = 0; i < 2 * (size_t)job.n; i++) numbers[i ^ 1] = sheet.bytes[SHEET_HEAD + i];
        expected = expect_written(LENT_PLAN, numbers, 2 * (size_t)job.n);
    }
    hold(&call, &expected);
}

/* "Done exactly when the sheet is what the writer writes": held against the library's own writer. */
static void hold_against_writer(struct file file, struct file sheet, bool accepted)
{
    uint16_t numbers[MOST_NETS];
    struct job job;
    if (read_job(file, &job).number != 0 || sheet.length != sheet_size(&job)) return;
    sheet_numbers(&job, sheet, numbers);
    struct list plan = {numbers, job.n};
    const uint8_t *written = case_write_sheet(file, plan, sheet.length);
    bool same = written && memcmp(written, sheet.bytes, sheet.length) == 0;
    if (same != accepted)
        report_failure("the audit %s a sheet that the writer %s", accepted ? "accepts" : "refuses",
                       same ? "writes" : "does not write");
}

void case_audit(struct file file, struct file sheet)
{
    struct call call = call_on(CALL_AUDIT, file);
    struct expected expected = expect_refusal(audit(file, sheet));
    lend_file(&call, LENT_SHEET, sheet);
    hold_against_writer(file, sheet, hold(&call, &expected)->returned == 0);
}

void case_evidence(struct file file, struct file sheet)
{
    struct call call = call_on(CALL_EVIDENCE, file);
    struct evidence at = evidence(file, sheet);
    struct expected expected = expect_answer(at.file, at.first, at.size, 0);
    expected.refusal = audit(file, sheet).number;
    lend_file(&call, LENT_SHEET, sheet);
    hold(&call, &expected);
}
