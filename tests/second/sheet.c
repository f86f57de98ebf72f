#include "sheet.h"

size_t sheet_size(const struct job *job)
{
    return 12 + 2 * (size_t)job->n + 2 * (size_t)job->c;
}

/* The byte of the count before the totals. */
static size_t totals_count(const struct job *job)
{
    return SHEET_HEAD + 2 * (size_t)job->n;
}

struct verdict check_loads(const struct job *job, const uint16_t *plan)
{
    static struct loads loads;
    count_loads(job, plan, &loads);
    for (unsigned fpga = 0; fpga < job->f; fpga++)
        for (unsigned crossbar = 0; crossbar < job->c; crossbar++)
            if (loads.load[fpga][crossbar] > job->width) return refuse(24, fpga, crossbar);
    unsigned greatest = greatest_total(job, &loads);
    for (unsigned crossbar = 0; crossbar < job->c; crossbar++)
        if (loads.total[crossbar] + 2 <= greatest) return refuse(25, crossbar, 0);
    return done;
}

size_t put_sheet(const struct job *job, const uint16_t *plan, uint8_t *room)
{
    unsigned totals[MOST_CROSSBARS] = {0};
    const unsigned head[5] = {3, job->f, job->c, job->m, job->n};
    for (size_t i = 0; i < 5; i++) put_number(room + 2 * i, head[i]);
    for (size_t net = 0; net < job->n; net++) {
        put_number(room + SHEET_HEAD + 2 * net, plan[net]);
        totals[plan[net]]++;
    }
    put_number(room + totals_count(job), job->c);
    for (size_t i = 0; i < job->c; i++) put_number(room + totals_count(job) + 2 + 2 * i, totals[i]);
    return sheet_size(job);
}

void sheet_numbers(const struct job *job, struct file sheet, uint16_t *plan)
{
    for (size_t net = 0; net < job->n; net++) plan[net] = (uint16_t)file_number(sheet, SHEET_HEAD + 2 * net);
}

/* Refusal 22. */
static struct verdict check_heads(const struct job *job, struct file sheet)
{
    const unsigned head[5] = {3, job->f, job->c, job->m, job->n};
    for (size_t i = 0; i < 5; i++)
        if (file_number(sheet, 2 * i) != head[i]) return refuse(22, 2 * i, 0);
    if (file_number(sheet, totals_count(job)) != job->c) return refuse(22, totals_count(job), 0);
    return done;
}

/* Refusal 26. */
static struct verdict check_totals(const struct job *job, struct file sheet, const uint16_t *plan)
{
    unsigned totals[MOST_CROSSBARS] = {0};
    for (unsigned net = 0; net < job->n; net++) totals[plan[net]]++;
    for (unsigned i = 0; i < job->c; i++)
        if (file_number(sheet, totals_count(job) + 2 + 2 * (size_t)i) != totals[i]) return refuse(26, i, 0);
    return done;
}

struct verdict audit(struct file job_file, struct file sheet)
{
    uint16_t plan[MOST_NETS];
    struct job job;
    struct verdict verdict = read_job(job_file, &job);
    if (verdict.number != 0) return verdict;
    if (sheet.length != sheet_size(&job)) return refuse(21, sheet.length, 0);
    verdict = check_heads(&job, sheet);
    if (verdict.number != 0) return verdict;
    sheet_numbers(&job, sheet, plan);
    verdict = check_assignment(&job, plan);
    /* The same fault in a sheet has a number of its own. */
    if (verdict.number != 0) return refuse(23, verdict.p, 0);
    verdict = check_loads(&job, plan);
    if (verdict.number != 0) return verdict;
    return check_totals(&job, sheet, plan);
}

struct evidence evidence(struct file job_file, struct file sheet)
{
    struct job job;
    struct verdict verdict = audit(job_file, sheet);
    struct evidence at = {0, 0, 0};
    read_job(job_file, &job);
    if (verdict.number == 9 || verdict.number == 27) {
        at.first = verdict.q;
        at.size = 2;
    } else if (verdict.number == 10) {
        at.first = job_size((unsigned)verdict.p);
        at.size = 4;
    } else if (verdict.number == 22 || verdict.number == 23 || verdict.number == 26) {
        at.file = 1;
        at.size = 2;
        at.first = verdict.p;
        if (verdict.number == 23) at.first = SHEET_HEAD + 2 * verdict.p;
        if (verdict.number == 26) at.first = totals_count(&job) + 2 + 2 * verdict.p;
    }
    return at;
}
