#include "job.h"

const struct verdict done = {0, 0, 0};

struct verdict refuse(unsigned number, uint64_t p, uint64_t q)
{
    struct verdict verdict = {number, p, q};
    return verdict;
}

unsigned file_number(struct file file, size_t place)
{
    return (unsigned)file.bytes[place] << 8 | file.bytes[place + 1];
}

void put_number(uint8_t *at, unsigned number)
{
    at[0] = (uint8_t)(number >> 8);
    at[1] = (uint8_t)number;
}

size_t job_size(unsigned n)
{
    return JOB_HEAD + 4 * (size_t)n;
}

unsigned usable_width(unsigned m)
{
    return m % 2 == 0 ? m : m - 1;
}

struct verdict check_numbers(unsigned f, unsigned c, unsigned m, unsigned n)
{
    if (f < 1 || f > MOST_FPGAS) return refuse(3, 2, 0);
    if (c < 1 || c > MOST_CROSSBARS) return refuse(4, 4, 0);
    if (m < 1 || m > MOST_WIRES) return refuse(5, 6, 0);
    if (m == 1) return refuse(6, 6, 0);
    if (n > MOST_NETS) return refuse(7, 8, 0);
    return done;
}

struct verdict check_net(unsigned f, unsigned net, unsigned x, unsigned y)
{
    size_t first = job_size(net), second = first + 2; /* the bytes of its two numbers */
    if (x >= f) return refuse(9, net, first);
    if (y >= f) return refuse(27, net, second);
    if (x == y) return refuse(10, net, second);
    return done;
}

static struct verdict check_file(struct file file)
{
    if (file.length < JOB_HEAD) return refuse(1, file.length, 0);
    if (file_number(file, 0) != 3) return refuse(2, 0, 0);
    unsigned f = file_number(file, 2), n = file_number(file, 8);
    struct verdict verdict = check_numbers(f, file_number(file, 4), file_number(file, 6), n);
    if (verdict.number != 0) return verdict;
    if (file.length < job_size(n)) return refuse(1, file.length, 0);
    if (file.length > job_size(n)) return refuse(8, job_size(n), 0);
    for (unsigned net = 0; net < n && verdict.number == 0; net++)
        verdict = check_net(f, net, file_number(file, job_size(net)), file_number(file, job_size(net) + 2));
    return verdict;
}

struct verdict read_job(struct file file, struct job *job)
{
    const struct job none = {0, 0, 0, 0, 0, NULL};
    struct verdict verdict = check_file(file);
    *job = none;
    if (verdict.number != 0) return verdict;
    job->f = file_number(file, 2);
    job->c = file_number(file, 4);
    job->m = file_number(file, 6);
    job->n = file_number(file, 8);
    job->width = usable_width(job->m);
    job->nets = file.bytes + JOB_HEAD;
    return verdict;
}

unsigned net_end(const struct job *job, unsigned net, unsigned end)
{
    const uint8_t *at = job->nets + 4 * (size_t)net + 2 * (size_t)end;
    return (unsigned)at[0] << 8 | at[1];
}

size_t put_job(uint8_t *room, const unsigned number[4], const uint16_t *ends)
{
    put_number(room, 3);
    for (size_t i = 0; i < 4; i++) put_number(room + 2 + 2 * i, number[i]);
    for (size_t i = 0; i < 2 * (size_t)number[3]; i++) put_number(room + JOB_HEAD + 2 * i, ends[i]);
    return job_size(number[3]);
}
