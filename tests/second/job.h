/* Job files, and the refusals that their bytes can meet: 1 to 10 and 27. */
#ifndef JOB_H
#define JOB_H

#include <stddef.h>
#include <stdint.h>

enum {
    MOST_FPGAS = 256,
    MOST_CROSSBARS = 128,
    MOST_WIRES = 64,
    MOST_NETS = 4096,
    LEAST_SCRATCH = 32768, /* numbers of two bytes */
    JOB_HEAD = 10,         /* bytes of a job before its nets */
    MOST_JOB = JOB_HEAD + 4 * MOST_NETS
};

/* The bytes of a job or a sheet, whatever they hold. */
struct file {
    const uint8_t *bytes;
    size_t length;
};

/* Done (0) or a refusal's number, with its places. */
struct verdict {
    unsigned number;
    uint64_t p, q;
};

/* A job that is not refused. */
struct job {
    unsigned f, c, m, n;
    unsigned width; /* the usable width: what every rule but the files' own numbers reads for m */
    const uint8_t *nets;
};

extern const struct verdict done;

struct verdict refuse(unsigned number, uint64_t p, uint64_t q);

/* The two-byte number at a place of a file. */
unsigned file_number(struct file file, size_t place);

void put_number(uint8_t *at, unsigned number);

/* Document 02, ticket 1: m if even, m - 1 if odd. */
unsigned usable_width(unsigned m);

/* Refusals 3 to 7 of a board's numbers. */
struct verdict check_numbers(unsigned f, unsigned c, unsigned m, unsigned n);

/* Refusals 9, 27 and 10 of one net (27 and the second place by ticket 2). */
struct verdict check_net(unsigned f, unsigned net, unsigned x, unsigned y);

/* The job's refusals. Of a refused job all numbers are 0. */
struct verdict read_job(struct file file, struct job *job);

/* The FPGA at end 0 or 1 of a net. */
unsigned net_end(const struct job *job, unsigned net, unsigned end);

/* Writes a job's bytes without looking at them; gives the length. */
size_t put_job(uint8_t *room, const unsigned number[4], const uint16_t *ends);

size_t job_size(unsigned n);

#endif
