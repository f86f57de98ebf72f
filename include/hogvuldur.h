/*
 * hogvuldur.h: nets to crossbars of a logic emulator board, for C programs.
 *
 * A board has f FPGAs and c crossbars, each numbered from 0, and m wires from each FPGA to each
 * crossbar. An even number of them is used, the usable width w: m if m is even, m - 1 if it is
 * odd. A job adds n nets, numbered from 0, each between two different FPGAs. An assignment gives
 * each net its crossbar. Planned assignments never put more than w nets of one FPGA on one
 * crossbar, and the crossbars' totals are within one of each other. Files and answers hold m.
 *
 * Link with libhogvuldur.a (x86-64 Linux). Every call is proved to meet its contract for every
 * input that keeps to the rules of memory below.
 *
 * FILES. All numbers are two bytes, high byte first.
 *   job    3, f, c, m, n, then n pairs of FPGA numbers                  10 + 4n bytes
 *   sheet  3, f, c, m, n, then n crossbar numbers, c, then c totals     12 + 2n + 2c bytes
 *
 * A job may be typed by hand too, as text: a line `board 3`; three lines with f, c and m; a line
 * `nets` and n; then a line for each net with its two FPGA numbers. Numbers are decimal, up to
 * 65,535, with no zero in front but for 0 itself; one space between, one newline after each line,
 * the last too. A job has one text, and a text is of one job.
 *
 * MEMORY. The caller owns all of it. The library allocates nothing, keeps no pointer after a call
 * returns and has no state: calls on different memory may run at the same time.
 *   - A lent list or file is a pointer and how many elements it has. The pointer is aligned and
 *     not null, for no elements too; `const` memory is only read.
 *   - What a call writes to (room, assignment, scratch, answer) overlaps nothing else it is lent.
 *   - Scratch is at least HOGVULDUR_SCRATCH numbers. It may hold anything; after an accepted call
 *     the first HOGVULDUR_SCRATCH of them are zero.
 *   - After a refusal all lent memory is as it was, but for the answer. After an accepted call only
 *     the bytes named below are written; room beyond them is as it was.
 *
 * ANSWERS. A call that can refuse returns HOGVULDUR_DONE or the refusal's number, and always
 * writes all four numbers of `answer`: after a refusal p, q, 0, 0; otherwise what the call says,
 * filled up with zeros. What stands where in `answer` has a name below.
 *
 * REFUSALS, in the order in which they are checked unless a call says otherwise, with p (q is 0
 * where none is named). Those up to 10, with 27, are the job's refusals:
 *    1  job shorter than 10 bytes: its length
 *    2  board count is not 3: byte 0
 *    3  f outside 1 to 256: byte 2
 *    4  c outside 1 to 128: byte 4
 *    5  m is 0 or above 64: byte 6
 *    6  m is 1, so that no wire is usable: byte 6
 *    7  n above 4,096: byte 8
 *    1  job shorter than 10 + 4n: its length
 *    8  job longer than 10 + 4n: byte 10 + 4n
 *    9  a net's first FPGA is at or above f: p the net, q the byte of that number in the job
 *   27  a net's second FPGA is at or above f: p the net, q the byte of that number in the job
 *   10  a net has the same FPGA twice: p the net, q the byte of its second number
 *       (nets in order, each for 9, then 27, then 10)
 *   11  a lent buffer is too short: 0
 *   12  some FPGA has more than w times c nets: lowest such FPGA. No assignment keeps all loads
 *       within w then; for odd m there may be one within m
 *   13  a crossbar number in a lent assignment at or above c: lowest such net
 *   21  sheet length is not 12 + 2n + 2c: its length
 *   22  a sheet count, f, c or m differs from the job: byte of the first
 *   23  a sheet's crossbar number at or above c: lowest such net
 *   24  a load above w: p the lowest FPGA, q the lowest crossbar there
 *   25  totals more than 1 apart: lowest crossbar 2 or more below the greatest
 *   26  a written total is wrong: lowest such crossbar
 *   31  a text breaks the form: p the line, from 1, and q the first byte in that line, from 0, with
 *       which no text of the form could go on; or the line's end, if the text stops short
 *   32  a text goes on after its last net: p the line with which it does, q 0
 */
#ifndef HOGVULDUR_H
#define HOGVULDUR_H

#include <stddef.h>
#include <stdint.h>

#ifdef __cplusplus
extern "C" {
#endif

#define HOGVULDUR_MOST_FPGAS 256
#define HOGVULDUR_MOST_CROSSBARS 128
#define HOGVULDUR_MOST_WIRES 64
#define HOGVULDUR_MOST_NETS 4096

/* The usable width w of m wires. */
#define HOGVULDUR_USABLE_WIDTH(m) ((m) - (m) % 2)

/* The least length of scratch, in numbers of two bytes. */
#define HOGVULDUR_SCRATCH 32768

/* The length of a job and of a sheet with n nets and c crossbars; the longest of each. */
#define HOGVULDUR_JOB_BYTES(n) ((size_t)10 + 4 * (size_t)(n))
#define HOGVULDUR_SHEET_BYTES(n, c) ((size_t)12 + 2 * (size_t)(n) + 2 * (size_t)(c))
#define HOGVULDUR_MOST_JOB_BYTES HOGVULDUR_JOB_BYTES(HOGVULDUR_MOST_NETS)
#define HOGVULDUR_MOST_SHEET_BYTES HOGVULDUR_SHEET_BYTES(HOGVULDUR_MOST_NETS, HOGVULDUR_MOST_CROSSBARS)

/*
 * The longest text of a job; and the longest text of the form, whose numbers go up to 65,535: of a
 * longer text one byte more is enough to read, for it is refused there or before.
 */
#define HOGVULDUR_MOST_TEXT_BYTES ((size_t)32797)
#define HOGVULDUR_MOST_FORM_BYTES ((size_t)786457)

/* What a call returns when nothing is refused, and the refusals. */
enum {
    HOGVULDUR_DONE = 0,
    HOGVULDUR_JOB_TOO_SHORT = 1,
    HOGVULDUR_BOARD_COUNT_WRONG = 2,
    HOGVULDUR_F_OUT_OF_RANGE = 3,
    HOGVULDUR_C_OUT_OF_RANGE = 4,
    HOGVULDUR_M_OUT_OF_RANGE = 5,
    HOGVULDUR_M_ONE = 6,
    HOGVULDUR_TOO_MANY_NETS = 7,
    HOGVULDUR_JOB_TOO_LONG = 8,
    HOGVULDUR_NO_SUCH_FIRST_FPGA = 9,
    HOGVULDUR_FPGA_TWICE = 10,
    HOGVULDUR_BUFFER_TOO_SHORT = 11,
    HOGVULDUR_DEGREE_ABOVE_LIMIT = 12,
    HOGVULDUR_NO_SUCH_CROSSBAR = 13,
    HOGVULDUR_SHEET_LENGTH_WRONG = 21,
    HOGVULDUR_SHEET_HEAD_DIFFERS = 22,
    HOGVULDUR_SHEET_CROSSBAR_WRONG = 23,
    HOGVULDUR_LOAD_ABOVE_WIDTH = 24,
    HOGVULDUR_NOT_BALANCED = 25,
    HOGVULDUR_SHEET_TOTAL_WRONG = 26,
    HOGVULDUR_NO_SUCH_SECOND_FPGA = 27,
    HOGVULDUR_TEXT_BREAKS = 31,
    HOGVULDUR_TEXT_TOO_LONG = 32
};

/* What stands where in `answer`: answer[HOGVULDUR_P] and so on. */
enum { HOGVULDUR_P, HOGVULDUR_Q };                                     /* after a refusal */
enum { HOGVULDUR_F, HOGVULDUR_C, HOGVULDUR_M, HOGVULDUR_N };           /* numbers */
enum { HOGVULDUR_FIRST_FPGA, HOGVULDUR_SECOND_FPGA };                  /* net */
enum { HOGVULDUR_SECTION_START, HOGVULDUR_SECTION_BYTES };             /* net_section */
enum { HOGVULDUR_WRITTEN };                                            /* write_job, read_text, write_text, write_sheet, read_sheet */
enum { HOGVULDUR_MOVED, HOGVULDUR_V, HOGVULDUR_A, HOGVULDUR_B };       /* one_round */
enum { HOGVULDUR_ROUNDS, HOGVULDUR_EXCESS };                           /* finish, plan */
enum { HOGVULDUR_IN_SHEET, HOGVULDUR_FAULT_START, HOGVULDUR_FAULT_BYTES }; /* evidence */
enum { HOGVULDUR_NETS_LEFT };                                          /* spare, headroom */

/* Checks a job: the job's refusals. */
uint16_t hogvuldur_check(const uint8_t *job, size_t job_length, uint64_t answer[4]);

/* f, c, m and n of a job; of a refused job four zeros. */
void hogvuldur_numbers(const uint8_t *job, size_t job_length, uint64_t answer[4]);

/*
 * The two FPGAs of net i. Returns 1, or 0 with four zeros where there is no such net: i at or
 * above n, or the job refused. It checks the whole job each time: to go through all nets, ask
 * for the net section once and read four bytes a net there.
 */
uint16_t hogvuldur_net(const uint8_t *job, size_t job_length, uint16_t i, uint64_t answer[4]);

/*
 * Where the nets of a job stand in it: the first byte, and how many bytes (4n). Of a refused job
 * both are 0.
 */
void hogvuldur_net_section(const uint8_t *job, size_t job_length, uint64_t answer[4]);

/*
 * Writes the job of a board f, c, m with n nets to the first 10 + 4n bytes of `room`. Net i is
 * between FPGAs ends[2i] and ends[2i + 1]. Refusals 3 to 7; 11 for fewer than 2n ends or too
 * little room; then 9, 27 and 10. Places are those in the job it would write. Answer: the bytes
 * written.
 */
uint16_t hogvuldur_write_job(uint16_t f, uint16_t c, uint16_t m, uint16_t n,
                             const uint16_t *ends, size_t ends_length,
                             uint8_t *room, size_t room_length, uint64_t answer[4]);

/*
 * Turns a text into a job, in the first 10 + 4n bytes of `room`. Refusals 31 and 32; then 3 to 7,
 * 9, 27 and 10 on the numbers read, at their places in the job; then 11 for too little room.
 * Answer: the bytes written.
 */
uint16_t hogvuldur_read_text(const uint8_t *text, size_t text_length,
                             uint8_t *room, size_t room_length, uint64_t answer[4]);

/*
 * Writes the text of a job to the front of `room`. The job's refusals, then 11. Answer: the bytes
 * written; HOGVULDUR_MOST_TEXT_BYTES are enough for every job.
 */
uint16_t hogvuldur_write_text(const uint8_t *job, size_t job_length,
                              uint8_t *room, size_t room_length, uint64_t answer[4]);

/*
 * One round on the assignment in the first n numbers of `plan`. The job's refusals, then 11 to 13.
 *   0, 0, 0, 0   settled: the assignment is legal; only scratch is written
 *   1, v, A, B   moved: v is the lowest FPGA with a load above w, A its lowest crossbar with a load
 *                above w, B its lowest with a load below w. Nets of A and B are spread anew over A
 *                and B; the new assignment replaces the old.
 */
uint16_t hogvuldur_one_round(const uint8_t *job, size_t job_length,
                             uint16_t *plan, size_t plan_length,
                             uint16_t *scratch, size_t scratch_length, uint64_t answer[4]);

/*
 * Rounds from the assignment in the first n numbers of `plan` until it is legal. The job's refusals,
 * then 11 to 13. Answer: how many rounds were made, and the total excess before the first.
 */
uint16_t hogvuldur_finish(const uint8_t *job, size_t job_length,
                          uint16_t *plan, size_t plan_length,
                          uint16_t *scratch, size_t scratch_length, uint64_t answer[4]);

/*
 * Net i to crossbar i mod c, then finish. The result, in the first n numbers of `plan`, is legal
 * and its totals are within one of each other. The job's refusals, then 11 and 12. Answer as of
 * finish.
 */
uint16_t hogvuldur_plan(const uint8_t *job, size_t job_length,
                        uint16_t *plan, size_t plan_length,
                        uint16_t *scratch, size_t scratch_length, uint64_t answer[4]);

/*
 * Writes the sheet of a job and an assignment to the first 12 + 2n + 2c bytes of `room`. The job's
 * refusals, then 11, 13, 24, 25. The audit accepts what it writes. Answer: the bytes written.
 */
uint16_t hogvuldur_write_sheet(const uint8_t *job, size_t job_length,
                               const uint16_t *plan, size_t plan_length,
                               uint8_t *room, size_t room_length, uint64_t answer[4]);

/*
 * Writes a sheet's n crossbar numbers to the front of `plan`. The audit's refusals, then 11. Answer:
 * the numbers written, n.
 */
uint16_t hogvuldur_read_sheet(const uint8_t *job, size_t job_length,
                              const uint8_t *sheet, size_t sheet_length,
                              uint16_t *plan, size_t plan_length, uint64_t answer[4]);

/*
 * Audits a sheet against a job. The job's refusals, then 21 to 26 in that order. Done exactly when
 * the sheet is what the writer writes for some legal balanced assignment of that job.
 */
uint16_t hogvuldur_audit(const uint8_t *job, size_t job_length,
                         const uint8_t *sheet, size_t sheet_length, uint64_t answer[4]);

/*
 * Makes the audit and says which bytes are at fault: 0 for the job or 1 for the sheet, the first
 * byte, and how many. The two job bytes at q for 9 and 27, the four of the net for 10; two sheet
 * bytes for 22, 23 (the net's number) and 26 (the written total); otherwise the empty start of the
 * job: 0, 0, 0.
 */
void hogvuldur_evidence(const uint8_t *job, size_t job_length,
                        const uint8_t *sheet, size_t sheet_length, uint64_t answer[4]);

/*
 * Spare of FPGA v: w times c minus its degree. The job's refusals, then 12; then 9 for v at or above
 * f, p being v and q 0.
 */
uint16_t hogvuldur_spare(const uint8_t *job, size_t job_length, uint16_t v, uint64_t answer[4]);

/*
 * Headroom of FPGAs v and w: the smaller spare. The job's refusals, then 12; then 9 for v, 27 for w,
 * 10 if they are equal, p being that number and q 0.
 */
uint16_t hogvuldur_headroom(const uint8_t *job, size_t job_length, uint16_t v, uint16_t w,
                            uint64_t answer[4]);

#ifdef __cplusplus
}
#endif

#endif
