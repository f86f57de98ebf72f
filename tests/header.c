/*
 * The header's names. Each refusal is provoked once and must be called by its name; each answer must stand where its name says.
 * Small boards, but for the longest texts: what the calls answer is the second program's to hold.
 */
#include <hogvuldur.h>
#include <inttypes.h>
#include <stdio.h>
#include <string.h>

enum { NETS = 4 };

static uint8_t job[HOGVULDUR_MOST_JOB_BYTES + 1], sheet[HOGVULDUR_MOST_SHEET_BYTES];
static char text[HOGVULDUR_MOST_FORM_BYTES + 2];
static uint16_t plan[HOGVULDUR_MOST_NETS], scratch[HOGVULDUR_SCRATCH];
static uint64_t answer[4];
static size_t job_long, sheet_long;
static int wrong;

static void hold(const char *what, uint64_t want, uint64_t got)
{
    if (want == got) return;
    printf("header: %s: expected %" PRIu64 ", got %" PRIu64 "\n", what, want, got);
    wrong = 1;
}

#define IS(call, name) hold(#name, name, call)
#define STANDS(name, want) hold(#name, want, answer[name])

/* A board 2, c, 2 with n nets between FPGAs 0 and 1. */
static void make_job(uint16_t c, uint16_t n)
{
    static const uint16_t ends[2 * 5] = {0, 1, 0, 1, 0, 1, 0, 1, 0, 1};
    IS(hogvuldur_write_job(2, c, 2, n, ends, 2 * (size_t)n, job, sizeof job, answer), HOGVULDUR_DONE);
    STANDS(HOGVULDUR_WRITTEN, HOGVULDUR_JOB_BYTES(n));
    job_long = (size_t)answer[HOGVULDUR_WRITTEN];
}

static uint16_t check(void)
{
    return hogvuldur_check(job, job_long, answer);
}

/* The check of a job with one byte changed; the byte is changed back. */
static uint16_t check_with(size_t at, uint8_t byte)
{
    uint8_t kept = job[at];
    uint16_t number;
    job[at] = byte;
    number = check();
    job[at] = kept;
    return number;
}

static uint16_t audit_with(size_t at, uint8_t byte)
{
    uint8_t kept = sheet[at];
    uint16_t number;
    sheet[at] = byte;
    number = hogvuldur_audit(job, job_long, sheet, sheet_long, answer);
    sheet[at] = kept;
    return number;
}

static uint16_t write_sheet(uint16_t a, uint16_t b, uint16_t c, uint16_t d)
{
    const uint16_t to[NETS] = {a, b, c, d};
    return hogvuldur_write_sheet(job, job_long, to, NETS, sheet, sizeof sheet, answer);
}

static void jobs(void)
{
    make_job(2, NETS);
    IS(check(), HOGVULDUR_DONE);
    IS(hogvuldur_check(job, 9, answer), HOGVULDUR_JOB_TOO_SHORT);
    STANDS(HOGVULDUR_P, 9);
    IS(check_with(1, 4), HOGVULDUR_BOARD_COUNT_WRONG);
    IS(check_with(3, 0), HOGVULDUR_F_OUT_OF_RANGE);
    IS(check_with(5, 129), HOGVULDUR_C_OUT_OF_RANGE);
    IS(check_with(7, 65), HOGVULDUR_M_OUT_OF_RANGE);
    IS(check_with(7, 1), HOGVULDUR_M_ONE);
    IS(check_with(7, 63), HOGVULDUR_DONE);
    IS(check_with(8, 17), HOGVULDUR_TOO_MANY_NETS);
    IS(check_with(9, NETS - 1), HOGVULDUR_JOB_TOO_LONG);
    IS(check_with(11, 2), HOGVULDUR_NO_SUCH_FIRST_FPGA);
    STANDS(HOGVULDUR_P, 0);
    STANDS(HOGVULDUR_Q, 10);
    IS(check_with(17, 2), HOGVULDUR_NO_SUCH_SECOND_FPGA);
    STANDS(HOGVULDUR_P, 1);
    STANDS(HOGVULDUR_Q, 16);
    IS(check_with(11, 1), HOGVULDUR_FPGA_TWICE);
    STANDS(HOGVULDUR_Q, 12);
    hogvuldur_numbers(job, job_long, answer);
    STANDS(HOGVULDUR_F, 2);
    STANDS(HOGVULDUR_C, 2);
    STANDS(HOGVULDUR_M, 2);
    STANDS(HOGVULDUR_N, NETS);
    hold("net", 1, hogvuldur_net(job, job_long, 3, answer));
    STANDS(HOGVULDUR_FIRST_FPGA, 0);
    STANDS(HOGVULDUR_SECOND_FPGA, 1);
    hogvuldur_net_section(job, job_long, answer);
    STANDS(HOGVULDUR_SECTION_START, 10);
    STANDS(HOGVULDUR_SECTION_BYTES, 4 * NETS);
}

static uint16_t read_text(const char *lent, size_t length)
{
    return hogvuldur_read_text((const uint8_t *)lent, length, job, sizeof job, answer);
}

static void texts(void)
{
    static const char typed[] = "board 3\n2\n2\n2\nnets 1\n0 1\n";
    size_t length = strlen(typed);
    IS(read_text(typed, length), HOGVULDUR_DONE);
    STANDS(HOGVULDUR_WRITTEN, HOGVULDUR_JOB_BYTES(1));
    job_long = (size_t)answer[HOGVULDUR_WRITTEN];
    IS(hogvuldur_write_text(job, job_long, (uint8_t *)text, length, answer), HOGVULDUR_DONE);
    STANDS(HOGVULDUR_WRITTEN, length);
    hold("text", 0, (uint64_t)(memcmp(text, typed, length) != 0));
    IS(hogvuldur_write_text(job, job_long, (uint8_t *)text, length - 1, answer), HOGVULDUR_BUFFER_TOO_SHORT);
    IS(read_text(typed, length - 1), HOGVULDUR_TEXT_BREAKS);
    STANDS(HOGVULDUR_P, 6);
    STANDS(HOGVULDUR_Q, 3);
    IS(read_text(typed, length + 1), HOGVULDUR_TEXT_TOO_LONG);
    STANDS(HOGVULDUR_P, 7);
    STANDS(HOGVULDUR_Q, 0);
}

/* The longest text of a job, and the longest of the form, whose numbers all have five digits. */
static void longest_texts(void)
{
    static uint16_t ends[2 * HOGVULDUR_MOST_NETS];
    char *at = text;
    for (size_t i = 0; i < 2 * HOGVULDUR_MOST_NETS; i++) ends[i] = (uint16_t)(100 + i % 2);
    IS(hogvuldur_write_job(HOGVULDUR_MOST_FPGAS, HOGVULDUR_MOST_CROSSBARS, HOGVULDUR_MOST_WIRES, HOGVULDUR_MOST_NETS, ends,
                           2 * HOGVULDUR_MOST_NETS, job, HOGVULDUR_MOST_JOB_BYTES, answer), HOGVULDUR_DONE);
    job_long = (size_t)answer[HOGVULDUR_WRITTEN];
    IS(hogvuldur_write_text(job, job_long, (uint8_t *)text, HOGVULDUR_MOST_TEXT_BYTES, answer), HOGVULDUR_DONE);
    STANDS(HOGVULDUR_WRITTEN, HOGVULDUR_MOST_TEXT_BYTES);
    IS(read_text(text, HOGVULDUR_MOST_TEXT_BYTES), HOGVULDUR_DONE);
    at += sprintf(at, "board 3\n65535\n65535\n65535\nnets 65535\n");
    for (int net = 0; net < 65535; net++) at += sprintf(at, "65535 65535\n");
    hold("HOGVULDUR_MOST_FORM_BYTES", HOGVULDUR_MOST_FORM_BYTES, (uint64_t)(at - text));
    IS(read_text(text, HOGVULDUR_MOST_FORM_BYTES), HOGVULDUR_F_OUT_OF_RANGE);
    IS(read_text(text, HOGVULDUR_MOST_FORM_BYTES + 1), HOGVULDUR_TEXT_TOO_LONG);
}

static void plans(void)
{
    make_job(3, NETS);
    IS(hogvuldur_plan(job, job_long, plan, NETS - 1, scratch, HOGVULDUR_SCRATCH, answer), HOGVULDUR_BUFFER_TOO_SHORT);
    plan[0] = plan[1] = plan[2] = plan[3] = 1;
    IS(hogvuldur_one_round(job, job_long, plan, NETS, scratch, HOGVULDUR_SCRATCH, answer), HOGVULDUR_DONE);
    STANDS(HOGVULDUR_MOVED, 1);
    STANDS(HOGVULDUR_V, 0);
    STANDS(HOGVULDUR_A, 1);
    STANDS(HOGVULDUR_B, 0);
    plan[0] = plan[1] = plan[2] = plan[3] = 1;
    IS(hogvuldur_finish(job, job_long, plan, NETS, scratch, HOGVULDUR_SCRATCH, answer), HOGVULDUR_DONE);
    STANDS(HOGVULDUR_ROUNDS, 1);
    STANDS(HOGVULDUR_EXCESS, 4);
    plan[2] = 3;
    IS(hogvuldur_finish(job, job_long, plan, NETS, scratch, HOGVULDUR_SCRATCH, answer), HOGVULDUR_NO_SUCH_CROSSBAR);
    STANDS(HOGVULDUR_P, 2);
    IS(hogvuldur_spare(job, job_long, 1, answer), HOGVULDUR_DONE);
    STANDS(HOGVULDUR_NETS_LEFT, 2);
    job[7] = 5;
    IS(hogvuldur_spare(job, job_long, 1, answer), HOGVULDUR_DONE);
    STANDS(HOGVULDUR_NETS_LEFT, 3 * HOGVULDUR_USABLE_WIDTH(5) - NETS);
    hogvuldur_numbers(job, job_long, answer);
    STANDS(HOGVULDUR_M, 5);
    make_job(2, 5);
    IS(hogvuldur_plan(job, job_long, plan, 5, scratch, HOGVULDUR_SCRATCH, answer), HOGVULDUR_DEGREE_ABOVE_LIMIT);
}

static void sheets(void)
{
    make_job(2, NETS);
    IS(write_sheet(0, 0, 0, 1), HOGVULDUR_LOAD_ABOVE_WIDTH);
    STANDS(HOGVULDUR_P, 0);
    STANDS(HOGVULDUR_Q, 0);
    make_job(2, 2);
    IS(write_sheet(1, 1, 0, 0), HOGVULDUR_NOT_BALANCED);
    make_job(2, NETS);
    IS(write_sheet(0, 1, 0, 1), HOGVULDUR_DONE);
    sheet_long = (size_t)answer[HOGVULDUR_WRITTEN];
    hold("sheet", HOGVULDUR_SHEET_BYTES(NETS, 2), sheet_long);
    IS(hogvuldur_audit(job, job_long, sheet, sheet_long - 1, answer), HOGVULDUR_SHEET_LENGTH_WRONG);
    IS(audit_with(3, 3), HOGVULDUR_SHEET_HEAD_DIFFERS);
    IS(audit_with(11, 2), HOGVULDUR_SHEET_CROSSBAR_WRONG);
    IS(audit_with(sheet_long - 1, 3), HOGVULDUR_SHEET_TOTAL_WRONG);
    sheet[sheet_long - 1] = 3;
    hogvuldur_evidence(job, job_long, sheet, sheet_long, answer);
    STANDS(HOGVULDUR_IN_SHEET, 1);
    STANDS(HOGVULDUR_FAULT_START, sheet_long - 2);
    STANDS(HOGVULDUR_FAULT_BYTES, 2);
    sheet[sheet_long - 1] = 2;
    IS(hogvuldur_read_sheet(job, job_long, sheet, sheet_long, plan, NETS, answer), HOGVULDUR_DONE);
    STANDS(HOGVULDUR_WRITTEN, NETS);
}

int main(void)
{
    jobs();
    texts();
    longest_texts();
    plans();
    sheets();
    return wrong;
}
