#include "numbered.h"

#include <string.h>

#include "board.h"
#include "cases.h"
#include "chain.h"
#include "damage.h"
#include "make.h"
#include "report.h"
#include "sheet.h"
#include "text.h"
#include "typed.h"

static struct made board;
static uint16_t numbers[MOST_NETS + BEYOND];

static void must(bool holds, const char *what)
{
    if (!holds) report_failure("a numbered case or request: %s", what);
}

/* The job of a board with nets given as pairs of digits, such as "01 12 20". */
static struct file job_of(unsigned f, unsigned c, unsigned m, const char *nets)
{
    unsigned ends = 0;
    for (; *nets; nets++)
        if (*nets != ' ') board.ends[ends++] = (uint16_t)(*nets - '0');
    board.number[0] = f;
    board.number[1] = c;
    board.number[2] = m;
    board.number[3] = ends / 2;
    return made_job(&board);
}

static struct list plan_of(struct file job)
{
    struct list plan = {numbers, (job.length - JOB_HEAD) / 4};
    return plan;
}

/* The plan call accepts the job and its sheet is this. */
static void must_give_sheet(struct file job, const char *sheet, size_t length)
{
    struct list plan = plan_of(job);
    must(case_plan(job, plan, LEAST_SCRATCH), "the job is planned");
    const uint8_t *written = case_write_sheet(job, plan, length);
    must(written && memcmp(written, sheet, length) == 0, "the sheet is the one given there");
}

/* The plan call refuses the job with this. All calls are made on it. */
static void must_refuse(struct file file, unsigned number, uint64_t p, uint64_t q)
{
    struct job job;
    struct verdict verdict = read_job(file, &job);
    struct list plan = plan_of(file);
    if (verdict.number == 0) verdict = check_degrees(&job);
    must(verdict.number == number && verdict.p == p && verdict.q == q, "the refusal is the one given there");
    every_call(file, plan, file);
}

static void cases_1_to_5(void)
{
    report_part("numbered case", 1);
    must_give_sheet(job_of(1, 1, 2, ""), "\0\3\0\1\0\1\0\2\0\0\0\1\0\0", 14);
    report_part("numbered case", 2);
    must_give_sheet(job_of(3, 2, 2, "01 12 20 01"), "\0\3\0\3\0\2\0\2\0\4\0\0\0\1\0\0\0\1\0\2\0\2\0\2", 24);
    report_part("numbered case", 3);
    must_refuse(job_of(2, 1, 2, "01 01"), 0, 0, 0);
    must_refuse(job_of(2, 1, 2, "01 01 01"), 12, 0, 0);
    report_part("numbered case", 4);
    must_refuse(job_of(3, 2, 1, "01 12 20"), 6, 6, 0);
    report_part("numbered case", 5);
    must_refuse(job_of(3, 2, 0, "01 12 20"), 5, 6, 0);
    must_refuse(job_of(3, 2, 65, "01 12 20"), 5, 6, 0);
    must_refuse(job_of(3, 2, 64, "01 12 20"), 0, 0, 0);
    must_refuse(job_of(3, 2, 63, "01 12 20"), 0, 0, 0); /* by ticket 1 */
}

static void case_6(void)
{
    report_part("numbered case", 6);
    struct file job = job_of(3, 2, 2, "01 12 01 12 02");
    must(case_plan(job, plan_of(job), LEAST_SCRATCH), "the job is planned");
    must(last_rounds() == 1 && last_excess() == 1, "one round, excess 1");
    must(numbers[4] == 0 && numbers[0] + numbers[2] == 1 && numbers[1] + numbers[3] == 1, "one of the four results");
}

static void case_7(void)
{
    static const unsigned totals[4][3] = {{0, 6, 0}, {3, 3, 0}, {2, 3, 1}, {2, 2, 2}}, excesses[4] = {8, 4, 2, 0};
    static struct loads loads;
    struct job read;
    report_part("numbered case", 7);
    struct file job = job_of(2, 3, 2, "01 01 01 01 01 01");
    struct list plan = plan_of(job);
    read_job(job, &read);
    for (size_t i = 0; i < plan.length; i++) numbers[i] = 1;
    for (int round = 0; round < 4; round++) {
        count_loads(&read, numbers, &loads);
        must(memcmp(loads.total, totals[round], sizeof totals[round]) == 0, "the totals");
        must(total_excess(&read, &loads) == excesses[round], "the excess");
        must(case_one_round(job, plan, LEAST_SCRATCH) == (round < 3 ? MOVED : SETTLED), "three rounds, then settled");
    }
    for (size_t i = 0; i < plan.length; i++) numbers[i] = 1;
    must(case_rounds(job, plan, LEAST_SCRATCH) && last_rounds() == 3, "finish makes three rounds");
}

static void case_8(void)
{
    static struct loads loads;
    struct job read;
    report_part("numbered case", 8);
    struct file job = job_of(4, 2, 2, "01 12 20 03 03");
    struct list plan = plan_of(job);
    read_job(job, &read);
    memset(numbers, 0, sizeof numbers);
    must(case_rounds(job, plan, LEAST_SCRATCH) && last_rounds() == 1, "one round");
    count_loads(&read, numbers, &loads);
    must(loads.load[0][0] == 2 && loads.load[0][1] == 2, "FPGA 0 has 2 and 2");
    must(loads.total[0] == 3 && loads.total[1] == 2, "totals 3 and 2");
}

static void cases_9_to_11(void)
{
    report_part("numbered case", 9);
    must_refuse(job_of(5, 2, 2, "01 55"), 9, 1, 14);
    must_refuse(job_of(6, 2, 2, "01 55"), 10, 1, 16);
    report_part("numbered case", 10);
    /* The lengths around n 4,096 and 4,097 are among the limits. */
    struct file job = job_of(5, 2, 2, "01 12");
    job.length++;
    must_refuse(job, 8, 18, 0);
    report_part("numbered case", 11);
    job = job_of(3, 1, 2, "01 12 20");
    must(case_plan(job, plan_of(job), LEAST_SCRATCH) && last_rounds() == 0, "c 1 is settled at once");
    must_refuse(job_of(3, 1, 2, "01 12 20 21"), 12, 1, 0);
}

/* Three wires of which two are usable. On one crossbar three nets are within the wires and above the limit. */
static void ticket_1(void)
{
    report_part("ticket", 1);
    must_give_sheet(job_of(2, 2, 3, "01 01 01 01"), "\0\3\0\2\0\2\0\3\0\4\0\0\0\1\0\0\0\1\0\2\0\2\0\2", 24);
    must_refuse(job_of(2, 2, 3, "01 01 01 01 01"), 12, 0, 0);
    must_refuse(job_of(2, 1, 3, "01 01"), 0, 0, 0);
    must_refuse(job_of(2, 1, 3, "01 01 01"), 12, 0, 0);
    struct file job = job_of(3, 2, 5, "01 01 01 01 01 12 12 12");
    struct list plan = plan_of(job);
    memset(numbers, 0, sizeof numbers);
    must(case_rounds(job, plan, LEAST_SCRATCH) && last_excess() == 5 && last_rounds() == 1, "loads 5, 8 and 3 at width 4");
}

/* The job is refused with this, and so is the writing of it; evidence is the bytes given. */
static void must_point(struct file job, unsigned number, uint64_t net, uint64_t byte, struct evidence bytes)
{
    struct list ends = {board.ends, 2 * (size_t)board.number[3]};
    struct evidence found = evidence(job, job);
    must_refuse(job, number, net, byte);
    case_write_job(board.number, ends, job.length);
    must(found.file == bytes.file && found.first == bytes.first && found.size == bytes.size, "the evidence");
}

/* Net 1, whose numbers stand at bytes 14 and 16, wrong at either end and at both; and the same two asked about. */
static void ticket_2(void)
{
    static const struct evidence first = {0, 14, 2}, second = {0, 16, 2}, both = {0, 14, 4};
    report_part("ticket", 2);
    must_point(job_of(5, 2, 2, "01 54"), 9, 1, 14, first);
    must_point(job_of(5, 2, 2, "01 45"), 27, 1, 16, second);
    must_point(job_of(5, 2, 2, "01 56"), 9, 1, 14, first);
    must_point(job_of(5, 2, 2, "01 44"), 10, 1, 16, both);
    must_point(job_of(5, 2, 2, "01 45 55"), 27, 1, 16, second);
    struct file job = job_of(5, 2, 2, "01");
    case_headroom(job, 5, 4);
    case_headroom(job, 4, 5);
    case_headroom(job, 5, 5);
    case_headroom(job, 4, 4);
}

/* Texts with the place where they break, and others with what their numbers meet. */
static const struct {
    const char *text;
    struct verdict verdict;
} typed_cases[] = {
    {"", {31, 1, 0}},
    {"board 4\n3\n2\n2\nnets 0\n", {31, 1, 6}},
    {"board 3\r\n3\r\n2\r\n2\r\nnets 0\r\n", {31, 1, 7}},
    {"board 3\n65536\n2\n2\nnets 0\n", {31, 2, 4}},
    {"board 3\n65535\n2\n2\nnets 0\n", {3, 2, 0}},
    {"board 3\n3\n01\n2\nnets 0\n", {31, 3, 1}},
    {"board 3\n3\n2\n\nnets 0\n", {31, 4, 0}},
    {"board 3\n3\n2\n2\nnets 65536\n", {31, 5, 9}},
    {"board 3\n3\n2\n2\nnets", {31, 5, 4}},
    {"board 3\n3\n2\n2\nnets 0", {31, 5, 6}},
    {"board 3\n3\n2\n2\nnets 0\n", {0, 0, 0}},
    {"board 3\n3\n2\n2\nnets 0\n\n", {32, 6, 0}},
    {"board 3\n3\n2\n2\nnets 5000\n0 1\n", {31, 7, 0}},
    {"board 3\n3\n2\n2\nnets 2\n0  1\n1 2\n", {31, 6, 2}},
    {"board 3\n3\n2\n2\nnets 2\n0 1 \n1 2\n", {31, 6, 3}},
    {"board 3\n3\n2\n2\nnets 2\n0 1\n1 2", {31, 7, 3}},
    {"board 3\n3\n2\n2\nnets 2\n0 1\n1 2\n0", {32, 8, 0}},
    {"board 3\n3\n2\n1\nnets 2\n3 0\n1 1", {31, 7, 3}},
    {"board 3\n3\n2\n1\nnets 2\n3 0\n1 1\n ", {32, 8, 0}},
    {"board 3\n3\n2\n1\nnets 2\n3 0\n1 1\n", {6, 6, 0}},
    {"board 3\n3\n2\n2\nnets 2\n0 1\n3 0\n", {9, 1, 14}},
    {"board 3\n3\n2\n2\nnets 2\n0 1\n0 3\n", {27, 1, 16}},
    {"board 3\n3\n2\n2\nnets 2\n0 1\n2 2\n", {10, 1, 16}},
};

/* Case 2 typed by hand, and texts that are refused; all of them also with too little room. */
static void ticket_3(void)
{
    static const char typed_2[] = "board 3\n3\n2\n2\nnets 4\n0 1\n1 2\n2 0\n0 1\n";
    static struct typed typed;
    report_part("ticket", 3);
    struct file job = job_of(3, 2, 2, "01 12 20 01"), text = {(const uint8_t *)typed_2, sizeof typed_2 - 1};
    struct file written = case_read_text(text, job.length);
    must(written.length == job.length && memcmp(written.bytes, job.bytes, job.length) == 0, "the job of the text");
    written = case_write_text(job, text.length);
    must(written.length == text.length && memcmp(written.bytes, typed_2, text.length) == 0, "the text of the job");
    for (size_t i = 0; i < sizeof typed_cases / sizeof *typed_cases; i++) {
        const struct verdict *want = &typed_cases[i].verdict;
        struct file one = {(const uint8_t *)typed_cases[i].text, strlen(typed_cases[i].text)};
        struct verdict verdict = read_typed(one, &typed);
        if (verdict.number != want->number || verdict.p != want->p || verdict.q != want->q)
            report_failure("ticket 3, text %zu: not the refusal given there", i + 1);
        try_text(one);
    }
}

/* Case 8 twice on one board: two odd groups, and the totals may still differ by one only. */
static void two_odd_groups(void)
{
    report_part("two odd groups", 0);
    struct file job = job_of(8, 2, 2, "01 12 20 03 03 45 56 64 47 47");
    memset(numbers, 0, sizeof numbers);
    must(case_rounds(job, plan_of(job), LEAST_SCRATCH) && last_rounds() == 1, "two odd groups take one round");
}

/* Case 2 with every byte of its job and its sheet changed, and with memory that is too short. */
static void case_2_damaged(void)
{
    static const size_t scratch[] = {0, 1, LEAST_SCRATCH - 1, LEAST_SCRATCH, LEAST_SCRATCH + 1};
    uint8_t bytes[MOST_SHEET];
    uint16_t start[5] = {1, 1, 1, 0, 9};
    struct job read;
    report_part("case 2 damaged", 0);
    struct file job = job_of(3, 2, 2, "01 12 20 01");
    struct list plan = {start, 4};
    read_job(job, &read);
    deal(&read, numbers);
    struct file sheet = {bytes, put_sheet(&read, numbers, bytes)};
    damage_job(job, plan, sheet);
    damage_sheet(job, sheet);
    for (size_t i = 0; i < sizeof scratch / sizeof *scratch; i++)
        for (plan.length = 0; plan.length <= 5; plan.length++) {
            case_rounds(job, plan, scratch[i]);
            case_plan(job, plan, scratch[i]);
        }
    plan.length = 4;
    for (size_t length = 0; length <= 5; length++) case_read_sheet(job, sheet, length);
    for (size_t length = sheet.length + 3; length > 0; length--) case_write_sheet(job, plan, length - 1);
}

void run_numbered(void)
{
    cases_1_to_5();
    case_6();
    case_7();
    case_8();
    cases_9_to_11();
    ticket_1();
    ticket_2();
    ticket_3();
    two_odd_groups();
    case_2_damaged();
}
