#include "listing.h"

#include <inttypes.h>
#include <stdarg.h>
#include <stdio.h>
#include <string.h>

#include "board.h"
#include "chain.h"
#include "chance.h"
#include "cover.h"
#include "make.h"
#include "process.h"
#include "report.h"

/* The program reads this much of its input. Longer inputs here fit into a pipe with what it reads. */
enum { MOST_READ = 16395, MOST_INPUT = 20000, MOST_TEXT = 200000 };

struct text {
    size_t length;
    char characters[MOST_TEXT];
};

static struct text expected, got;

static void say(const char *format, ...)
{
    va_list arguments;
    va_start(arguments, format);
    expected.length += (size_t)vsnprintf(expected.characters + expected.length, MOST_TEXT - expected.length, format,
                                         arguments);
    va_end(arguments);
}

static void say_plan(const struct job *job, const uint16_t *plan)
{
    static struct loads loads;
    count_loads(job, plan, &loads);
    say("board %u %u %u %u\n", job->f, job->c, job->m, job->n);
    say("rounds %" PRIu64 " excess %" PRIu64 "\n", last_rounds(), last_excess());
    for (unsigned net = 0; net < job->n; net++)
        say("net %u %u %u %u\n", net, net_end(job, net, 0), net_end(job, net, 1), plan[net]);
    for (unsigned crossbar = 0; crossbar < job->c; crossbar++) say("crossbar %u %u\n", crossbar, loads.total[crossbar]);
}

/* What the program must print: what the plan call answers to the bytes it reads. False when that call failed. */
static bool expect_text(struct file input, struct verdict *verdict)
{
    static uint16_t numbers[MOST_NETS];
    struct file file = {input.bytes, input.length < MOST_READ ? input.length : MOST_READ};
    struct list plan = {numbers, MOST_NETS};
    struct job job;
    *verdict = read_job(file, &job);
    if (verdict->number == 0) *verdict = check_degrees(&job);
    cover_degrees(CALL_LISTING, &job, verdict->number);
    bool planned = case_plan(file, plan, LEAST_SCRATCH);
    expected.length = 0;
    if (verdict->number != 0)
        say("refused %u %" PRIu64 " %" PRIu64 "\n", verdict->number, verdict->p, verdict->q);
    else
        say_plan(&job, numbers);
    return planned || (verdict->number != 0 && !case_failed());
}

static bool run_program(char *const command[], struct file input)
{
    struct process program;
    if (!process_start(&program, command)) return false;
    /* In two pieces, as a pipe may bring them. The program may end without reading all; what it leaves is no fault. */
    size_t first = chance_below((unsigned)input.length + 1);
    fwrite(input.bytes, 1, first, program.to);
    fflush(program.to);
    fwrite(input.bytes + first, 1, input.length - first, program.to);
    fclose(program.to);
    program.to = NULL;
    got.length = fread(got.characters, 1, MOST_TEXT - 1, program.from);
    return process_end(&program);
}

static void compare_texts(void)
{
    size_t place = 0, line = 1;
    expected.characters[expected.length] = got.characters[got.length] = '\0';
    if (expected.length == got.length && memcmp(expected.characters, got.characters, got.length) == 0) return;
    while (place < got.length && expected.characters[place] == got.characters[place]) {
        line += got.characters[place] == '\n';
        place++;
    }
    while (place > 0 && expected.characters[place - 1] != '\n') place--;
    const char *want = expected.characters + place, *have = got.characters + place;
    report_fault("line %zu of %zu bytes: expected '%.*s', got '%.*s' of %zu bytes", line, expected.length,
                 (int)strcspn(want, "\n"), want, (int)strcspn(have, "\n"), have, got.length);
}

static void case_listing(char *const command[], struct file input)
{
    struct verdict verdict;
    struct call call;
    if (!expect_text(input, &verdict)) return;
    call = call_on(CALL_CHECK, input);
    call.name = CALL_LISTING;
    report_case(&call);
    cover_answer(CALL_LISTING, verdict.number);
    if (!run_program(command, input)) report_fault("the listing program broke down");
    compare_texts();
}

/* One job for each refusal of a job file, with the place that is changed and its new number. */
static void refused_listings(char *const command[])
{
    static const struct {
        size_t place;
        unsigned number;
    } faults[] = {{0, 2}, {2, 0}, {2, 257}, {4, 0}, {4, 129}, {6, 0}, {6, 66}, {6, 1}, {8, 4097}, {8, 4}, {8, 2},
                  {18, 9}, {20, 9}, {18, 2}, {4, 1}};
    static const uint8_t right[] = {0, 3, 0, 3, 0, 2, 0, 2, 0, 3, 0, 0, 0, 1, 0, 0, 0, 1, 0, 0, 0, 2};
    uint8_t bytes[sizeof right];
    struct file input = {bytes, sizeof bytes};
    for (size_t i = 0; i < sizeof faults / sizeof *faults; i++) {
        memcpy(bytes, right, sizeof bytes);
        put_number(bytes + faults[i].place, faults[i].number);
        case_listing(command, input);
    }
    memcpy(bytes, right, sizeof bytes);
    for (input.length = 0; input.length <= sizeof bytes; input.length += 2) case_listing(command, input);
}

/* Three wires, of which two are usable: four nets between two FPGAs are the limit of two crossbars, one more is refused. */
static void odd_listings(char *const command[])
{
    uint8_t bytes[JOB_HEAD + 4 * 5];
    const uint16_t ends[2 * 5] = {0, 1, 1, 0, 0, 1, 1, 0, 0, 1};
    for (unsigned nets = 3; nets <= 5; nets++) {
        const unsigned number[4] = {2, 2, 3, nets};
        struct file input = {bytes, put_job(bytes, number, ends)};
        case_listing(command, input);
    }
}

/* The most nets, and inputs that are longer than what the program reads. */
static void long_listings(char *const command[])
{
    static const size_t lengths[] = {MOST_JOB, MOST_JOB - 1, MOST_READ, MOST_READ + 1, MOST_INPUT};
    static const unsigned nets[] = {MOST_NETS, MOST_NETS + 1, 2};
    static uint8_t bytes[MOST_INPUT];
    static const unsigned head[] = {3, MOST_FPGAS, MOST_CROSSBARS, MOST_WIRES};
    for (size_t i = 0; i < 4; i++) put_number(bytes + 2 * i, head[i]);
    for (unsigned i = 0; JOB_HEAD + 2 * i < MOST_INPUT; i++)
        put_number(bytes + JOB_HEAD + 2 * i, (i * i + i) / 2 % MOST_FPGAS);
    for (size_t i = 0; i < sizeof nets / sizeof *nets; i++)
        for (size_t k = 0; k < sizeof lengths / sizeof *lengths; k++) {
            struct file input = {bytes, lengths[k]};
            put_number(bytes + 8, nets[i]);
            case_listing(command, input);
        }
}

void run_listings(char *const command[], unsigned long boards, uint64_t seed)
{
    static const enum size sizes[] = {TINY, SMALL, TINY, SMALL, MIDDLE, TINY, EDGE, LARGE};
    static struct made made;
    report_part("listing", 0);
    chance_start(seed, UINT64_MAX);
    refused_listings(command);
    odd_listings(command);
    long_listings(command);
    for (unsigned long i = 0; i < boards; i++) {
        report_part("listing", i + 1);
        chance_start(seed, UINT64_MAX - 1 - i);
        make_board(&made, sizes[i % 8]);
        case_listing(command, made_job(&made));
    }
}
