#include "report.h"

#include <inttypes.h>
#include <stdarg.h>
#include <stdio.h>

/* Later failures are counted but not printed; nor are more bytes of a buffer. */
enum { MOST_PRINTED = 10, MOST_SHOWN = 40000 };

static struct {
    uint64_t seed;
    const char *part;
    unsigned long part_number, cases, cases_of_part, boards, failed;
    const struct call *call;
    bool case_failed;
} now;

void report_seed(uint64_t seed)
{
    now.seed = seed;
    printf("seed %" PRIu64 "\n", seed);
}

void report_part(const char *name, unsigned long number)
{
    now.part = name;
    now.part_number = number;
    now.cases_of_part = 0;
}

void report_board(unsigned long number)
{
    report_part("board", number);
    now.boards++;
}

void report_case(const struct call *call)
{
    now.call = call;
    now.case_failed = false;
    now.cases++;
    now.cases_of_part++;
}

bool case_failed(void)
{
    return now.case_failed;
}

/* A text is printed as such, other bytes in hex. */
static void print_byte(uint8_t byte, bool of_text)
{
    if (of_text && byte >= ' ' && byte <= '~' && byte != '\\')
        putchar(byte);
    else if (of_text && byte == '\n')
        fputs("\\n", stdout);
    else
        printf(of_text ? "\\%03o" : "%02x", byte);
}

static void print_lent(const struct call *call, unsigned name)
{
    const struct lent *lent = &call->lent[name];
    if (lent->length == 0 && name != LENT_JOB) return;
    printf("  %s, %zu %s:", lent_names[name], lent->length, lent_size(call, name) > lent->length ? "numbers" : "bytes");
    if (lent->given_size < lent_size(call, name)) printf(" filled with %02x", lent->fill);
    if (lent->given_size > 0) putchar(' ');
    for (size_t i = 0; i < lent->given_size && i < MOST_SHOWN; i++) print_byte(lent->given[i], name == LENT_TEXT);
    if (lent->given_size > MOST_SHOWN) fputs(" and so on", stdout);
    putchar('\n');
}

static void print_case(void)
{
    const struct call *call = now.call;
    printf("FAILED: %s, seed %" PRIu64 ", %s %lu, its case %lu (case %lu in all)\n", call_names[call->name], now.seed,
           now.part, now.part_number, now.cases_of_part, now.cases);
    printf("  numbers: %u %u %u %u\n", call->number[0], call->number[1], call->number[2], call->number[3]);
    for (unsigned i = 0; i < LENT_COUNT; i++) print_lent(call, i);
}

void report_fault(const char *format, ...)
{
    va_list arguments;
    if (!now.case_failed) now.failed++;
    if (now.failed <= MOST_PRINTED) {
        if (!now.case_failed) print_case();
        fputs("  ", stdout);
        va_start(arguments, format);
        vprintf(format, arguments);
        va_end(arguments);
        putchar('\n');
    }
    now.case_failed = true;
}

void report_failure(const char *format, ...)
{
    va_list arguments;
    now.failed++;
    fputs("FAILED: ", stdout);
    va_start(arguments, format);
    vprintf(format, arguments);
    va_end(arguments);
    putchar('\n');
}

int report_end(void)
{
    printf("second: %lu cases, %lu boards, %lu failed\n", now.cases, now.boards, now.failed);
    return now.failed > 0;
}
