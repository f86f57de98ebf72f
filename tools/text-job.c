/*
 * Turns the text job on standard input into a job on standard output. A refused text prints `refused`, the refusal's number and
 * its two places there instead, says on standard error in which line it is wrong and why, and the exit status is 1. What cannot
 * be read or written is said on standard error, and the status is 2. The first argument is the name that messages begin with.
 */
#include <errno.h>
#include <inttypes.h>
#include <stdio.h>
#include <string.h>

#include "hogvuldur.h"

/* Where the lines of a text stand: f, c, m and n have one each behind the first, then every net. */
enum { FIRST_LINE = 1, FIRST_NET_LINE = 6, NUMBER_BYTES = 2 };

/* One byte more than the longest text of the form has, so that a text that is too long is seen to be. */
static uint8_t text[HOGVULDUR_MOST_FORM_BYTES + 1];
static uint8_t job[HOGVULDUR_MOST_JOB_BYTES];
static uint64_t answer[4];
static const char *me = "text-job";

static int cannot(const char *what)
{
    fprintf(stderr, "%s: cannot %s: %s\n", me, what, strerror(errno));
    return 2;
}

/* The byte of the text at which this byte of this line stands. */
static size_t place_of(uint64_t line, uint64_t byte, size_t length)
{
    size_t at = 0;
    while (line > FIRST_LINE && at < length)
        if (text[at++] == '\n') line--;
    return at + (size_t)byte;
}

/* What a text breaks with: a letter, a byte that has a name, or its end. */
static void say_break(size_t at, size_t length)
{
    uint8_t byte = at < length ? text[at] : 0;
    if (at == length)
        fprintf(stderr, "the text stops short\n");
    else if (byte == '\n')
        fprintf(stderr, "the line ends too early\n");
    else if (byte == '\r')
        fprintf(stderr, "no text job goes on with a carriage return\n");
    else if (byte == ' ')
        fprintf(stderr, "no text job goes on with a space\n");
    else if (byte > ' ' && byte < 127)
        fprintf(stderr, "no text job goes on with %c\n", byte);
    else
        fprintf(stderr, "no text job goes on with byte %u\n", (unsigned)byte);
}

/* What is wrong with the number or the net that a refusal of the job names. */
static const char *reason_of(unsigned number)
{
    switch (number) {
    case HOGVULDUR_F_OUT_OF_RANGE: return "f is not 1 to 256";
    case HOGVULDUR_C_OUT_OF_RANGE: return "c is not 1 to 128";
    case HOGVULDUR_M_OUT_OF_RANGE: return "m is not 2 to 64";
    case HOGVULDUR_M_ONE: return "m is 1, and one wire cannot be used";
    case HOGVULDUR_TOO_MANY_NETS: return "there are more than 4,096 nets";
    case HOGVULDUR_NO_SUCH_FIRST_FPGA: return "the first FPGA is not on the board";
    case HOGVULDUR_NO_SUCH_SECOND_FPGA: return "the second FPGA is not on the board";
    case HOGVULDUR_FPGA_TWICE: return "the same FPGA twice";
    default: return "refused";
    }
}

/* Of a text that breaks, the place in it; otherwise the line of the number or net that is refused. */
static void say_where(unsigned number, size_t length)
{
    uint64_t p = answer[HOGVULDUR_P], q = answer[HOGVULDUR_Q];
    if (number == HOGVULDUR_TEXT_BREAKS) {
        fprintf(stderr, "%s: line %" PRIu64 ", column %" PRIu64 ": ", me, p, q + 1);
        say_break(place_of(p, q, length), length);
    } else if (number == HOGVULDUR_TEXT_TOO_LONG) {
        fprintf(stderr, "%s: line %" PRIu64 ", column %" PRIu64 ": text after the last net\n", me, p, q + 1);
    } else if (number <= HOGVULDUR_TOO_MANY_NETS) {
        fprintf(stderr, "%s: line %" PRIu64 ": %s\n", me, p / NUMBER_BYTES + FIRST_LINE, reason_of(number));
    } else {
        fprintf(stderr, "%s: line %" PRIu64 ": %s\n", me, p + FIRST_NET_LINE, reason_of(number));
    }
}

int main(int count, char *arguments[])
{
    if (count > 1) me = arguments[1];
    size_t length = fread(text, 1, sizeof text, stdin);
    if (ferror(stdin)) return cannot("read the text");
    uint16_t number = hogvuldur_read_text(text, length, job, sizeof job, answer);
    if (number == HOGVULDUR_DONE)
        fwrite(job, 1, (size_t)answer[HOGVULDUR_WRITTEN], stdout);
    else
        printf("refused %u %" PRIu64 " %" PRIu64 "\n", (unsigned)number, answer[HOGVULDUR_P], answer[HOGVULDUR_Q]);
    if (fflush(stdout) != 0) return cannot("write");
    if (number == HOGVULDUR_DONE) return 0;
    say_where(number, length);
    return 1;
}
