#include "text.h"

#include <stdbool.h>
#include <stdio.h>
#include <string.h>

enum form { BOARD, NUMBER, NETS, NET };

/* How lines are printed: one is of the form when the numbers read from it, printed again, give the same line. */
static const char *const printed[] = {"board 3", "%llu", "nets %llu", "%llu %llu"};

/* The shortest line of each form. What one of its ends makes a whole line is the beginning of a line. */
static const char *const shortest[] = {"board 3", "0", "nets 0", "0 0"};

static enum form form_of(size_t line)
{
    if (line == 1) return BOARD;
    if (line < HEAD_LINES) return NUMBER;
    return line == HEAD_LINES ? NETS : NET;
}

static bool is_line(enum form form, struct file line, unsigned long long number[2])
{
    char same[MOST_LINE + 1] = "", again[64];
    number[0] = number[1] = 0;
    if (line.length > MOST_LINE) return false;
    memcpy(same, line.bytes, line.length);
    sscanf(same, printed[form], &number[0], &number[1]);
    if (number[0] > MOST_NUMBER || number[1] > MOST_NUMBER) return false;
    int length = snprintf(again, sizeof again, printed[form], number[0], number[1]);
    return (size_t)length == line.length && memcmp(again, same, line.length) == 0;
}

/* Whether some line of the form begins so. */
static bool is_beginning(enum form form, struct file start)
{
    uint8_t whole[2 * MOST_LINE];
    unsigned long long number[2];
    if (start.length > MOST_LINE) return false;
    memcpy(whole, start.bytes, start.length);
    for (size_t from = 0; from <= strlen(shortest[form]); from++) {
        const char *end = shortest[form] + from;
        struct file line = {whole, start.length + strlen(end)};
        memcpy(whole + start.length, end, strlen(end));
        if (is_line(form, line, number)) return true;
    }
    return false;
}

/* How many bytes of a line some line of the form begins with. */
static size_t longest_beginning(enum form form, struct file line)
{
    struct file start = {line.bytes, line.length};
    while (!is_beginning(form, start)) start.length--;
    return start.length;
}

/* The line at a place, without its newline; ended when there is one. */
static struct file line_at(struct file text, size_t place, bool *ended)
{
    struct file line = {text.bytes + place, text.length - place};
    const uint8_t *newline = line.length > 0 ? memchr(line.bytes, '\n', line.length) : NULL;
    *ended = newline != NULL;
    if (newline) line.length = (size_t)(newline - line.bytes);
    return line;
}

static void keep(struct typed *typed, size_t line, const unsigned long long number[2])
{
    if (form_of(line) == NET)
        for (size_t end = 0; end < 2; end++) typed->ends[2 * (line - HEAD_LINES - 1) + end] = (uint16_t)number[end];
    else if (form_of(line) != BOARD)
        typed->number[line - 2] = (unsigned)number[0];
}

struct verdict read_form(struct file text, struct typed *typed)
{
    size_t line, place = 0;
    memset(typed->number, 0, sizeof typed->number);
    for (line = 1; line <= HEAD_LINES + (size_t)typed->number[3]; line++) {
        unsigned long long number[2];
        bool ended;
        struct file bytes = line_at(text, place, &ended);
        if (!ended || !is_line(form_of(line), bytes, number))
            return refuse(31, line, longest_beginning(form_of(line), bytes));
        keep(typed, line, number);
        place += bytes.length + 1;
    }
    return place < text.length ? refuse(32, line, 0) : done;
}

struct verdict read_typed(struct file text, struct typed *typed)
{
    const unsigned *number = typed->number;
    struct verdict verdict = read_form(text, typed);
    if (verdict.number == 0) verdict = check_numbers(number[0], number[1], number[2], number[3]);
    for (unsigned net = 0; verdict.number == 0 && net < number[3]; net++)
        verdict = check_net(number[0], net, typed->ends[2 * net], typed->ends[2 * net + 1]);
    return verdict;
}

size_t put_text(uint8_t *room, const unsigned number[4], const uint16_t *ends)
{
    char *at = (char *)room;
    at += sprintf(at, "board 3\n%u\n%u\n%u\nnets %u\n", number[0], number[1], number[2], number[3]);
    for (size_t net = 0; net < number[3]; net++) at += sprintf(at, "%u %u\n", ends[2 * net], ends[2 * net + 1]);
    return (size_t)(at - (char *)room);
}

struct file text_of(const unsigned number[4], const uint16_t *ends)
{
    static uint8_t bytes[MOST_FORM + 1];
    struct file text = {bytes, put_text(bytes, number, ends)};
    return text;
}

size_t text_size(const struct job *job)
{
    size_t length = (size_t)snprintf(NULL, 0, "board 3\n%u\n%u\n%u\nnets %u\n", job->f, job->c, job->m, job->n);
    for (unsigned net = 0; net < job->n; net++)
        length += (size_t)snprintf(NULL, 0, "%u %u\n", net_end(job, net, 0), net_end(job, net, 1));
    return length;
}
