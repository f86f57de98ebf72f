/*
 * Makes the calls it reads from standard input and reports on standard output what each returned and every lent byte
 * it changed. It knows nothing of the rules: stream.h says what the records hold.
 */
#include <hogvuldur.h>
#include <stdbool.h>
#include <stdio.h>
#include <stdlib.h>
#include <string.h>

#include "stream.h"

enum { ARENA_SIZE = 1 << 22, ALIGNMENT = 8, GUARD_BYTE = 0xC9, ANSWER_BYTE = 0xB7, ANSWER_NUMBERS = 4 };

/* Lent memory without its guards. */
struct lent {
    uint8_t *start;
    size_t length; /* in elements */
    size_t size;   /* in bytes */
};

static uint8_t *arena;  /* all lent memory, with guards */
static uint8_t *before; /* what it held before the call */
static size_t used;     /* bytes of the arena laid out so far */
static struct lent lent[LENT_COUNT + 1];
static const size_t element_size[LENT_COUNT + 1] = LENT_ELEMENT_SIZES;

static void stop(const char *why)
{
    fprintf(stderr, "driver: %s\n", why);
    exit(1);
}

static void take(uint8_t *to, size_t size)
{
    if (size > 0 && fread(to, 1, size, stdin) != size) stop("a request ends too early");
}

static uint64_t take_number(int bytes)
{
    uint8_t byte[8];
    uint64_t number = 0;
    take(byte, (size_t)bytes);
    for (int i = 0; i < bytes; i++) number = number << 8 | byte[i];
    return number;
}

static void give_number(uint64_t number, int bytes)
{
    for (int i = bytes - 1; i >= 0; i--) putchar((int)(number >> (8 * i) & 0xFF));
}

/* Lays out a buffer of `length` elements right behind a guard, aligned to one element and no more. */
static struct lent *lay(int name, size_t length, size_t element, uint8_t fill)
{
    struct lent *one = &lent[name];
    size_t size = length * element;
    size_t at = (used + GUARD_SIZE + ALIGNMENT) / ALIGNMENT * ALIGNMENT + element % ALIGNMENT;
    if (size > ARENA_SIZE - at - GUARD_SIZE) stop("more memory is asked for than the driver has");
    one->start = arena + at;
    one->length = length;
    one->size = size;
    memset(one->start - GUARD_SIZE, GUARD_BYTE, GUARD_SIZE);
    memset(one->start, fill, size);
    memset(one->start + size, GUARD_BYTE, GUARD_SIZE);
    used = at + size + GUARD_SIZE;
    return one;
}

static void take_lent(int name)
{
    size_t length = take_number(4);
    uint8_t fill = (uint8_t)take_number(1);
    size_t given = take_number(4);
    if (length > ARENA_SIZE / 4) stop("a lent buffer is too long for the driver");
    struct lent *one = lay(name, length, element_size[name], fill);
    if (given > one->size) stop("more bytes are given than lent");
    take(one->start, given);
}

static uint16_t *numbers_of(enum lent_name name)
{
    return (uint16_t *)(void *)lent[name].start;
}

static uint64_t *answer_of(void)
{
    return (uint64_t *)(void *)lent[LENT_ANSWER].start;
}

static uint16_t make_round_call(int name)
{
    const struct lent *job = &lent[LENT_JOB];
    uint16_t *plan = numbers_of(LENT_PLAN), *scratch = numbers_of(LENT_SCRATCH);
    size_t plan_length = lent[LENT_PLAN].length, scratch_length = lent[LENT_SCRATCH].length;
    uint64_t *answer = answer_of();
    if (name == CALL_ONE_ROUND)
        return hogvuldur_one_round(job->start, job->size, plan, plan_length, scratch, scratch_length, answer);
    if (name == CALL_FINISH)
        return hogvuldur_finish(job->start, job->size, plan, plan_length, scratch, scratch_length, answer);
    return hogvuldur_plan(job->start, job->size, plan, plan_length, scratch, scratch_length, answer);
}

static uint16_t make_sheet_call(int name)
{
    const struct lent *job = &lent[LENT_JOB], *sheet = &lent[LENT_SHEET], *room = &lent[LENT_ROOM];
    uint16_t *plan = numbers_of(LENT_PLAN);
    size_t plan_length = lent[LENT_PLAN].length;
    uint64_t *answer = answer_of();
    if (name == CALL_WRITE_SHEET)
        return hogvuldur_write_sheet(job->start, job->size, plan, plan_length, room->start, room->size, answer);
    if (name == CALL_READ_SHEET)
        return hogvuldur_read_sheet(job->start, job->size, sheet->start, sheet->size, plan, plan_length, answer);
    if (name == CALL_AUDIT) return hogvuldur_audit(job->start, job->size, sheet->start, sheet->size, answer);
    hogvuldur_evidence(job->start, job->size, sheet->start, sheet->size, answer);
    return 0;
}

static uint16_t make_text_call(int name)
{
    const struct lent *job = &lent[LENT_JOB], *text = &lent[LENT_TEXT], *room = &lent[LENT_ROOM];
    uint64_t *answer = answer_of();
    if (name == CALL_READ_TEXT)
        return hogvuldur_read_text(text->start, text->size, room->start, room->size, answer);
    return hogvuldur_write_text(job->start, job->size, room->start, room->size, answer);
}

static uint16_t make_job_call(int name, const uint16_t number[4])
{
    const struct lent *job = &lent[LENT_JOB], *room = &lent[LENT_ROOM];
    uint64_t *answer = answer_of();
    if (name == CALL_CHECK) return hogvuldur_check(job->start, job->size, answer);
    if (name == CALL_NET) return hogvuldur_net(job->start, job->size, number[0], answer);
    if (name == CALL_SPARE) return hogvuldur_spare(job->start, job->size, number[0], answer);
    if (name == CALL_HEADROOM) return hogvuldur_headroom(job->start, job->size, number[0], number[1], answer);
    if (name == CALL_WRITE_JOB)
        return hogvuldur_write_job(number[0], number[1], number[2], number[3], numbers_of(LENT_ENDS),
                                   lent[LENT_ENDS].length, room->start, room->size, answer);
    if (name == CALL_NUMBERS)
        hogvuldur_numbers(job->start, job->size, answer);
    else
        hogvuldur_net_section(job->start, job->size, answer);
    return 0;
}

static uint16_t make_call(int name, const uint16_t number[4])
{
    if (name == CALL_ONE_ROUND || name == CALL_FINISH || name == CALL_PLAN) return make_round_call(name);
    if (name == CALL_WRITE_SHEET || name == CALL_READ_SHEET || name == CALL_AUDIT || name == CALL_EVIDENCE)
        return make_sheet_call(name);
    if (name == CALL_READ_TEXT || name == CALL_WRITE_TEXT) return make_text_call(name);
    return make_job_call(name, number);
}

/* Finds the next run of changed bytes at or after `from` in a buffer with its guards; false when there is none. */
static bool next_run(const struct lent *one, size_t from, size_t *at, size_t *length)
{
    const uint8_t *now = one->start - GUARD_SIZE;
    const uint8_t *old = before + (now - arena);
    size_t size = one->size + 2 * GUARD_SIZE, end;
    if (from >= size || memcmp(now + from, old + from, size - from) == 0) return false;
    while (now[from] == old[from]) from++;
    for (end = from; end < size && now[end] != old[end]; end++) {}
    *at = from;
    *length = end - from;
    return true;
}

static void give_run(int name, size_t at, size_t length)
{
    const uint8_t *bytes = lent[name].start - GUARD_SIZE + at;
    bool equal = length > 1 && memcmp(bytes, bytes + 1, length - 1) == 0;
    give_number((uint64_t)name, 1);
    give_number(at, 4);
    give_number(length, 4);
    give_number(equal, 1);
    fwrite(bytes, 1, equal ? 1 : length, stdout);
}

static void give_runs(void)
{
    size_t at, length;
    for (int name = 0; name <= LENT_ANSWER; name++)
        for (size_t from = 0; next_run(&lent[name], from, &at, &length); from = at + length) give_run(name, at, length);
    give_number(NO_MORE_RUNS, 1);
}

static void serve(int name)
{
    uint16_t number[4];
    uint64_t *answer;
    for (int i = 0; i < 4; i++) number[i] = (uint16_t)take_number(2);
    used = 0;
    for (int i = 0; i < LENT_COUNT; i++) take_lent(i);
    lay(LENT_ANSWER, ANSWER_NUMBERS, sizeof(uint64_t), ANSWER_BYTE);
    memcpy(before, arena, used);
    give_number(make_call(name, number), 2);
    answer = answer_of();
    for (int i = 0; i < ANSWER_NUMBERS; i++) give_number(answer[i], 8);
    /* The answer itself is reported as numbers: only its guards are left to compare. */
    memset(answer, ANSWER_BYTE, ANSWER_NUMBERS * sizeof *answer);
    give_runs();
    fflush(stdout);
}

int main(void)
{
    int name;
    arena = malloc(ARENA_SIZE);
    before = malloc(ARENA_SIZE);
    if (!arena || !before) stop("no memory");
    while ((name = getchar()) != EOF) {
        if (name >= CALL_COUNT) stop("an unknown call is asked for");
        serve(name);
    }
    return 0;
}
