/*
 * table.c: a table has a row for each call and board. Where only one number grows, "grows" is a row's time over that of
 * the row before.
 */
#include "table.h"

#include <stdio.h>

static const char *const call_names[CALLS] = {"plan", "one round", "load check"};

static void print_head(const struct series *series)
{
    printf("\n### %s\n\n| call | f | c | m | n | excess | rounds |", series->title);
    for (unsigned side = 0; side < SIDES; side++)
        printf(series->one_grows ? " %s | grows |" : " %s |", sides[side].name);
    printf(" %s / %s |\n|---|", sides[LIBRARY].name, sides[PLAIN].name);
    for (unsigned column = 0; column < (series->one_grows ? 11 : 9); column++)
        printf("--:|");
    printf("\n");
}

/* Three digits are enough, and all that stand before the point. */
static void print_number(double number)
{
    printf(" %.*f |", number < 10 ? 2 : number < 100 ? 1 : 0, number);
}

/* The excess that the call finds, and the rounds that it makes: by library and plain C, where they differ. */
static void print_rounds(const struct measured *measured, enum call call)
{
    unsigned long long excess = call == LOAD_CHECK ? 0 : measured->excess;
    unsigned long long library = measured->rounds[call][LIBRARY], plain = measured->rounds[call][PLAIN];
    if (library == plain)
        printf(" %llu | %llu |", excess, library);
    else
        printf(" %llu | %llu, %llu |", excess, library, plain);
}

static void print_row(const struct series *series, const struct measured *measured, unsigned row, enum call call)
{
    const struct board *board = &series->boards[row];
    const uint64_t *least = measured[row].least[call];
    printf("| %s | %u | %u | %u | %u |", call_names[call], board->f, board->c, board->m, board->n);
    print_rounds(&measured[row], call);
    for (unsigned side = 0; side < SIDES; side++) {
        print_number((double)least[side] / 1000);
        if (series->one_grows && row == 0)
            printf(" |");
        else if (series->one_grows)
            print_number((double)least[side] / (double)measured[row - 1].least[call][side]);
    }
    print_number((double)least[LIBRARY] / (double)least[PLAIN]);
    printf("\n");
}

void print_table(const struct series *series, const struct measured *measured)
{
    unsigned calls = series->plan_only ? PLAN + 1 : CALLS;
    print_head(series);
    for (unsigned call = 0; call < calls; call++)
        for (unsigned row = 0; row < series->count; row++)
            print_row(series, measured, row, (enum call)call);
}
