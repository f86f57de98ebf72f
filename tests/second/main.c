/*
 * The second program: holds every public call of the library against documents 01 and 02 on many random boards.
 *
 *     second [--seed S] [--boards N] [--board K] [--listings N] [--listing COMMAND..] -- DRIVER-COMMAND..
 *
 * The same seed gives the same boards. --boards says how many there are; --board runs that one board and nothing else,
 * so that a failure can be seen again. --listings says on how many random boards the listing program is run; --listing
 * is the last option, and what follows it up to -- is the listing program's command.
 */
#define _POSIX_C_SOURCE 200809L
#include <signal.h>
#include <stdbool.h>
#include <stdio.h>
#include <stdlib.h>
#include <string.h>

#include "boards.h"
#include "chance.h"
#include "cover.h"
#include "limits.h"
#include "listing.h"
#include "longest.h"
#include "numbered.h"
#include "report.h"
#include "texts.h"

struct options {
    uint64_t seed;
    unsigned long boards, listings, board;
    bool one_board;
    char **listing, **driver;
};

static unsigned long number_of(const char *text)
{
    char *end;
    unsigned long number = text ? strtoul(text, &end, 10) : 0;
    if (!text || *text == '\0' || *end != '\0') {
        fprintf(stderr, "second: a number is missing after an option\n");
        exit(2);
    }
    return number;
}

/* The words up to "--", which is put out; gives the words after it, or null. */
static char **cut(char **words)
{
    while (*words && strcmp(*words, "--") != 0) words++;
    if (!*words) return NULL;
    *words = NULL;
    return words + 1;
}

static bool read_options(struct options *options, char **words)
{
    options->driver = cut(words);
    for (; *words; words++) {
        if (strcmp(*words, "--listing") == 0) {
            options->listing = words + 1;
            break;
        }
        if (strcmp(*words, "--seed") == 0)
            options->seed = number_of(*++words);
        else if (strcmp(*words, "--boards") == 0)
            options->boards = number_of(*++words);
        else if (strcmp(*words, "--listings") == 0)
            options->listings = number_of(*++words);
        else if (strcmp(*words, "--board") == 0) {
            options->board = number_of(*++words);
            options->one_board = true;
        } else
            return false;
    }
    return options->driver && options->driver[0] && (!options->listing || options->listing[0]);
}

static void run_one_board(const struct options *options, unsigned long board)
{
    report_board(board);
    chance_start(options->seed, board);
    run_board(board);
}

static void run_all(const struct options *options)
{
    chance_start(options->seed, UINT64_MAX);
    run_numbered();
    run_limits();
    run_texts();
    run_longest();
    for (unsigned long board = 0; board < options->boards; board++) run_one_board(options, board);
    if (options->listing) run_listings(options->listing, options->listings, options->seed);
    cover_print();
    cover_demand(options->listing != NULL);
}

int main(int count, char **words)
{
    struct options options = {1, 320, 40, 0, false, NULL, NULL};
    if (count < 2 || !read_options(&options, words + 1)) {
        fprintf(stderr, "second [--seed S] [--boards N] [--board K] [--listings N] [--listing COMMAND..] "
                        "-- DRIVER-COMMAND..\n");
        return 2;
    }
    /* A program that ends early is seen when its answer is read. */
    signal(SIGPIPE, SIG_IGN);
    if (!driver_start(options.driver)) {
        perror("second");
        return 2;
    }
    report_seed(options.seed);
    if (options.one_board)
        run_one_board(&options, options.board);
    else
        run_all(&options);
    driver_end();
    return report_end();
}
