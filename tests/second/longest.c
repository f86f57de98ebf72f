#include "longest.h"

#include <string.h>

#include "calls.h"
#include "report.h"
#include "text.h"
#include "texts.h"
#include "typed.h"

static uint16_t ends[2 * MOST_NUMBER];

/* Nets that take turns between these two FPGAs. */
static void fill(unsigned x, unsigned y)
{
    for (size_t i = 0; i < 2 * (size_t)MOST_NUMBER; i++) ends[i] = (uint16_t)((i + i / 2) % 2 == 0 ? x : y);
}

static void must(bool holds, const char *what)
{
    if (!holds) report_failure("a long text: %s", what);
}

/* A text with fewer and with more lines than it counts, the last of them broken off and whole. */
static void around(struct file text)
{
    size_t last = text.length - 1;
    while (text.bytes[last - 1] != '\n') last--;
    struct file shorter = {text.bytes, last};
    try_text(text);
    try_text(shorter);
    shorter.length = text.length - 1;
    try_text(shorter);
    try_changed(text, text.length, 0, "\n", 1);
    try_changed(text, text.length, 0, "0 1\n0 1", 7);
}

/* The form allows counts that the check refuses, and their nets are not looked at. */
static void all_counts(void)
{
    static const unsigned nets[] = {1, 9, 10, 99, 100, 999, 1000, 4095, 4096, 4097, 5000, 9999, 10000, 65535};
    for (size_t i = 0; i < sizeof nets / sizeof *nets; i++) {
        const unsigned number[4] = {2, 128, 64, nets[i]};
        fill(0, 1);
        around(text_of(number, ends));
        fill(2, 2);
        try_text(text_of(number, ends));
    }
}

/* Faults in the last net of the most. */
static void last_nets(void)
{
    static const uint16_t faulty[][2] = {{256, 0}, {255, 256}, {100, 100}, {65535, 65535}};
    const unsigned number[4] = {MOST_FPGAS, MOST_CROSSBARS, MOST_WIRES, MOST_NETS};
    fill(100, 255);
    for (size_t i = 0; i < sizeof faulty / sizeof *faulty; i++) {
        memcpy(ends + 2 * (MOST_NETS - 1), faulty[i], sizeof faulty[i]);
        try_text(text_of(number, ends));
    }
}

static void longest_of_jobs(void)
{
    static uint8_t bytes[MOST_JOB];
    const unsigned number[4] = {MOST_FPGAS, MOST_CROSSBARS, MOST_WIRES, MOST_NETS};
    fill(100, 255);
    struct file text = text_of(number, ends), job = {bytes, put_job(bytes, number, ends)};
    must(text.length == 32797 && text.length == MOST_TYPED, "the length of the longest of a job");
    around(text);
    try_job(job);
}

/* Numbers of five digits all over, refused for f; and 65,535 nets on a board that is right. */
static void longest_of_form(void)
{
    const unsigned number[4] = {MOST_NUMBER, MOST_NUMBER, MOST_NUMBER, MOST_NUMBER};
    const unsigned right[4] = {MOST_FPGAS, MOST_CROSSBARS, MOST_WIRES, MOST_NUMBER};
    fill(MOST_NUMBER, MOST_NUMBER);
    struct file text = text_of(number, ends);
    must(text.length == 786457 && text.length == MOST_FORM, "the length of the longest of the form");
    around(text);
    around(text_of(right, ends));
}

/* Nothing but one byte behind the beginning of a text: places stay in the first line that breaks. */
static void long_lines(void)
{
    static const char *const starts[] = {"", "board 3", "board 3\n", "board 3\n2\n1\n2\nnets 1\n0 "};
    static const char same[] = "0159 \n";
    static uint8_t bytes[70000];
    struct file text = {bytes, sizeof bytes};
    for (size_t i = 0; i < sizeof starts / sizeof *starts; i++)
        for (const char *byte = same; *byte; byte++) {
            memset(bytes, *byte, sizeof bytes);
            memcpy(bytes, starts[i], strlen(starts[i]));
            try_text(text);
        }
}

void run_longest(void)
{
    report_part("long texts", 0);
    all_counts();
    last_nets();
    longest_of_jobs();
    longest_of_form();
    long_lines();
}
