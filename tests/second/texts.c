#include "texts.h"

#include <string.h>

#include "chance.h"
#include "report.h"
#include "text.h"
#include "typed.h"

static const char *const small[] = {
    "board 3\n3\n2\n2\nnets 4\n0 1\n1 2\n2 0\n0 1\n",
    "board 3\n1\n1\n2\nnets 0\n",
    "board 3\n256\n128\n63\nnets 2\n255 100\n0 99\n",
    "board 3\n10\n20\n30\nnets 12\n0 1\n1 2\n2 3\n3 4\n4 5\n5 6\n6 7\n7 8\n8 9\n9 0\n2 1\n0 5\n",
    "board 3\n65535\n65535\n65535\nnets 1\n65535 65535\n",
    "board 3\n7\n128\n1\nnets 3\n7 8\n8 7\n7 7\n",
};

/* What a byte is changed to, and what is put between two. */
static const uint8_t others[] = {0,   '\t', '\n', '\r', ' ', '+', '-', '.', '0',
                                 '1', '4',  '6',  '9',  'B', 'b', 'n', 's', 255};

/* What stands in place of a number: at the limits, beside them, and what other readers take for a number. */
static const char *const spelled[] = {
    "", "0", "00", "01", "1", "2", "3", "10", "010", "64", "65", "128", "129", "256", "257", "4096", "4097", "9999",
    "10000", "65534", "65535", "65536", "65540", "66000", "70000", "065535", "99999", "100000", "131072", "655350",
    "4294967295", "4294967296", "4294967297", "18446744073709551617", "-1", "+1", "-0", " 1", "1 ", "1.0", "1e1", "0x1",
    "1,000", "one",
};

/* What stands behind the last line. */
static const char *const behind[] = {
    "\n", " ", "0", "0 1", "0 1\n", "x", "\r\n", "nets 0\n", "board 3\n", "\377", "\n\n\n",
};

enum { COUNT_OTHERS = sizeof others };

/* The text at hand, which is changed in place. */
static uint8_t bytes[MOST_FORM + BEYOND];
static size_t length;

static void start(struct file text)
{
    memcpy(bytes, text.bytes, text.length);
    length = text.length;
}

static void change(size_t place, size_t taken, const void *put, size_t count)
{
    memmove(bytes + place + count, bytes + place + taken, length - place - taken);
    memcpy(bytes + place, put, count);
    length = length - taken + count;
}

static void try_now(void)
{
    struct file text = {bytes, length};
    try_text(text);
}

void try_changed(struct file text, size_t place, size_t taken, const void *put, size_t count)
{
    start(text);
    change(place, taken, put, count);
    try_now();
}

static void every_byte(struct file text)
{
    for (size_t place = 0; place <= text.length; place++) {
        try_changed(text, place, text.length - place, "", 0);
        for (size_t i = 0; i < COUNT_OTHERS; i++) try_changed(text, place, 0, &others[i], 1);
        if (place == text.length) break;
        try_changed(text, place, 1, "", 0);
        for (size_t i = 0; i < COUNT_OTHERS; i++) try_changed(text, place, 1, &others[i], 1);
    }
}

static void every_number(struct file text)
{
    size_t digits;
    for (size_t place = 0; place < text.length; place += digits + 1) {
        digits = strspn((const char *)text.bytes + place, "0123456789");
        for (size_t i = 0; digits > 0 && i < sizeof spelled / sizeof *spelled; i++)
            try_changed(text, place, digits, spelled[i], strlen(spelled[i]));
    }
}

/* Where the next line begins. */
static size_t next_line(struct file text, size_t place)
{
    while (text.bytes[place++] != '\n') {}
    return place;
}

/* Each line taken away; before each line, and in place of it, each line of the text, itself too. */
static void every_line(struct file text)
{
    for (size_t line = 0, next; line < text.length; line = next) {
        next = next_line(text, line);
        try_changed(text, line, next - line, "", 0);
        for (size_t other = 0, end; other < text.length; other = end) {
            end = next_line(text, other);
            try_changed(text, line, 0, text.bytes + other, end - other);
            try_changed(text, line, next - line, text.bytes + other, end - other);
        }
    }
}

static void more_behind(struct file text)
{
    for (size_t i = 0; i < sizeof behind / sizeof *behind; i++)
        try_changed(text, text.length, 0, behind[i], strlen(behind[i]));
    try_changed(text, text.length, 0, text.bytes, text.length);
}

void run_texts(void)
{
    for (size_t i = 0; i < sizeof small / sizeof *small; i++) {
        struct file text = {(const uint8_t *)small[i], strlen(small[i])};
        report_part("text", i + 1);
        try_text(text);
        every_byte(text);
        every_number(text);
        every_line(text);
        more_behind(text);
    }
}

/* One change at random, as a hand may make it: a byte, a number or a line; or the rest is cut off. */
static void change_somewhere(void)
{
    struct file now = {bytes, length};
    size_t place = chance_below((unsigned)length), line = place;
    while (line > 0 && bytes[line - 1] != '\n') line--;
    size_t next = bytes[length - 1] == '\n' ? next_line(now, line) : length;
    const char *number = spelled[chance_below(sizeof spelled / sizeof *spelled)];
    switch (chance_below(7)) {
    case 0: change(place, 1, "", 0); break;
    case 1: change(place, 0, &others[chance_below(COUNT_OTHERS)], 1); break;
    case 2: change(place, 1, &others[chance_below(COUNT_OTHERS)], 1); break;
    case 3: change(line, 0, number, strlen(number)); break;
    case 4: change(line, next - line, "", 0); break;
    case 5: change(next, 0, "0 1\n", 4); break;
    default: if (chance_one_in(4)) length = place;
    }
}

void board_texts(struct made *board, unsigned changes)
{
    struct file text = text_of(board->number, board->ends);
    try_text(text);
    try_job(made_job(board));
    for (; changes > 0; changes--) {
        start(text);
        for (unsigned i = chance_between(1, 3); i > 0 && length > 0; i--) change_somewhere();
        try_now();
    }
}
