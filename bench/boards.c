/* boards.c: the boards, and how their nets are made. */
#include "boards.h"

/* Nets of the largest filled board that is mixed. */
#define MOST_FILLED 8192

struct net {
    uint16_t v, w;
};

static const struct board at_limit[] = {
    {MIXED, 4, 4, 2, 16, 0},       {MIXED, 8, 8, 2, 64, 0},      {MIXED, 16, 16, 2, 256, 0},
    {MIXED, 32, 32, 2, 1024, 0},   {MIXED, 64, 64, 2, 4096, 0},  {MIXED, 32, 128, 2, 4096, 0},
    {MIXED, 256, 8, 4, 4096, 0},   {MIXED, 16, 8, 64, 4096, 0},
};

static const struct board two_thirds[] = {
    {MIXED, 6, 4, 2, 16, 0},     {MIXED, 12, 8, 2, 64, 0},    {MIXED, 24, 16, 2, 256, 0},
    {MIXED, 48, 32, 2, 1024, 0}, {MIXED, 96, 64, 2, 4096, 0}, {MIXED, 48, 128, 2, 4096, 0},
};

static const struct board nets_grow[] = {
    {HOT, 256, 32, 2, 256, 15},  {HOT, 256, 32, 2, 512, 15},  {HOT, 256, 32, 2, 1024, 15},
    {HOT, 256, 32, 2, 2048, 15}, {HOT, 256, 32, 2, 4096, 15},
};

static const struct board crossbars_grow[] = {
    {HOT, 96, 8, 8, 2048, 7},  {HOT, 96, 16, 8, 2048, 7},  {HOT, 96, 32, 8, 2048, 7},
    {HOT, 96, 64, 8, 2048, 7}, {HOT, 96, 128, 8, 2048, 7},
};

static const struct board rounds_grow[] = {
    {HOT, 256, 128, 2, 4096, 0},  {HOT, 256, 128, 2, 4096, 1},  {HOT, 256, 128, 2, 4096, 3},
    {HOT, 256, 128, 2, 4096, 7},  {HOT, 256, 128, 2, 4096, 15}, {HOT, 256, 128, 2, 4096, 31},
    {HOT, 256, 128, 2, 4096, 63},
};

#define BOARDS(list) list, sizeof list / sizeof list[0]

const struct series all_series[SERIES] = {
    {"Every degree at the limit", false, false, BOARDS(at_limit)},
    {"Two thirds of the wires in use", false, false, BOARDS(two_thirds)},
    {"Only n grows", true, false, BOARDS(nets_grow)},
    {"Only c grows", true, false, BOARDS(crossbars_grow)},
    {"Only the rounds grow", true, true, BOARDS(rounds_grow)},
};

/* The j-th net of a crossbar among FPGAs low to f - 1: every one of them has two ends in each f - low nets. */
static struct net legal_net(const struct board *board, unsigned low, unsigned crossbar, unsigned j)
{
    unsigned fpgas = board->f - low;
    unsigned v = j % fpgas;
    unsigned w = (v + 1 + (crossbar + j / fpgas) % (fpgas - 1)) % fpgas;
    struct net net = {(uint16_t)(low + v), (uint16_t)(low + w)};
    return net;
}

/* Net i of a hot board. The pair 2h - 2, 2h - 1 has the first 2m nets that are dealt to crossbar h. */
static struct net hot_net(const struct board *board, unsigned i)
{
    unsigned crossbar = i % board->c, j = i / board->c;
    if (crossbar < 1 || crossbar > board->hot)
        return legal_net(board, 2 * board->hot, crossbar, j);
    if (j >= 2 * board->m)
        return legal_net(board, 2 * board->hot, crossbar, j - 2 * board->m);
    struct net net = {(uint16_t)(2 * crossbar - 2), (uint16_t)(2 * crossbar - 1)};
    return net;
}

/* The next of a fixed row of numbers that look random (an additive step, then mixing of its bits). */
static uint64_t draw(uint64_t *seed)
{
    uint64_t z = *seed += UINT64_C(0x9E3779B97F4A7C15);
    z = (z ^ z >> 30) * UINT64_C(0xBF58476D1CE4E5B9);
    z = (z ^ z >> 27) * UINT64_C(0x94D049BB133111EB);
    return z ^ z >> 31;
}

/* All nets of the filled board, in mixed order. */
static void mix_nets(const struct board *board, struct net *nets)
{
    uint64_t seed = 1999;
    unsigned filled = board->f * board->c * board->m / 2;
    for (unsigned i = 0; i < filled; i++)
        nets[i] = legal_net(board, 0, i % board->c, i / board->c);
    for (unsigned left = filled; left > 1; left--) {
        unsigned chosen = (unsigned)(draw(&seed) % left);
        struct net last = nets[left - 1];
        nets[left - 1] = nets[chosen];
        nets[chosen] = last;
    }
}

struct file board_job(const struct board *board)
{
    static struct net mixed[MOST_FILLED];
    static uint16_t ends[2 * MOST_NETS];
    static uint8_t room[MOST_JOB];
    const unsigned numbers[4] = {board->f, board->c, board->m, board->n};
    if (board->kind == MIXED)
        mix_nets(board, mixed);
    for (unsigned i = 0; i < board->n; i++) {
        struct net net = board->kind == MIXED ? mixed[i] : hot_net(board, i);
        ends[2 * i] = net.v;
        ends[2 * i + 1] = net.w;
    }
    struct file file = {room, put_job(room, numbers, ends)};
    return file;
}
