#include "make.h"

#include <string.h>

#include "chance.h"

enum { F, C, M, N };

enum shape { PAIRS, STAR, WALKS, SHAPES };

/* A board on its way: degrees so far, and the FPGAs that are not idle in random order. */
struct making {
    struct made *made;
    unsigned degree[MOST_FPGAS];
    unsigned limit; /* of a degree: the usable width times c */
    unsigned busy[MOST_FPGAS];
    unsigned busy_count;
    unsigned target; /* of n */
};

static void choose_numbers(struct made *made, enum size size, unsigned *target)
{
    static const unsigned most[4][4] = {{6, 4, 4, 14}, {20, 8, 8, 150}, {100, 32, 16, 1200}, {256, 128, 64, 4096}};
    static const unsigned edge_f[] = {1, 2, 3, 255, 256}, edge_c[] = {1, 2, 127, 128}, edge_m[] = {2, 3, 63, 64};
    static const unsigned edge_n[] = {0, 1, 2, 4095, 4096};
    unsigned *number = made->number;
    if (size == EDGE) {
        number[F] = chance_of(edge_f, 5);
        number[C] = chance_of(edge_c, 4);
        number[M] = chance_of(edge_m, 4);
        *target = chance_of(edge_n, 5);
    } else {
        number[F] = chance_between(chance_one_in(8) ? 1 : 2, most[size][F]);
        number[C] = chance_between(1, most[size][C]);
        number[M] = chance_between(2, most[size][M]);
        *target = chance_one_in(2) ? most[size][N] : chance_below(most[size][N] + 1);
    }
    /* Half of the large boards get few enough wires to be filled up. */
    if (size == LARGE && chance_one_in(2)) {
        while (number[M] > 3 && number[F] * number[C] * number[M] > 2 * *target) number[M] -= 2;
        while (number[C] > 1 && number[F] * number[C] * number[M] > 2 * *target) number[C]--;
    }
    number[N] = 0;
}

/* Some or all FPGAs have nets; the rest are idle. */
static void choose_busy(struct making *making)
{
    unsigned f = making->made->number[F];
    for (unsigned i = 0; i < f; i++) making->busy[i] = i;
    for (unsigned i = f; i > 1; i--) {
        unsigned other = chance_below(i), kept = making->busy[i - 1];
        making->busy[i - 1] = making->busy[other];
        making->busy[other] = kept;
    }
    making->busy_count = f;
    if (f > 2 && chance_one_in(3)) making->busy_count = chance_between(2, f);
    if (f > 4 && chance_one_in(6)) making->busy_count = chance_between(2, 4);
}

static void add_net(struct making *making, unsigned x, unsigned y)
{
    struct made *made = making->made;
    bool turned = chance_one_in(2);
    made->ends[2 * made->number[N]] = (uint16_t)(turned ? y : x);
    made->ends[2 * made->number[N] + 1] = (uint16_t)(turned ? x : y);
    made->number[N]++;
    making->degree[x]++;
    making->degree[y]++;
}

/* An FPGA other than the given one that can take more nets, or MOST_FPGAS. */
static unsigned open_fpga(const struct making *making, unsigned other)
{
    unsigned start = chance_below(making->busy_count);
    for (unsigned i = 0; i < making->busy_count; i++) {
        unsigned fpga = making->busy[(start + i) % making->busy_count];
        if (fpga != other && making->degree[fpga] < making->limit) return fpga;
    }
    return MOST_FPGAS;
}

static bool add_pair(struct making *making, unsigned first)
{
    unsigned x = first, y;
    if (x == MOST_FPGAS || making->degree[x] >= making->limit) x = open_fpga(making, MOST_FPGAS);
    if (x == MOST_FPGAS) return false;
    y = open_fpga(making, x);
    if (y == MOST_FPGAS) return false;
    add_net(making, x, y);
    return true;
}

/* A closed walk in a small group of FPGAs leaves all degrees even, often with an odd number of nets. */
static bool add_walk(struct making *making)
{
    unsigned width = making->busy_count < 5 ? making->busy_count : chance_between(3, 5);
    unsigned groups = making->busy_count / width, group = chance_below(groups) * width;
    unsigned length = chance_between(2, 7), walk[8];
    if (width < 3) length = 2;
    if (making->made->number[N] + length > making->target) return false;
    for (unsigned i = 0; i < length; i++) {
        do walk[i] = making->busy[group + chance_below(width)];
        while ((i > 0 && walk[i] == walk[i - 1]) || (i == length - 1 && walk[i] == walk[0]));
    }
    for (unsigned i = 0; i < length; i++) {
        unsigned passes = 0;
        for (unsigned k = 0; k < length; k++) passes += walk[k] == walk[i];
        if (making->degree[walk[i]] + 2 * passes > making->limit) return false;
    }
    for (unsigned i = 0; i < length; i++) add_net(making, walk[i], walk[(i + 1) % length]);
    return true;
}

static void add_nets(struct making *making)
{
    enum shape shape = (enum shape)chance_below(SHAPES);
    unsigned tries = 0;
    if (making->busy_count < 2) return;
    while (making->made->number[N] < making->target) {
        bool added = shape == WALKS  ? add_walk(making)
                     : shape == STAR ? add_pair(making, making->busy[0])
                                     : add_pair(making, MOST_FPGAS);
        if (!added && ++tries > 20) return;
    }
}

/* Brings the degree of one FPGA just above the limit. */
static void add_too_many(struct making *making)
{
    unsigned hub = making->busy[chance_below(making->busy_count)], missing = making->limit + 1 - making->degree[hub];
    if (making->busy_count < 2 || making->made->number[N] + missing > MOST_NETS) return;
    for (; missing > 0; missing--) {
        unsigned other;
        do other = making->busy[chance_below(making->busy_count)];
        while (other == hub);
        add_net(making, hub, other);
    }
}

static void shuffle_nets(struct made *made)
{
    for (unsigned i = made->number[N]; i > 1; i--) {
        unsigned other = chance_below(i);
        for (unsigned end = 0; end < 2; end++) {
            uint16_t kept = made->ends[2 * (i - 1) + end];
            made->ends[2 * (i - 1) + end] = made->ends[2 * other + end];
            made->ends[2 * other + end] = kept;
        }
    }
}

void make_board(struct made *made, enum size size)
{
    static struct making making;
    memset(&making, 0, sizeof making);
    memset(made, 0, sizeof *made);
    making.made = made;
    choose_numbers(made, size, &making.target);
    making.limit = usable_width(made->number[M]) * made->number[C];
    choose_busy(&making);
    add_nets(&making);
    if (chance_one_in(8)) add_too_many(&making);
    if (chance_one_in(2)) shuffle_nets(made);
}

void make_changes(struct made *made, unsigned changes)
{
    unsigned f = made->number[F];
    for (; changes > 0 && made->number[N] > 0; changes--) {
        unsigned net = chance_below(made->number[N]), x = chance_below(f), y = chance_below(f);
        if (x == y) continue;
        made->ends[2 * net] = (uint16_t)x;
        made->ends[2 * net + 1] = (uint16_t)y;
    }
}

struct file made_job(struct made *made)
{
    struct file job = {made->bytes, put_job(made->bytes, made->number, made->ends)};
    return job;
}

void make_random_start(const struct made *made, uint16_t *plan)
{
    for (unsigned net = 0; net < made->number[N]; net++) plan[net] = (uint16_t)chance_below(made->number[C]);
}

void make_heap_start(const struct made *made, uint16_t *plan)
{
    unsigned crossbar = chance_below(made->number[C]);
    for (unsigned net = 0; net < made->number[N]; net++) plan[net] = (uint16_t)crossbar;
}
