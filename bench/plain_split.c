/*
 * plain_split.c: Euler circuits over the nets of two crossbars.
 *
 * A net is an edge between two FPGAs. The ends of net e are numbered 2e and 2e + 1, so that the other end of h is
 * h ^ 1, and each FPGA has a list of its ends. A connected group with FPGAs of odd degree gets a hub and an extra net
 * from it to each of them; its circuit begins at the hub, with the other crossbar first, so that the hub takes up any
 * imbalance.
 */
#include "plain_split.h"

#define HUB MOST_FPGAS
/* A hub has an extra net for each FPGA at most. */
#define MOST_EDGES (MOST_NETS + MOST_FPGAS)
#define NONE UINT16_MAX

static uint16_t fpga_of[2 * MOST_EDGES];
static uint16_t next_end[2 * MOST_EDGES];
static uint8_t walked[MOST_EDGES];
static uint8_t side[MOST_EDGES];
static uint16_t first_end[MOST_FPGAS + 1];
static uint16_t degree[MOST_FPGAS + 1];

/* A connected group of FPGAs. */
struct group {
    unsigned fpgas, nets, odd;
    uint16_t fpga[MOST_FPGAS];
};

static void add_end(unsigned end, unsigned v)
{
    fpga_of[end] = (uint16_t)v;
    next_end[end] = first_end[v];
    first_end[v] = (uint16_t)end;
    degree[v]++;
}

static void add_net(unsigned e, unsigned v, unsigned w)
{
    walked[e] = 0;
    add_end(2 * e, v);
    add_end(2 * e + 1, w);
}

static void forget_ends(unsigned v)
{
    first_end[v] = NONE;
    degree[v] = 0;
}

/* Everything that nets connect with FPGA v. */
static void find_group(unsigned v, uint8_t *seen, struct group *group)
{
    unsigned ends = 0;
    group->fpgas = 1;
    group->fpga[0] = (uint16_t)v;
    group->odd = 0;
    seen[v] = 1;
    for (unsigned i = 0; i < group->fpgas; i++) {
        unsigned here = group->fpga[i];
        ends += degree[here];
        group->odd += degree[here] % 2;
        for (unsigned end = first_end[here]; end != NONE; end = next_end[end]) {
            unsigned there = fpga_of[end ^ 1];
            if (!seen[there]) {
                seen[there] = 1;
                group->fpga[group->fpgas++] = (uint16_t)there;
            }
        }
    }
    group->nets = ends / 2;
}

/* The extra nets are numbered from k. */
static void add_hub(const struct group *group, unsigned k)
{
    forget_ends(HUB);
    for (unsigned i = 0; i < group->fpgas; i++)
        if (degree[group->fpga[i]] % 2 != 0)
            add_net(k++, HUB, group->fpga[i]);
}

/*
 * Where the circuit begins if all degrees are even. If the number of nets is odd, that FPGA gets two nets more on one
 * side, too many at degree 2m. Not all can have it: with m even the number of nets would be even.
 */
static unsigned choose_start(const struct group *group, unsigned m)
{
    unsigned i = 0;
    if (group->nets % 2 != 0)
        while (degree[group->fpga[i]] == 2 * m)
            i++;
    return group->fpga[i];
}

/* The next end at v of a net that is not walked yet; NONE if there is none. Walked ones leave the list. */
static unsigned take_end(unsigned v)
{
    unsigned end = first_end[v];
    while (end != NONE && walked[end / 2])
        end = next_end[end];
    first_end[v] = end == NONE ? NONE : next_end[end];
    return end;
}

/* Walks the circuit from `start`, with the sides in turn. An end stays on the trail until its FPGA is used up. */
static void walk_circuit(unsigned start, unsigned turn)
{
    static uint16_t trail[MOST_EDGES];
    unsigned length = 0;
    for (;;) {
        unsigned here = length == 0 ? start : fpga_of[trail[length - 1]];
        unsigned end = take_end(here);
        if (end != NONE) {
            walked[end / 2] = 1;
            trail[length++] = (uint16_t)(end ^ 1);
        } else if (length == 0) {
            return;
        } else {
            side[trail[--length] / 2] = (uint8_t)turn;
            turn ^= 1;
        }
    }
}

/* Splits one group: if its number of nets is odd, `more` is the side with one net more. */
static void split_group(const struct group *group, unsigned k, unsigned m, unsigned more)
{
    if (group->odd == 0) {
        walk_circuit(choose_start(group, m), more);
    } else {
        add_hub(group, k);
        walk_circuit(HUB, more ^ 1);
    }
}

const uint8_t *plain_split(const struct job *job, const struct plain_ends *nets, unsigned k)
{
    uint8_t seen[MOST_FPGAS] = {0};
    unsigned more = 0;
    struct group group;
    for (unsigned v = 0; v < job->f; v++)
        forget_ends(v);
    for (unsigned e = 0; e < k; e++)
        add_net(e, nets[e].fpga[0], nets[e].fpga[1]);
    for (unsigned v = 0; v < job->f; v++) {
        if (seen[v] || degree[v] == 0)
            continue;
        find_group(v, seen, &group);
        split_group(&group, k, job->width, more);
        /* Groups with an odd number of nets favour A and B in turn, so that the totals stay within one. */
        more ^= group.nets % 2;
    }
    return side;
}
