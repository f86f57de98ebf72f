#include "chance.h"

static uint64_t state;

static uint64_t next(void)
{
    /* splitmix64 */
    uint64_t mixed = state += 0x9E3779B97F4A7C15u;
    mixed = (mixed ^ mixed >> 30) * 0xBF58476D1CE4E5B9u;
    mixed = (mixed ^ mixed >> 27) * 0x94D049BB133111EBu;
    return mixed ^ mixed >> 31;
}

void chance_start(uint64_t seed, uint64_t board)
{
    state = seed;
    state = next() ^ board * 0xD1342543DE82EF95u;
    state = next();
}

unsigned chance_below(unsigned limit)
{
    return (unsigned)((next() >> 32) % limit);
}

unsigned chance_between(unsigned least, unsigned most)
{
    return least + chance_below(most - least + 1);
}

bool chance_one_in(unsigned times)
{
    return chance_below(times) == 0;
}

unsigned chance_of(const unsigned *numbers, size_t count)
{
    return numbers[chance_below((unsigned)count)];
}
