/* Chance that can be repeated: the same seed in chance_state, the same numbers (splitmix64). */
#ifndef CHANCE_H
#define CHANCE_H

#include <stdint.h>

static uint64_t chance_state;

static uint64_t chance(void)
{
    uint64_t z = chance_state += 0x9E3779B97F4A7C15u;
    z = (z ^ (z >> 30)) * 0xBF58476D1CE4E5B9u;
    z = (z ^ (z >> 27)) * 0x94D049BB133111EBu;
    return z ^ (z >> 31);
}

static uint64_t below(uint64_t n)
{
    return chance() % n;
}

static int one_in(uint64_t n)
{
    return below(n) == 0;
}

#endif
