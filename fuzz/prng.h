/* Random numbers that are the same on every machine, from a seed. */
#ifndef PRNG_H
#define PRNG_H

#include <stddef.h>
#include <stdint.h>

static uint64_t prng_state;

/* splitmix64 */
static inline uint64_t next_random(void)
{
    uint64_t z = (prng_state += 0x9e3779b97f4a7c15u);
    z = (z ^ (z >> 30)) * 0xbf58476d1ce4e5b9u;
    z = (z ^ (z >> 27)) * 0x94d049bb133111ebu;
    return z ^ (z >> 31);
}

/* A number below n, which is not 0. */
static inline size_t below(size_t n)
{
    return (size_t)(next_random() % n);
}

static inline int chance(size_t in_hundred)
{
    return below(100) < in_hundred;
}

#endif
