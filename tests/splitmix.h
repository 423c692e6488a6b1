/* Numbers drawn from a seed, by splitmix64. */
#ifndef SPLITMIX_H
#define SPLITMIX_H

#include <stdint.h>

/* The upper half of the next number; the seed goes on. */
static inline uint32_t splitmix(uint64_t *seed)
{
    uint64_t z = *seed += UINT64_C(0x9E3779B97F4A7C15);
    z = (z ^ (z >> 30)) * UINT64_C(0xBF58476D1CE4E5B9);
    z = (z ^ (z >> 27)) * UINT64_C(0x94D049BB133111EB);
    return (uint32_t)((z ^ (z >> 31)) >> 32);
}

#endif
