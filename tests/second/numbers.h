/* Numbers for the generator: splitmix64, so that a seed gives the same stream
   on every machine. */
#ifndef SECOND_NUMBERS_H
#define SECOND_NUMBERS_H

#include <stdbool.h>
#include <stddef.h>
#include <stdint.h>

struct numbers {
    uint64_t state;
};

static inline uint64_t next_number(struct numbers *n)
{
    uint64_t z = n->state += 0x9E3779B97F4A7C15u;
    z = (z ^ (z >> 30)) * 0xBF58476D1CE4E5B9u;
    z = (z ^ (z >> 27)) * 0x94D049BB133111EBu;
    return z ^ (z >> 31);
}

/* 0 to limit - 1; the limit is not 0. */
static inline size_t below(struct numbers *n, size_t limit)
{
    return (size_t)(next_number(n) % limit);
}

/* low to high, both included. */
static inline size_t between(struct numbers *n, size_t low, size_t high)
{
    return low + below(n, high - low + 1);
}

static inline bool chance(struct numbers *n, unsigned percent)
{
    return below(n, 100) < percent;
}

static inline uint8_t any_byte(struct numbers *n)
{
    return (uint8_t)next_number(n);
}

/* One byte of a list. */
static inline uint8_t one_of(struct numbers *n, const uint8_t *list, size_t length)
{
    return list[below(n, length)];
}

#endif
