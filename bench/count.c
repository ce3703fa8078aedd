/* The count of meshes at or above a level of 01-scope.md in C, to be measured against: the whole call, with its
 * refusals 42, 43 and 41 in this order. Built twice, at -O2 and at -O3 -march=native, with another NAME each.
 *
 * plain      two loops over all bytes, the search for level 15 and the count; neither has a way out, so that the
 *            compiler can take many bytes at a time
 * tested     one loop, byte by byte: `00` is tested for first, and only the others are split (Request 102)
 * two_walks  the library's form: first the search, by the highest byte and the highest even level, then the count,
 *            which is 40,000 at level 0 and above it goes by stretches of 160 bytes, passed over where all are `00`.
 *            Left out are the library's test of each byte for `00`, which its compiler drops, and its split of the odd
 *            half, which a comparison can do without
 * one_walk   the same with search and count in one: a stretch of `00` is read once, a refused grid is counted too */
#include <stddef.h>
#include <stdint.h>

#define JOINED(a, b) a##_##b
#define JOIN(a, b) JOINED(a, b)

enum { GRID = 20000, STRETCH = 160 };

static int has_level_15(const uint8_t *grid)
{
    uint8_t found = 0;
    for (int i = 0; i < GRID; i++)
        found |= (grid[i] >> 4 == 15) | ((grid[i] & 15) == 15);
    return found;
}

static inline uint8_t higher(uint8_t a, uint8_t b)
{
    return a < b ? b : a;
}

static int is_dry(const uint8_t *stretch)
{
    uint8_t any = 0;
    for (int i = 0; i < STRETCH; i++)
        any |= stretch[i];
    return any == 0;
}

uint32_t JOIN(NAME, plain)(const uint8_t *grid, size_t length, uint8_t level)
{
    if (length != GRID)
        return 42;
    if (has_level_15(grid))
        return 43;
    if (level > 14)
        return 41;
    uint32_t count = 0;
    for (int i = 0; i < GRID; i++)
        count += (grid[i] >> 4 >= level) + ((grid[i] & 15) >= level);
    return count;
}

uint32_t JOIN(NAME, tested)(const uint8_t *grid, size_t length, uint8_t level)
{
    if (length != GRID)
        return 42;
    uint32_t count = 0;
    for (int i = 0; i < GRID; i++) {
        if (grid[i] == 0) {
            count += level == 0 ? 2 : 0;
            continue;
        }
        uint8_t odd = grid[i] >> 4, even = grid[i] & 15;
        if (odd == 15 || even == 15)
            return 43;
        count += (odd >= level) + (even >= level);
    }
    return level > 14 ? 41 : count;
}

uint32_t JOIN(NAME, two_walks)(const uint8_t *grid, size_t length, uint8_t level)
{
    if (length != GRID)
        return 42;
    uint8_t highest = 0, highest_even = 0;
    for (int i = 0; i < GRID; i++) {
        highest = higher(highest, grid[i]);
        highest_even = higher(highest_even, grid[i] & 15);
    }
    if (highest > 0xEF || highest_even > 14)
        return 43;
    if (level > 14)
        return 41;
    if (level == 0)
        return 2 * GRID;
    const uint8_t least = level << 4;
    uint32_t count = 0;
    for (const uint8_t *stretch = grid; stretch < grid + GRID; stretch += STRETCH) {
        if (is_dry(stretch))
            continue;
        uint8_t odd = 0, even = 0;
        for (int i = 0; i < STRETCH; i++) {
            odd += stretch[i] >= least;
            even += (stretch[i] & 15) >= level;
        }
        count += odd + even;
    }
    return count;
}

uint32_t JOIN(NAME, one_walk)(const uint8_t *grid, size_t length, uint8_t level)
{
    if (length != GRID)
        return 42;
    const uint8_t least = level << 4;
    uint8_t highest = 0, highest_even = 0;
    uint32_t count = 0;
    for (const uint8_t *stretch = grid; stretch < grid + GRID; stretch += STRETCH) {
        if (is_dry(stretch))
            continue;
        uint8_t odd = 0, even = 0;
        for (int i = 0; i < STRETCH; i++) {
            odd += stretch[i] >= least;
            even += (stretch[i] & 15) >= level;
            highest = higher(highest, stretch[i]);
            highest_even = higher(highest_even, stretch[i] & 15);
        }
        count += odd + even;
    }
    if (highest > 0xEF || highest_even > 14)
        return 43;
    if (level > 14)
        return 41;
    return level == 0 ? 2 * GRID : count;
}
