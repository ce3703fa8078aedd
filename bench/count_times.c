/* Times of the count at or above a level, each way on each grid and level, for bench/count. Reads grids of 20,000
 * bytes from standard input; prints a line for each grid and level: its numbers, the answer, and for each way the ns
 * of processor time of a call, the least of all rounds. A grid is counted many times in a row, so that it stands in
 * the cache and the clock, which takes as long as a call, is asked seldom. The rounds go through all grids, levels
 * and ways in turn, so that what else the machine does falls on all alike. Ends with 1 where two ways answer
 * differently. */
#include <stddef.h>
#include <stdint.h>
#include <stdio.h>
#include <time.h>

enum { GRID = 20000, GRIDS = 5, ROUNDS = 100, CALLS = 200 };

typedef uint32_t way(const uint8_t *grid, size_t length, uint8_t level);

way rattle_after, rattle_before, O2_plain, O2_tested, O2_two_walks, O2_one_walk;
way native_plain, native_tested, native_two_walks, native_one_walk;
static way *const ways[] = {
    rattle_after, rattle_before, O2_plain,      O2_tested,        O2_two_walks,
    O2_one_walk,  native_plain,  native_tested, native_two_walks, native_one_walk,
};
enum { WAYS = sizeof ways / sizeof *ways };

static const uint8_t levels[] = {0, 1, 14};
enum { LEVELS = sizeof levels };

static uint8_t grids[GRIDS][GRID];
static uint32_t answers[GRIDS][LEVELS];
static double least[GRIDS][LEVELS][WAYS];

static double now(void)
{
    struct timespec t;
    clock_gettime(CLOCK_PROCESS_CPUTIME_ID, &t);
    return t.tv_sec * 1e9 + t.tv_nsec;
}

/* ns of a call */
static double timed(way *counted, const uint8_t *grid, uint8_t level)
{
    double start = now();
    for (int i = 0; i < CALLS; i++) {
        counted(grid, GRID, level); /* in another file: the call is not left out */
        __asm__ volatile("" ::: "memory"); /* the grid may be another one at the next call */
    }
    return (now() - start) / CALLS;
}

/* One way on one grid and level; says whether it answers as the first way does */
static int measured(int g, int l, int w)
{
    uint32_t answer = ways[w](grids[g], GRID, levels[l]);
    if (w == 0)
        answers[g][l] = answer;
    double t = timed(ways[w], grids[g], levels[l]);
    if (least[g][l][w] == 0 || t < least[g][l][w])
        least[g][l][w] = t;
    return answer == answers[g][l];
}

static void line(int g, int l)
{
    printf("%d %d %u", g, levels[l], (unsigned)answers[g][l]);
    for (int w = 0; w < WAYS; w++)
        printf(" %.1f", least[g][l][w]);
    puts("");
}

int main(void)
{
    if (fread(grids, GRID, GRIDS, stdin) != GRIDS)
        return 2;
    for (int round = 0; round < ROUNDS; round++)
        for (int i = 0; i < GRIDS * LEVELS * WAYS; i++)
            if (!measured(i / WAYS / LEVELS, i / WAYS % LEVELS, i % WAYS))
                return 1;
    for (int i = 0; i < GRIDS * LEVELS; i++)
        line(i / LEVELS, i % LEVELS);
    return 0;
}
