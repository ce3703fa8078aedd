/* The services on grids of 01-scope.md, written as plain loops in C, to be measured against. Reads grids of
 * 20,000 bytes from standard input and prints what the program try_grids prints: for each grid how many
 * meshes are at or above levels 1, 5 and 10, and of all grids so far laid over each other, at or above 1; a
 * refused grid has its refusal in place of each number, and is not laid over the others. */
#include <stdint.h>
#include <stdio.h>
#include <string.h>

enum { GRID = 20000 };

/* Row 43: an intensity grid that is read holds level 15 */
static int has_level_15(const uint8_t *grid)
{
    for (int i = 0; i < GRID; i++)
        if (grid[i] >> 4 == 15 || (grid[i] & 15) == 15)
            return 1;
    return 0;
}

/* "count of meshes at or above a level" */
__attribute__((noinline)) static int count_from(const uint8_t *grid, int level)
{
    if (has_level_15(grid))
        return 43;
    int count = 0;
    for (int i = 0; i < GRID; i++)
        count += (grid[i] >> 4 >= level) + ((grid[i] & 15) >= level);
    return count;
}

/* "overlay of two intensity grids into a third, mesh by mesh the higher" */
__attribute__((noinline)) static int overlay(const uint8_t *a, const uint8_t *b, uint8_t *restrict c)
{
    if (has_level_15(a) || has_level_15(b))
        return 43;
    for (int i = 0; i < GRID; i++) {
        uint8_t high = a[i] >> 4 > b[i] >> 4 ? a[i] >> 4 : b[i] >> 4;
        uint8_t low = (a[i] & 15) > (b[i] & 15) ? a[i] & 15 : b[i] & 15;
        c[i] = high << 4 | low;
    }
    return 0;
}

static uint8_t grid[GRID], laid[2][GRID];

int main(void)
{
    for (int turn = 0; fread(grid, 1, GRID, stdin) == GRID;) {
        printf("%d %d %d ", count_from(grid, 1), count_from(grid, 5), count_from(grid, 10));
        int refused = overlay(grid, laid[turn], laid[turn ^ 1]);
        if (!refused)
            turn ^= 1;
        printf("%d\n", refused ? refused : count_from(laid[turn], 1));
    }
    return 0;
}
