/* The sheets of the benchmark, and how calls on them are timed. */
#include <string.h>
#include "chance.h"
#include "clock.h"
#include "sheets.h"

enum { EAST = 1, SOUTH = 4, WEST = 16, NORTHWEST = 32, NORTH = 64, MAX_WEIGHT = 1000 };

uint8_t dirs[CELLS];
uint16_t weights[SIDE];
uint32_t areas[CELLS], basins[CELLS], work[8 * CELLS], outlets[CELLS], counts[CELLS], unit_basins[CELLS];
uint64_t labels[2 * CELLS], units[2 * CELLS];

/* The steps of the codes 1, 2, 4, .. 128. */
static const int row_step[8] = {0, 1, 1, 1, 0, -1, -1, -1}, col_step[8] = {1, 1, 0, -1, -1, -1, 0, 1};

/* One river through all cells, row by row, to and fro; its outlet is cell 0. */
static void snake(int side) {
    for (int row = 0; row < side; row++)
        for (int col = 0; col < side; col++) {
            int first = row % 2 == 0 ? col == 0 : col == side - 1;
            dirs[row * side + col] = first ? NORTH : row % 2 == 0 ? WEST : EAST;
        }
}

/* A river along row 0 with one tributary from each column. */
static void comb(int side) {
    for (int row = 0; row < side; row++)
        for (int col = 0; col < side; col++) dirs[row * side + col] = row == 0 ? WEST : NORTH;
}

/* Each cell flows west, northwest or north, by chance, to the outlet at cell 0. */
static void tree(int side) {
    static const uint8_t codes[3] = {WEST, NORTHWEST, NORTH};
    for (int row = 0; row < side; row++)
        for (int col = 0; col < side; col++)
            dirs[row * side + col] = row == 0 ? WEST : col == 0 ? NORTH : codes[below(3)];
}

/* Grown from the outlet: a cell beside the basin, by chance, joins it through a neighbour, by chance. */
static void random_basin(int side) {
    static uint32_t border[CELLS * 8];
    size_t count = 0;
    memset(dirs, 0, (size_t)side * side);
    dirs[0] = WEST;
    border[count++] = 0;
    while (count > 0) {
        size_t at = below((uint32_t)count);
        uint32_t cell = border[at];
        int row = (int)cell / side, col = (int)cell % side, free_count = 0, free_steps[8];
        for (int k = 0; k < 8; k++) {
            int r = row - row_step[k], c = col - col_step[k];
            if (r >= 0 && c >= 0 && r < side && c < side && dirs[r * side + c] == 0) free_steps[free_count++] = k;
        }
        if (free_count == 0) { border[at] = border[--count]; continue; }
        int k = free_steps[below((uint32_t)free_count)];
        uint32_t joined = (uint32_t)((row - row_step[k]) * side + col - col_step[k]);
        dirs[joined] = (uint8_t)(1 << k);
        border[count++] = joined;
    }
}

/* One river through every second row, to and fro, with a ditch of one cell from the row below into each of its cells;
   its outlet is cell 0. Where a row ends it goes through a cell of the row below. */
static void ditches(int side) {
    for (int row = 0; row < side; row++)
        for (int col = 0; col < side; col++) {
            int east = row / 2 % 2 == 1; /* where the river flows east */
            int first = east ? col == side - 1 : col == 0;
            dirs[row * side + col] = row % 2 == 1 || first ? NORTH : east ? EAST : WEST;
        }
}

/* A river to the west along every second row, with a ditch of one cell from the row below into each of its cells; each
   is a basin of its own. */
static void strips(int side) {
    for (int row = 0; row < side; row++)
        for (int col = 0; col < side; col++) dirs[row * side + col] = row % 2 == 0 ? WEST : NORTH;
}

/* The row or column of the outside cell that is next to this inner one or is it: there is one in three. */
static int outside_near(int at, int side) {
    int near = 3 * ((at - 1) / 3) + 2;
    return near < side - 1 ? near : side - 2;
}

/* The code whose step is this one; 0 for none. */
static uint8_t code_of(int rows, int cols) {
    for (int k = 0; k < 8; k++)
        if (row_step[k] == rows && col_step[k] == cols) return (uint8_t)(1 << k);
    return 0;
}

/* As many outlets as a sheet can hold, 58,311 on 256 x 256: cells at the border flow off the sheet, the others to the
   outside cell beside them. Each is a basin of its own. */
static void most_outlets(int side) {
    for (int row = 0; row < side; row++)
        for (int col = 0; col < side; col++) {
            uint8_t inner = code_of(outside_near(row, side) - row, outside_near(col, side) - col);
            dirs[row * side + col] = row == 0 ? NORTH : row == side - 1 ? SOUTH : col == 0 ? WEST
                                     : col == side - 1 ? EAST : inner;
        }
}

const struct shape shapes[SHAPES] = {{"comb", comb},       {"tree", tree},     {"snake", snake},
                                     {"random", random_basin}, {"ditches", ditches}, {"strips", strips},
                                     {"outlets", most_outlets}};

void weights_of_1(void) {
    for (int row = 0; row < SIDE; row++) weights[row] = 1;
}

void weights_by_chance(void) {
    for (int row = 0; row < SIDE; row++) weights[row] = (uint16_t)(1 + below(MAX_WEIGHT));
}

/* The time of one call, in seconds, over several: more on a small sheet. */
static double time_of(call_of call, int side, int depth) {
    int calls = 2 * (SIDE / side) * (SIDE / side);
    double start = now();
    for (int i = 0; i < calls; i++) call(side, depth);
    return (now() - start) / calls;
}

void least_times(call_of first, call_of second, int side, int depth, double *p, double *q) {
    *p = *q = 1e9;
    for (int round = 0; round < 200; round++) {
        int is_first = round % 4 == 0 || round % 4 == 3; /* first, second, second, first */
        double time = time_of(is_first ? first : second, side, depth), *least = is_first ? p : q;
        if (time < *least) *least = time;
    }
}
