/* Times the calls of an older library beside those of this one, on the same sheets and pairs of labels in one run, and
   prints the ratios. The sheets have one basin, and so have the labels of a pair. */
#include <stdint.h>
#include <stdio.h>
#include <stdlib.h>
#include <string.h>
#include "old.h"
#include "pairs.h"
#include "pfafstetter.h"
#include "sheets.h"

static uint32_t new_areas[CELLS];

/* Has every cell of a sheet without outside cells the basin 1? */
static int are_of_one_basin(size_t n) {
    for (size_t c = 0; c < n; c++)
        if (basins[c] != 1) return 0;
    return 1;
}

static uint64_t new_label(int side, int depth) {
    size_t n = (size_t)side * side;
    return pf_label(side, side, depth, 1, 4, dirs, n, weights, side, areas, n, labels, 2 * n, basins, n, work, 8 * n);
}

static uint64_t new_index(int side, int depth) {
    size_t n = (size_t)side * side;
    return pf_index(side, side, depth, 1, 4, dirs, n, weights, side, areas, n, labels, 2 * n, basins, n, work, 8 * n,
                    units, 2 * n, outlets, n, counts, n, unit_basins, n);
}

/* Do both calls give the same answer, areas and labels, and the new one the basin 1? */
static int same_results(call_of new_call, call_of old_call, int side, int depth) {
    memset(labels, 255, sizeof labels), memset(basins, 255, sizeof basins), forget_old_labels();
    uint64_t answer = new_call(side, depth);
    memcpy(new_areas, areas, sizeof areas), memset(areas, 0, sizeof areas);
    size_t n = (size_t)side * side;
    return are_of_one_basin(n) && old_call(side, depth) == answer && memcmp(areas, new_areas, n * sizeof areas[0]) == 0
           && are_old_labels(labels, n);
}

/* Prints both times of a call for the sheet that was made last, and gives new / old. */
static double ratio_of(call_of new_call, call_of old_call, const char *name, const char *shape, int side, int depth) {
    double p, q;
    if (!same_results(new_call, old_call, side, depth)) {
        printf("%s, %s, %d x %d, depth %d: the results differ\n", name, shape, side, side, depth);
        exit(1);
    }
    least_times(new_call, old_call, side, depth, &p, &q);
    printf("%-8s  %-7s  %3d x %-3d  depth %2d  old %7.3f  new %7.3f  new / old %.2f\n", name, shape, side, side, depth,
           q * 1e3, p * 1e3, p / q);
    return p / q;
}

static void sheets_old_and_new(void) {
    static const int sides[] = {64, 256}, depths[] = {1, 3, 18, 36};
    double worst = 0, ratio;
    weights_of_1();
    printf("milliseconds of a call, weights 1, least 1 and split 4\n");
    for (size_t s = 0; s < ONE_BASIN; s++)
        for (size_t i = 0; i < 2; i++) {
            shapes[s].make(sides[i]);
            for (size_t d = 0; d < 4 && depths[d] <= old_max_depth; d++) {
                ratio = ratio_of(new_label, old_label, "pf_label", shapes[s].name, sides[i], depths[d]);
                if (ratio > worst) worst = ratio;
            }
            ratio = ratio_of(new_index, old_index, "pf_index", shapes[s].name, sides[i], 18);
            if (ratio > worst) worst = ratio;
        }
    printf("largest new / old %.2f\n", worst);
}

static void flow_old_and_new(void) {
    static const pairs_call calls[] = {flow_one_by_one, old_flow_one_by_one};
    double times[2];
    printf("\nnanoseconds of a call of pf_flow\n");
    for (int k = 0; k < KINDS; k++) {
        int depth = kinds[k].depth;
        if (depth > old_max_depth || kinds[k].basins > 1) continue;
        make_pairs(&kinds[k]);
        if (!same_answers(flow_one_by_one, old_flow_one_by_one, depth)) {
            printf("pf_flow, %s, depth %d: the answers differ\n", kinds[k].name, depth);
            exit(1);
        }
        least_pair_times(calls, 2, depth, times);
        printf("%-12s  depth %2d  old %6.1f  new %6.1f  new / old %.2f\n", kinds[k].name, depth, times[1], times[0],
               times[0] / times[1]);
    }
}

int main(void) {
    sheets_old_and_new();
    flow_old_and_new();
    return 0;
}
