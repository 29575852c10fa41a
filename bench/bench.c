/* Times the proved labelling call against the plain C baseline, also with one mouth taken at a time, so that labels get
   up to 36 digits, the same call with a least above 1 against that with least 1, the index call against the labelling
   call, the levy call against the index call, and check 4 by words against check 4 by bytes, on the same sheets in one
   run, some of them with many basins, then the call for many pairs of labels and the check of survey plans, and prints
   the ratios. Where nothing else is said, least is 1 and split 4; the levy is that of the last basin. */
#include <stdint.h>
#include <stdio.h>
#include <stdlib.h>
#include <string.h>
#include "baseline.h"
#include "pfafstetter.h"
#include "sheets.h"
#include "time_pairs.h"
#include "time_plans.h"

enum { LEAST = 16 }; /* of the call with a least above 1 */

static uint32_t baseline_areas[CELLS], index_areas[CELLS], baseline_basins[CELLS], index_basins[CELLS];
static uint64_t baseline_labels[2 * CELLS], index_labels[2 * CELLS], dues[CELLS];
static const uint64_t total = 100000000000; /* cents, the largest total of the levy call */

static uint64_t proved(int side, int depth) {
    size_t n = (size_t)side * side;
    return pf_label(side, side, depth, 1, 4, dirs, n, weights, side, areas, n, labels, 2 * n, basins, n, work,
                    8 * n);
}

static uint64_t one_at_a_time(int side, int depth) {
    size_t n = (size_t)side * side;
    return pf_label(side, side, depth, 1, 1, dirs, n, weights, side, areas, n, labels, 2 * n, basins, n, work,
                    8 * n);
}

static uint64_t with_least(int side, int depth) {
    size_t n = (size_t)side * side;
    return pf_label(side, side, depth, LEAST, 4, dirs, n, weights, side, areas, n, labels, 2 * n, basins, n, work,
                    8 * n);
}

static uint64_t indexed(int side, int depth) {
    size_t n = (size_t)side * side;
    return pf_index(side, side, depth, 1, 4, dirs, n, weights, side, index_areas, n, index_labels, 2 * n, index_basins,
                    n, work, 8 * n, units, 2 * n, outlets, n, counts, n, unit_basins, n);
}

static uint32_t levied_basin;

static uint64_t levied(int side, int depth) {
    size_t n = (size_t)side * side;
    return pf_levy(side, side, depth, 1, 4, dirs, n, weights, side, index_areas, n, index_labels, 2 * n, index_basins,
                   n, work, 8 * n, units, 2 * n, outlets, n, counts, n, unit_basins, n, levied_basin, total, dues, n);
}

/* Of the crate benchmark: the first cell of a sheet whose byte is none of the nine codes, or its number of cells. */
size_t bench_codes_by_words(size_t rows, size_t cols, const uint8_t *dirs, size_t dirs_len);
size_t bench_codes_by_bytes(size_t rows, size_t cols, const uint8_t *dirs, size_t dirs_len);

static uint64_t by_words(int side, int depth) {
    (void)depth;
    return bench_codes_by_words(side, side, dirs, (size_t)side * side);
}

static uint64_t by_bytes(int side, int depth) {
    (void)depth;
    return bench_codes_by_bytes(side, side, dirs, (size_t)side * side);
}

static uint64_t plain(int side, int depth) {
    return baseline_label(side, side, depth, 4, dirs, weights, baseline_areas, baseline_labels, baseline_basins);
}

static uint64_t plain_one_at_a_time(int side, int depth) {
    return baseline_label(side, side, depth, 1, dirs, weights, baseline_areas, baseline_labels, baseline_basins);
}

/* Do both labellers give the same for the sheet that was made last? */
static void check_labellers(const char *name, call_of first, call_of second, int depth) {
    uint64_t a = first(SIDE, depth), b = second(SIDE, depth);
    if (a == 0 && b == 0 && !memcmp(areas, baseline_areas, sizeof areas)
        && !memcmp(labels, baseline_labels, sizeof labels) && !memcmp(basins, baseline_basins, sizeof basins))
        return;
    printf("%s, depth %d: the results differ\n", name, depth);
    exit(1);
}

/* Prints the times of both labellers for the sheet that was made last, and gives their ratio. */
static double ratio_of_labellers(const char *name, int depth) {
    double p, q;
    check_labellers(name, proved, plain, depth);
    least_times(proved, plain, SIDE, depth, &p, &q);
    printf("%-7s depth %2d  ratio %.2f  (%.2f / %.2f)\n", name, depth, p / q, p * 1e3, q * 1e3);
    return p / q;
}

static void label_against_baseline(void) {
    static const int depths[] = {1, 3, 18, 36};
    double worst = 0;
    printf("time of the proved call / time of the baseline, 256 x 256, weights 1 (milliseconds of each)\n");
    for (size_t s = 0; s < SHAPES; s++) {
        shapes[s].make(SIDE);
        for (size_t d = 0; d < 4; d++) {
            double ratio = ratio_of_labellers(shapes[s].name, depths[d]);
            if (ratio > worst) worst = ratio;
        }
    }
    printf("largest ratio %.2f\n", worst);
}

static void weighted_against_baseline(void) {
    printf("\nthe same with weights by chance, 1 to 1000\n");
    for (size_t s = 0; s < SHAPES; s++) {
        shapes[s].make(SIDE);
        weights_by_chance();
        ratio_of_labellers(shapes[s].name, 18);
    }
    weights_of_1();
}

/* The number of digits of the labels of a sheet, for one cell. */
static double mean_digits(void) {
    uint64_t digits = 0;
    for (size_t i = 0; i < 2 * CELLS; i++)
        for (uint64_t left = labels[i]; left != 0; left /= 10) digits++;
    return (double)digits / CELLS;
}

/* The basins of the sheet that was labelled last. */
static uint32_t count_basins(void) {
    uint32_t count = 0;
    for (size_t c = 0; c < CELLS; c++)
        if (basins[c] > count) count = basins[c];
    return count;
}

/* How many basins the shapes with several have. */
static void tell_basins(void) {
    printf("\nbasins, 256 x 256\n");
    for (size_t s = ONE_BASIN; s < SHAPES; s++) {
        shapes[s].make(SIDE);
        proved(SIDE, 18);
        printf("%-7s %u\n", shapes[s].name, (unsigned)count_basins());
    }
}

/* Rivers with many mouths, of which each split takes one. */
static void one_mouth_at_a_time(void) {
    static const char *const names[] = {"comb", "ditches"};
    static const int depths[] = {9, 17, 18, 19, 27, 36};
    printf("\nthe same with split 1, weights 1 (milliseconds of each; nanoseconds a cell of the proved call, the "
           "digits of a cell's label, and nanoseconds a cell and digit)\n");
    for (size_t s = 0; s < SHAPES; s++) {
        if (strcmp(shapes[s].name, names[0]) != 0 && strcmp(shapes[s].name, names[1]) != 0) continue;
        shapes[s].make(SIDE);
        for (size_t d = 0; d < 6; d++) {
            double p, q;
            check_labellers(shapes[s].name, one_at_a_time, plain_one_at_a_time, depths[d]);
            double digits = mean_digits();
            least_times(one_at_a_time, plain_one_at_a_time, SIDE, depths[d], &p, &q);
            printf("%-7s depth %2d  ratio %.2f  (%.2f / %.2f; %.1f, %.1f, %.2f)\n", shapes[s].name, depths[d], p / q,
                   p * 1e3, q * 1e3, p * 1e9 / CELLS, digits, p * 1e9 / CELLS / digits);
        }
    }
}

static void least_against_1(void) {
    printf("\ntime of the proved call with least %d / with least 1, 256 x 256, depth 18, weights 1 (milliseconds of "
           "each)\n", LEAST);
    for (size_t s = 0; s < SHAPES; s++) {
        double p, q;
        shapes[s].make(SIDE);
        if (with_least(SIDE, 18) != 0 || proved(SIDE, 18) != 0) {
            printf("%s: refused\n", shapes[s].name);
            exit(1);
        }
        least_times(with_least, proved, SIDE, 18, &p, &q);
        printf("%-7s ratio %.2f  (%.2f / %.2f)\n", shapes[s].name, p / q, p * 1e3, q * 1e3);
    }
}

static void index_against_label(const char *name) {
    uint64_t a = indexed(SIDE, 18), b = proved(SIDE, 18);
    if (a % 256 != 0 || b != 0 || memcmp(index_areas, areas, sizeof areas)
        || memcmp(index_labels, labels, sizeof labels) || memcmp(index_basins, basins, sizeof basins)) {
        printf("%s: areas, labels or basins of the index call differ\n", name);
        exit(1);
    }
    double p, q;
    least_times(indexed, proved, SIDE, 18, &p, &q);
    printf("%-7s index / label  %.2f  (%.2f / %.2f; %u)\n", name, p / q, p * 1e3, q * 1e3, (unsigned)(a / 256));
}

/* Do the dues of the basin, of so many units in all, add up to the total? */
static int add_up(size_t count) {
    uint64_t sum = 0;
    size_t due = 0;
    for (size_t k = 0; k < count; k++)
        if (unit_basins[k] == levied_basin) sum += dues[due++];
    return sum == total;
}

static void levy_against_index(const char *name) {
    memset(dues, 0, sizeof dues);
    uint64_t b = indexed(SIDE, 18);
    levied_basin = unit_basins[b / 256 - 1];
    uint64_t a = levied(SIDE, 18);
    if (a % 256 != 0 || a != b || !add_up(a / 256)) {
        printf("%s: not the answer of the index call, or dues that do not add up to the total\n", name);
        exit(1);
    }
    double p, q;
    least_times(levied, indexed, SIDE, 18, &p, &q);
    printf("%-7s levy / index   %.2f  (%.2f / %.2f; %u)\n", name, p / q, p * 1e3, q * 1e3, (unsigned)(a / 256));
}

static void index_and_levy(void) {
    printf("\ntime of the index call / time of the labelling call, and of the levy call / of the index call, "
           "256 x 256, depth 18, weights 1 (milliseconds of each; units)\n");
    for (size_t s = 0; s < SHAPES; s++) {
        shapes[s].make(SIDE);
        index_against_label(shapes[s].name);
        levy_against_index(shapes[s].name);
    }
}

/* Check 4 alone, on sheets without a bad byte, so that all cells are looked at; beside it the whole call. */
static void words_against_bytes(void) {
    printf("\ntime of check 4 by bytes / time of check 4 by words, 256 x 256 (nanoseconds a cell of each; of the whole "
           "call, depth 18)\n");
    for (size_t s = 0; s < SHAPES; s++) {
        double words, bytes, whole, base;
        shapes[s].make(SIDE);
        if (by_words(SIDE, 0) != CELLS || by_bytes(SIDE, 0) != CELLS) {
            printf("%s: a bad byte was found\n", shapes[s].name);
            exit(1);
        }
        least_times(by_bytes, by_words, SIDE, 0, &bytes, &words);
        least_times(proved, plain, SIDE, 18, &whole, &base);
        printf("%-7s bytes / words  %.1f  (%.2f / %.2f; %.1f)\n", shapes[s].name, bytes / words, bytes * 1e9 / CELLS,
               words * 1e9 / CELLS, whole * 1e9 / CELLS);
    }
}

static void time_a_cell(void) {
    static const int sides[] = {64, 128, 256};
    printf("\nnanoseconds a cell, proved call, depth 18\n");
    for (size_t s = 0; s < SHAPES; s++) {
        printf("%-7s", shapes[s].name);
        for (size_t i = 0; i < 3; i++) {
            double p, q;
            shapes[s].make(sides[i]);
            least_times(proved, plain, sides[i], 18, &p, &q);
            printf("  %3d x %-3d %6.1f", sides[i], sides[i], p * 1e9 / (sides[i] * sides[i]));
        }
        printf("\n");
    }
}

int main(void) {
    weights_of_1();
    label_against_baseline();
    tell_basins();
    weighted_against_baseline();
    one_mouth_at_a_time();
    least_against_1();
    index_and_levy();
    words_against_bytes();
    time_a_cell();
    pairs_against_plain();
    plans_against_plain();
    return 0;
}
