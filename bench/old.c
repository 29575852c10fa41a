/* Calls of an older library, whose names bench/compare has changed. This is compiled with that library's own header,
   with OLD_WEIGHTS if its calls take weights, with OLD_LEAST if they take least and split, with OLD_RECORDS if its
   labels are two numbers each, of up to 36 digits, and not one, and with OLD_BASINS if they take basins. */
#include <string.h>
#define pf_label old_pf_label
#define pf_index old_pf_index
#define pf_flow old_pf_flow
#include "pfafstetter.h"
#include "old.h"
#include "pairs.h"
#include "sheets.h"

#ifdef OLD_WEIGHTS
#define LENT_WEIGHTS weights, (size_t)side,
#else
#define LENT_WEIGHTS
#endif

#ifdef OLD_LEAST
#define LEAST 1,
#define LEAST_AND_SPLIT 1, 4,
#else
#define LEAST
#define LEAST_AND_SPLIT
#endif

#ifdef OLD_BASINS
#define BASIN 1,
#define LENT_BASINS old_basins, n,
#define LENT_UNIT_BASINS , old_unit_basins, n
static uint32_t old_basins[CELLS], old_unit_basins[CELLS];
#else
#define BASIN
#define LENT_BASINS
#define LENT_UNIT_BASINS
#endif

#ifdef OLD_RECORDS
enum { RECORD = 2, MAX_DEPTH = 36 };
#define LABEL(slice, place) slice[2 * (place)], slice[2 * (place) + 1]
#else
enum { RECORD = 1, MAX_DEPTH = 18 };
#define LABEL(slice, place) slice[2 * (place)]
#endif

const int old_max_depth = MAX_DEPTH;
static uint64_t old_labels[RECORD * CELLS], old_units[RECORD * CELLS];

uint64_t old_label(int side, int depth) {
    size_t n = (size_t)side * side;
    return pf_label(side, side, depth, LEAST_AND_SPLIT dirs, n, LENT_WEIGHTS areas, n, old_labels, RECORD * n,
                    LENT_BASINS work, 8 * n);
}

uint64_t old_index(int side, int depth) {
    size_t n = (size_t)side * side;
    return pf_index(side, side, depth, LEAST_AND_SPLIT dirs, n, LENT_WEIGHTS areas, n, old_labels, RECORD * n,
                    LENT_BASINS work, 8 * n, old_units, RECORD * n, outlets, n, counts, n LENT_UNIT_BASINS);
}

void forget_old_labels(void) { memset(old_labels, 255, sizeof old_labels); }

int are_old_labels(const uint64_t *labels, size_t n) {
    for (size_t c = 0; c < n; c++) {
        const uint64_t *old = old_labels + RECORD * c;
        if (labels[2 * c] != old[0] || labels[2 * c + 1] != (RECORD == 2 ? old[RECORD - 1] : 0)) return 0;
    }
    return 1;
}

uint64_t old_flow_one_by_one(int depth) {
    for (int k = 0; k < PAIRS; k++)
        answers[k] = (uint8_t)pf_flow(depth, LEAST BASIN LABEL(p_labels, k), BASIN LABEL(q_labels, k));
    return 256 * (uint64_t)PAIRS;
}
