/* Times pf_flow_pairs, the plain C call, and pf_flow called once for each pair, on the same pairs by turns, with least
   1, and prints the ratios. */
#include <stdint.h>
#include <stdio.h>
#include <stdlib.h>
#include "pairs.h"
#include "pfafstetter.h"
#include "plain_pairs.h"
#include "time_pairs.h"

enum { ANSWERS = 5, REFUSED = 128 };

static uint64_t proved(int depth) {
    return pf_flow_pairs(depth, 1, p_labels, 2 * PAIRS, p_basins, PAIRS, q_labels, 2 * PAIRS, q_basins, PAIRS, answers,
                         PAIRS);
}

static uint64_t plain(int depth) {
    return plain_flow_pairs(depth, 1, p_labels, 2 * PAIRS, p_basins, PAIRS, q_labels, 2 * PAIRS, q_basins, PAIRS,
                            answers, PAIRS);
}

/* Prints how many of a hundred pairs got each answer. */
static void print_answers(void) {
    static const char *const names[ANSWERS] = {"No", "Yes", "Same", "Undecided", "refused"};
    int counts[ANSWERS] = {0};
    for (int k = 0; k < PAIRS; k++) counts[answers[k] < REFUSED ? answers[k] : ANSWERS - 1]++;
    for (int a = 0; a < ANSWERS; a++) printf("  %s %.1f", names[a], counts[a] * 100.0 / PAIRS);
    printf("\n");
}

void pairs_against_plain(void) {
    static const pairs_call calls[] = {proved, plain, flow_one_by_one};
    double times[3];
    printf("\ntime of pf_flow_pairs / time of the plain C call, %d pairs (nanoseconds a pair of each; of pf_flow "
           "called once for each pair), and the answers in a hundred\n", PAIRS);
    for (int k = 0; k < KINDS; k++) {
        int depth = kinds[k].depth;
        make_pairs(&kinds[k]);
        if (!same_answers(plain, proved, depth) || !same_answers(flow_one_by_one, proved, depth)) {
            printf("%s, depth %d: the answers differ\n", kinds[k].name, depth);
            exit(1);
        }
        least_pair_times(calls, 3, depth, times);
        printf("%-12s depth %2d  ratio %.2f  (%.1f / %.1f; %.1f)", kinds[k].name, depth, times[0] / times[1], times[0],
               times[1], times[2]);
        print_answers();
    }
}
