/* The pairs of labels of the benchmark, and how calls on them are timed. */
#ifndef PAIRS_H
#define PAIRS_H
#include <stdint.h>

enum { PAIRS = 100000, KINDS = 12 };

/* The pairs that were made last; two numbers for each label, and its basin. */
extern uint64_t p_labels[2 * PAIRS], q_labels[2 * PAIRS];
extern uint32_t p_basins[PAIRS], q_basins[PAIRS];

/* What is lent to a call for its answers. */
extern uint8_t answers[PAIRS];

/* The kinds of pairs; `make` makes labels of up to `depth` digits, and make_pairs all of a kind, with basins, each of
   the labels in one of so many, by chance. */
extern const struct kind { const char *name; int depth; void (*make)(int depth); uint32_t basins; } kinds[KINDS];
void make_pairs(const struct kind *kind);

/* A call that answers all pairs, and what it returns. */
typedef uint64_t (*pairs_call)(int depth);

/* Asks pf_flow about each pair, with least 1; returns what the call for many pairs does. */
uint64_t flow_one_by_one(int depth);

/* Do both calls return the same and write the same answers? */
int same_answers(pairs_call first, pairs_call second, int depth);

/* The least time of each of `count` calls, in nanoseconds a pair, over rounds in which all are timed, one right after
   the other; every second round goes through them backwards. */
void least_pair_times(const pairs_call *calls, int count, int depth, double *times);

#endif
