/* The pairs of labels of the benchmark, and how calls on them are timed. */
#include <string.h>
#include "chance.h"
#include "clock.h"
#include "pairs.h"
#include "pfafstetter.h"

enum { ROUNDS = 100, NEVER = 0, FULL = 18 /* digits of a full number */ };

uint64_t p_labels[2 * PAIRS], q_labels[2 * PAIRS];
uint32_t p_basins[PAIRS], q_basins[PAIRS];
uint8_t answers[PAIRS];

/* A label: its first 18 digits, then the next ones. */
struct label {
    uint64_t first, rest;
};

static void put(uint64_t *slice, int place, struct label label) {
    slice[2 * place] = label.first, slice[2 * place + 1] = label.rest;
}

/* Whether a unit of the basin is finished before the depth, as one in `one_in` is. This depends on its digits alone, so
   that no label of the basin begins another. */
static int is_finished(struct label label, int one_in) {
    return one_in != NEVER && ((label.first + 31 * label.rest) * 0x9e3779b97f4a7c15ull >> 32) % one_in == 0;
}

/* A label of the basin that begins with these digits, `count` of them, and goes on; from some place on its digits are
   odd, as along one river. */
static struct label label_from(struct label label, int count, int depth, int one_in) {
    int odd_from = (int)below(depth);
    do {
        uint64_t digit = count < odd_from ? 1 + below(9) : 1 + 2 * below(5), *number;
        number = count < FULL ? &label.first : &label.rest;
        *number = 10 * *number + digit;
    } while (++count < depth && !is_finished(label, one_in));
    return label;
}

static struct label any_label(int depth, int one_in) { return label_from((struct label){0, 0}, 0, depth, one_in); }

/* A label without its last digit. */
static struct label shorter(struct label label) {
    if (label.rest != 0) label.rest /= 10;
    else label.first /= 10;
    return label;
}

/* The first `count` digits of a label that has `digits`. */
static struct label leading(struct label label, int digits, int count) {
    for (; digits > count; digits--) label = shorter(label);
    return label;
}

/* One spill q, with as many digits as the depth, and gauges p that share at least so many first digits with it, by
   chance none to all but the last; the others may agree too. */
static void one_spill(int depth) {
    struct label spill;
    do spill = any_label(depth, depth);
    while (leading(spill, depth, 1).first == 0); /* it has fewer digits */
    for (int k = 0; k < PAIRS; k++) {
        int shared = (int)below(depth);
        put(p_labels, k, label_from(leading(spill, depth, shared), shared, depth, depth));
        put(q_labels, k, spill);
    }
}

/* Any two labels of the basin. */
static void any_two(int depth) {
    for (int k = 0; k < PAIRS; k++) {
        put(p_labels, k, any_label(depth, depth));
        put(q_labels, k, any_label(depth, depth));
    }
}

/* Labels with as many digits as the depth, of which the first two thirds or more are the same. */
static void long_labels(int depth) {
    for (int k = 0; k < PAIRS; k++) {
        int shared = 2 * depth / 3 + (int)below(depth / 3);
        struct label q = any_label(depth, NEVER);
        put(q_labels, k, q);
        put(p_labels, k, label_from(leading(q, depth, shared), shared, depth, NEVER));
    }
}

/* A record with one digit more than the depth, in the number that is filled last. */
static struct label too_long(int depth) {
    struct label label = any_label(depth, NEVER);
    uint64_t *last = depth > FULL ? &label.rest : &label.first;
    *last = 10 * *last + 1;
    return label;
}

/* Any two, but one pair in ten is refused. */
static void some_refused(int depth) {
    any_two(depth);
    for (int k = 0; k < PAIRS; k++) {
        uint64_t *p = p_labels + 2 * k, *q = q_labels + 2 * k;
        if (below(10) != 0) continue;
        switch (below(3)) {
        case 0: p[0] = p[0] < 10 ? 10 * p[0] : p[0] - p[0] % 10; break; /* a 0 in it */
        case 1: put(q_labels, k, too_long(depth)); break;
        default: put(p_labels, k, shorter((struct label){q[0], q[1]})); /* it begins the other */
        }
    }
}

const struct kind kinds[KINDS] = {{"one spill", 3, one_spill, 1},       {"one spill", 18, one_spill, 1},
                                  {"one spill", 36, one_spill, 1},      {"any two", 3, any_two, 1},
                                  {"any two", 18, any_two, 1},          {"any two", 36, any_two, 1},
                                  {"long labels", 18, long_labels, 1},  {"long labels", 36, long_labels, 1},
                                  {"some refused", 3, some_refused, 1}, {"some refused", 18, some_refused, 1},
                                  {"some refused", 36, some_refused, 1}, {"two basins", 18, any_two, 2}};

void make_pairs(const struct kind *kind) {
    kind->make(kind->depth);
    for (int k = 0; k < PAIRS; k++) p_basins[k] = 1 + below(kind->basins), q_basins[k] = 1 + below(kind->basins);
}

uint64_t flow_one_by_one(int depth) {
    for (int k = 0; k < PAIRS; k++) {
        const uint64_t *p = p_labels + 2 * k, *q = q_labels + 2 * k;
        answers[k] = (uint8_t)pf_flow(depth, 1, p_basins[k], p[0], p[1], q_basins[k], q[0], q[1]);
    }
    return 256 * (uint64_t)PAIRS;
}

int same_answers(pairs_call first, pairs_call second, int depth) {
    static uint8_t first_answers[PAIRS];
    memset(answers, 255, sizeof answers);
    uint64_t returned = first(depth);
    memcpy(first_answers, answers, sizeof answers);
    memset(answers, 254, sizeof answers);
    return second(depth) == returned && memcmp(answers, first_answers, sizeof answers) == 0;
}

void least_pair_times(const pairs_call *calls, int count, int depth, double *times) {
    for (int i = 0; i < count; i++) times[i] = 1e9;
    for (int turn = 0; turn < ROUNDS * count; turn++) {
        int i = turn / count % 2 == 0 ? turn % count : count - 1 - turn % count;
        double start = now();
        calls[i](depth);
        double time = (now() - start) * 1e9 / PAIRS;
        if (time < times[i]) times[i] = time;
    }
}
