/* The flow question for many pairs in plain C, written for speed, to be timed beside pf_flow_pairs. Same arguments,
   answers and refusals. */
#include "plain_pairs.h"

enum { MAX_DEPTH = 36, FULL = 18 /* digits of a full number */, MAX_LEAST = 65536000, NO_LABEL = -1 };
enum { NO, YES, SAME, UNDECIDED, REFUSED = 128 };

/* Writes the digits of a number, at most `most`, to the places before `end`, and gives their count, or NO_LABEL. A
   digit comes from the quotient, and the loop's end from the number before it was divided: gcc makes faster code of
   this than of % and a test of the quotient. */
static inline int put_number(int most, uint64_t number, uint8_t *end) {
    int count = 0;
    uint64_t left = number, undivided;
    if (number == 0) return 0;
    do {
        undivided = left;
        left = undivided / 10;
        uint8_t digit = (uint8_t)(undivided - 10 * left);
        if (digit == 0 || count == most) return NO_LABEL;
        *(end - ++count) = digit;
    } while (undivided > 9);
    return count;
}

/* Writes the digits of a label to the last places and gives their count, or NO_LABEL. */
static int put_digits(int depth, const uint64_t label[2], uint8_t digits[MAX_DEPTH]) {
    uint8_t *end = digits + MAX_DEPTH;
    if (label[1] == 0) return put_number(depth < FULL ? depth : FULL, label[0], end);
    int rest = put_number(depth > FULL ? depth - FULL : 0, label[1], end);
    if (rest == NO_LABEL || put_number(FULL, label[0], end - rest) != FULL) return NO_LABEL;
    return FULL + rest;
}

static uint8_t answer_of(int depth, size_t least, int same_basin, const uint64_t p[2], const uint64_t q[2]) {
    uint8_t p_places[MAX_DEPTH], q_places[MAX_DEPTH];
    int i = 0, n = put_digits(depth, p, p_places);
    if (n == NO_LABEL) return REFUSED + 11;
    int m = put_digits(depth, q, q_places);
    if (m == NO_LABEL) return REFUSED + 11;
    if (!same_basin) return NO;
    if (p[0] == q[0] && p[1] == q[1]) return SAME;
    const uint8_t *x = p_places + MAX_DEPTH - n, *y = q_places + MAX_DEPTH - m;
    int shorter = n < m ? n : m;
    while (i < shorter && x[i] == y[i]) i++;
    if (i == shorter) return REFUSED + 12;
    if (x[i] > y[i]) return NO;
    for (; i < n; i++)
        if (x[i] % 2 == 0) return NO;
    return n < depth && least == 1 ? YES : UNDECIDED;
}

uint64_t plain_flow_pairs(size_t depth, size_t least, const uint64_t *p, size_t p_len, const uint32_t *p_basins,
                          size_t p_basins_len, const uint64_t *q, size_t q_len, const uint32_t *q_basins,
                          size_t q_basins_len, uint8_t *answers, size_t answers_len) {
    size_t count = (p_len < q_len ? p_len : q_len) / 2;
    if (depth < 1 || depth > MAX_DEPTH) return 2;
    if (least < 1 || least > MAX_LEAST) return 19;
    if (p_basins_len < count || q_basins_len < count || answers_len < count) return 3;
    for (size_t k = 0; k < count; k++)
        answers[k] = answer_of((int)depth, least, p_basins[k] == q_basins[k], p + 2 * k, q + 2 * k);
    return 256 * (uint64_t)count;
}
