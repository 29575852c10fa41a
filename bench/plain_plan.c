/* The check of a survey plan in plain C, written for speed, to be timed beside pf_check_plan. Same arguments, answers
   and refusals. Labels are compared with their digits moved to the left, so that the order of numbers is dictionary
   order. */
#include <string.h>
#include "plain_plan.h"

enum { FULL = 18 /* digits of a full number */, NO_LABEL = -1 };

static const uint64_t powers[FULL + 1] = {
    1ull, 10ull, 100ull, 1000ull, 10000ull, 100000ull, 1000000ull, 10000000ull, 100000000ull, 1000000000ull,
    10000000000ull, 100000000000ull, 1000000000000ull, 10000000000000ull, 100000000000000ull, 1000000000000000ull,
    10000000000000000ull, 100000000000000000ull, 1000000000000000000ull};

/* A label with zeros after its digits: each number has 18. */
struct key {
    uint64_t first, rest;
};

/* The count of a number's digits, of which it has at most 18. */
static inline int digits(uint64_t number) {
    if (number == 0) return 0;
    int guess = (64 - __builtin_clzll(number)) * 1233 >> 12;
    return guess + (number >= powers[guess]);
}

/* The count of the digits, or NO_LABEL. */
static int count_digits(uint64_t number) {
    int count = 0;
    for (; number != 0; number /= 10)
        if (number % 10 == 0 || ++count > FULL) return NO_LABEL;
    return count;
}

static int is_label(const uint64_t label[2]) {
    int first = count_digits(label[0]), rest = count_digits(label[1]);
    return first != NO_LABEL && rest != NO_LABEL && (rest == 0 || first == FULL);
}

static inline struct key key_of(const uint64_t label[2]) {
    return (struct key){label[0] * powers[FULL - digits(label[0])], label[1] * powers[FULL - digits(label[1])]};
}

static inline int is_before(struct key a, struct key b) {
    return a.first != b.first ? a.first < b.first : a.rest < b.rest;
}

/* The first key that comes after all labels that begin with the first `count` digits of a label. */
static struct key past_leading(struct key key, int count) {
    if (count == 0) return (struct key){UINT64_MAX, 0};
    if (count <= FULL) {
        uint64_t unit = powers[FULL - count];
        return (struct key){(key.first / unit + 1) * unit, 0};
    }
    uint64_t unit = powers[2 * FULL - count];
    return (struct key){key.first, (key.rest / unit + 1) * unit};
}

/* The number without the odd digits at its end. */
static inline uint64_t without_odd(uint64_t number) {
    while (number % 2 == 1) number /= 10;
    return number;
}

/* The first key after those of the units whose water passes the outlet of this one. */
static struct key past_upstream(const uint64_t label[2]) {
    uint64_t rest = without_odd(label[1]);
    int count = rest != 0 ? FULL + digits(rest) : digits(without_odd(label[0]));
    return past_leading(key_of(label), count);
}

/* The first place from `low` on whose label does not come before the key. */
static size_t place_of(const uint64_t *index, size_t low, size_t high, struct key key) {
    while (low < high) {
        size_t middle = low + (high - low) / 2;
        if (is_before(key_of(index + 2 * middle), key)) low = middle + 1;
        else high = middle;
    }
    return low;
}

/* Does the first of two labels, after which the second comes, begin it? */
static int begins(const uint64_t a[2], const uint64_t b[2]) {
    int count = a[1] != 0 ? FULL + digits(a[1]) : digits(a[0]);
    return is_before(key_of(b), past_leading(key_of(a), count));
}

static int all_labels(const uint64_t *index, size_t count) {
    for (size_t k = 0; k < count; k++)
        if (!is_label(index + 2 * k)) return 0;
    return 1;
}

static int all_rise(const uint64_t *index, size_t count) {
    for (size_t k = 1; k < count; k++)
        if (!is_before(key_of(index + 2 * k - 2), key_of(index + 2 * k))) return 0;
    return 1;
}

static int one_begins(const uint64_t *index, size_t count) {
    for (size_t k = 1; k < count; k++)
        if (begins(index + 2 * k - 2, index + 2 * k)) return 1;
    return 0;
}

/* The refusal of the index, or 0. */
static uint64_t judge(const uint64_t *index, size_t count, size_t work_len) {
    if (!all_labels(index, count)) return 11;
    if (!all_rise(index, count)) return 16;
    if (one_begins(index, count)) return 12;
    return work_len < count ? 3 : 0;
}

/* Reads one place of the plan. A work place that is not 0 tells how many units from its own on have come. */
static int read_place(const uint64_t *index, size_t count, const uint64_t label[2], uint32_t *work) {
    if (!is_label(label)) return 20;
    size_t place = place_of(index, 0, count, key_of(label));
    if (place == count || index[2 * place] != label[0] || index[2 * place + 1] != label[1] || work[place] != 0)
        return 20;
    size_t end = place_of(index, place + 1, count, past_upstream(label)), next = place + 1;
    for (; next < end; next += work[next])
        if (work[next] == 0) return 21;
    work[place] = (uint32_t)(end - place);
    return 0;
}

static uint64_t read_places(const uint64_t *index, size_t count, const uint64_t *plan, size_t places, uint32_t *work) {
    for (size_t k = 0; k < places; k++) {
        int number = read_place(index, count, plan + 2 * k, work);
        if (number != 0) return (uint64_t)number + 256 * (uint64_t)(k + 1);
    }
    return 0;
}

static uint64_t find_missing(const uint32_t *work, size_t count) {
    for (size_t k = 0; k < count; k++)
        if (work[k] == 0) return 22 + 256 * (uint64_t)(k + 1);
    return 0;
}

uint64_t plain_check_plan(const uint64_t *index, size_t index_len, const uint64_t *plan, size_t plan_len,
                          uint32_t *work, size_t work_len) {
    size_t count = index_len / 2;
    uint64_t answer = judge(index, count, work_len);
    if (answer != 0) return answer;
    if (count != 0) memset(work, 0, count * sizeof *work);
    answer = read_places(index, count, plan, plan_len / 2, work);
    if (answer == 0) answer = find_missing(work, count);
    if (count != 0) memset(work, 0, count * sizeof *work);
    return answer;
}
