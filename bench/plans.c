/* The indexes and plans of the benchmark, and how calls on them are timed. */
#include <stdlib.h>
#include <string.h>
#include "chance.h"
#include "clock.h"
#include "plans.h"

enum { PLAN_ROUNDS = 30, FULL = 18 /* digits of a full number */, MOST = 36, NONE = UNITS };

uint64_t plan_index[2 * UNITS], plan[2 * UNITS];
size_t unit_count;
uint32_t plan_work[UNITS];

/* A label by its digits. */
struct unit {
    uint8_t count, digits[MOST];
};

/* The units of the index; the nearest one downstream of each, and how many upstream have not come yet. */
static struct unit units_made[UNITS];
static uint32_t downstream[UNITS], left_upstream[UNITS];

/* Dictionary order. */
static int by_digits(const void *one, const void *other) {
    const struct unit *a = one, *b = other;
    int order = memcmp(a->digits, b->digits, a->count < b->count ? a->count : b->count);
    return order != 0 ? order : a->count - b->count;
}

static void put(uint64_t *slice, size_t place, const struct unit *unit) {
    uint64_t numbers[2] = {0, 0};
    for (int k = 0; k < unit->count; k++) numbers[k >= FULL] = 10 * numbers[k >= FULL] + unit->digits[k];
    memcpy(slice + 2 * place, numbers, sizeof numbers);
}

/* Splits a unit by one to four tributaries, or into as many stretches of a river alone. */
static void split(size_t place, int odd) {
    struct unit whole = units_made[place];
    int taken = 1 + (int)below(4);
    if (whole.count == MOST) return;
    whole.count++;
    for (int digit = 1; digit <= 2 * taken + 1; digit += 1 + odd) {
        whole.digits[whole.count - 1] = (uint8_t)digit;
        units_made[digit == 1 ? place : unit_count++] = whole;
    }
}

/* The whole basin, with so many digits by chance. */
static void begin_units(int shared) {
    unit_count = 1;
    units_made[0].count = (uint8_t)shared;
    for (int k = 0; k < shared; k++) units_made[0].digits[k] = (uint8_t)(1 + 2 * below(5));
}

static void make_index(int shared, int odd) {
    begin_units(shared);
    while (unit_count + 8 <= UNITS) split(below((uint32_t)unit_count), odd);
    qsort(units_made, unit_count, sizeof *units_made, by_digits);
    for (size_t k = 0; k < unit_count; k++) put(plan_index, k, &units_made[k]);
}

/* Does water from the unit q pass the outlet of the unit p? */
static int passes(const struct unit *p, const struct unit *q) {
    int part = 0;
    while (p->digits[part] == q->digits[part]) part++; /* neither begins the other */
    if (p->digits[part] > q->digits[part]) return 0;
    for (; part < p->count; part++)
        if (p->digits[part] % 2 == 0) return 0;
    return 1;
}

/* Finds the nearest unit downstream of each: the last before it in the index whose outlet its water passes. */
static void find_downstream(void) {
    static uint32_t open[UNITS];
    size_t count = 0;
    memset(left_upstream, 0, sizeof left_upstream);
    for (size_t k = 0; k < unit_count; k++) {
        while (count > 0 && !passes(&units_made[open[count - 1]], &units_made[k])) count--;
        downstream[k] = count > 0 ? open[count - 1] : NONE;
        if (count > 0) left_upstream[downstream[k]]++;
        open[count++] = (uint32_t)k;
    }
}

/* Finds the units with nothing upstream, and gives their count. */
static uint32_t find_headwaters(uint32_t *found) {
    uint32_t count = 0;
    for (size_t k = 0; k < unit_count; k++)
        if (left_upstream[k] == 0) found[count++] = (uint32_t)k;
    return count;
}

/* Always one, by chance, of the units with nothing left upstream. */
static void order_by_chance(void) {
    static uint32_t free_units[UNITS];
    find_downstream();
    uint32_t count = find_headwaters(free_units);
    for (size_t place = 0; count > 0; place++) {
        uint32_t drawn = below(count), unit = free_units[drawn], next = downstream[unit];
        put(plan, place, &units_made[unit]);
        free_units[drawn] = free_units[--count];
        if (next != NONE && --left_upstream[next] == 0) free_units[count++] = next;
    }
}

static void order_falling(void) {
    for (size_t k = 0; k < unit_count; k++) put(plan, k, &units_made[unit_count - 1 - k]);
}

const struct plan_kind plan_kinds[PLAN_KINDS] = {{"basin, falling", 0, 0, 0},
                                                 {"basin, by chance", 0, 0, 1},
                                                 {"18 digits shared, falling", 18, 0, 0},
                                                 {"18 digits shared, by chance", 18, 0, 1},
                                                 {"odd digits alone", 0, 1, 0},
                                                 {"odd digits alone, 24 shared", 24, 1, 0}};

void make_plan(const struct plan_kind *kind) {
    make_index(kind->shared, kind->odd);
    if (kind->by_chance) order_by_chance();
    else order_falling();
}

/* Exchanges the labels at two places of the plan. */
static void exchange(size_t one, size_t other) {
    for (int k = 0; k < 2; k++) {
        uint64_t number = plan[2 * one + k];
        plan[2 * one + k] = plan[2 * other + k], plan[2 * other + k] = number;
    }
}

static int both_refuse(plan_call first, plan_call second, size_t places) {
    uint64_t answer = first(places);
    return answer != 0 && second(places) == answer;
}

/* Do both calls refuse the plan alike with another label at its last place? */
static int both_refuse_last(plan_call first, plan_call second, uint64_t number, uint64_t rest) {
    uint64_t *last = plan + 2 * (unit_count - 1), kept[2] = {last[0], last[1]};
    last[0] = number, last[1] = rest;
    int same = both_refuse(first, second, unit_count);
    last[0] = kept[0], last[1] = kept[1];
    return same;
}

int same_checks(plan_call first, plan_call second) {
    size_t last = unit_count - 1;
    int same = both_refuse(first, second, last) && both_refuse_last(first, second, plan[0], plan[1])
               && both_refuse_last(first, second, 10, 0); /* a unit missing, twice, no label */
    exchange(0, last);
    same = same && both_refuse(first, second, unit_count);
    exchange(0, last);
    return same && first(unit_count) == 0 && second(unit_count) == 0;
}

void least_plan_times(const plan_call *calls, int count, double *times) {
    for (int i = 0; i < count; i++) times[i] = 1e9;
    for (int turn = 0; turn < PLAN_ROUNDS * count; turn++) {
        int i = turn / count % 2 == 0 ? turn % count : count - 1 - turn % count;
        double start = now();
        calls[i](unit_count);
        double time = (now() - start) * 1e9 / (double)unit_count;
        if (time < times[i]) times[i] = time;
    }
}
