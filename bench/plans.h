/* The indexes and plans of the benchmark, and how calls on them are timed. */
#ifndef PLANS_H
#define PLANS_H
#include <stddef.h>
#include <stdint.h>

enum { UNITS = 40000 /* at most, and nearly */, PLAN_KINDS = 6 };

/* The index and the plan that were made last, two numbers for each label, and their number of units. */
extern uint64_t plan_index[2 * UNITS], plan[2 * UNITS];
extern size_t unit_count;

/* What is lent to a call as work places. */
extern uint32_t plan_work[UNITS];

/* The kinds of plans. All labels of an index begin with `shared` equal digits, `odd` ones have odd digits alone after
   them, which leaves one good order; `by_chance` plans are in an order drawn among the good ones, the others in falling
   dictionary order. make_plan makes an index and a good plan of it. */
extern const struct plan_kind { const char *name; int shared, odd, by_chance; } plan_kinds[PLAN_KINDS];
void make_plan(const struct plan_kind *kind);

/* A call that checks so many places of the plan, and what it returns. */
typedef uint64_t (*plan_call)(size_t places);

/* Is the plan accepted by both calls, and do they return the same for it with an error? */
int same_checks(plan_call first, plan_call second);

/* The least time of each of `count` calls on the whole plan, in nanoseconds a unit, over rounds in which all are timed,
   one right after the other; every second round goes through them backwards. */
void least_plan_times(const plan_call *calls, int count, double *times);

#endif
