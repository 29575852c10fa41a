/* Times pf_check_plan and the plain C call on the same plans by turns, and prints the ratios. */
#include <stdint.h>
#include <stdio.h>
#include <stdlib.h>
#include "pfafstetter.h"
#include "plain_plan.h"
#include "plans.h"
#include "time_plans.h"

static uint64_t proved(size_t places) {
    return pf_check_plan(plan_index, 2 * unit_count, plan, 2 * places, plan_work, UNITS);
}

static uint64_t plain(size_t places) {
    return plain_check_plan(plan_index, 2 * unit_count, plan, 2 * places, plan_work, UNITS);
}

static int digits(uint64_t number) {
    int count = 0;
    for (; number != 0; number /= 10) count++;
    return count;
}

/* The count of the longest label's digits. */
static int longest(void) {
    int most = 0;
    for (size_t k = 0; k < unit_count; k++) {
        int count = digits(plan_index[2 * k]) + digits(plan_index[2 * k + 1]);
        if (count > most) most = count;
    }
    return most;
}

void plans_against_plain(void) {
    static const plan_call calls[] = {proved, plain};
    double times[2];
    printf("\ntime of pf_check_plan / time of the plain C call, good plans (nanoseconds a unit of each; units, digits "
           "of the longest label)\n");
    for (int k = 0; k < PLAN_KINDS; k++) {
        make_plan(&plan_kinds[k]);
        if (!same_checks(proved, plain)) {
            printf("%s: not accepted, or the answers differ\n", plan_kinds[k].name);
            exit(1);
        }
        least_plan_times(calls, 2, times);
        printf("%-28s ratio %.2f  (%.1f / %.1f; %zu, %d)\n", plan_kinds[k].name, times[0] / times[1], times[0],
               times[1], unit_count, longest());
    }
}
