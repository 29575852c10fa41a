/* Checks survey plans of a basin: its units are gauged from the headwaters down. The index is that of sample A at depth
   3, as pf_index writes it. A label is two numbers, its first 18 digits and the next ones; these labels have no more
   than 18, so that their second number is 0. */
#include <stdio.h>
#include "pfafstetter.h"

enum { UNITS = 9 };

static void check(const char *name, const uint64_t *plan, size_t places) {
  static const uint64_t units[2 * UNITS] = {1, 0, 2, 0, 3, 0, 4, 0, 6, 0, 8, 0, 91, 0, 92, 0, 93, 0};
  uint32_t work[UNITS]; /* one place for each unit */
  uint64_t answer = pf_check_plan(units, 2 * UNITS, plan, 2 * places, work, UNITS);
  if (answer == 0)
    printf("%s: accepted\n", name);
  else
    printf("%s: refused by %u, place %u\n", name, (unsigned)(answer % 256), (unsigned)(answer / 256));
}

int main(void) {
  uint64_t good[2 * UNITS] = {2, 0, 93, 0, 8, 0, 92, 0, 91, 0, 6, 0, 4, 0, 3, 0, 1, 0};
  uint64_t early[2 * UNITS] = {2, 0, 93, 0, 8, 0, 91, 0, 92, 0, 6, 0, 4, 0, 3, 0, 1, 0}; /* 91 lies below 92 */
  check("headwaters first", good, UNITS);
  check("91 before 92", early, UNITS);
  check("without the last unit", good, UNITS - 1); /* the unit at place 1 of the index is missing */
  return 0;
}
