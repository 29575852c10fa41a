/* Asks in one call which gauges the water of a spill passes. The spill is in the unit 92 of basin 1. The gauges have
   labels at depth 3; one of them has 30, which is no label, and the last one stands in basin 2. A label is two numbers,
   its first 18 digits and the next ones; these labels have no more than 18, so that their second number is 0, and the
   first alone is printed. */
#include <stdio.h>
#include "pfafstetter.h"

int main(void) {
  enum { GAUGES = 8, SPILL = 92, SPILL_BASIN = 1, LEAST = 1 /* as the labels were made */ };
  static const char *const told[] = {"no", "yes", "same label", "not known"};
  uint64_t gauges[2 * GAUGES] = {1, 0, 3, 0, 30, 0, 4, 0, 91, 0, 92, 0, 93, 0, 91, 0}, spill[2 * GAUGES];
  uint32_t gauge_basins[GAUGES] = {1, 1, 1, 1, 1, 1, 1, 2}, spill_basins[GAUGES];
  uint8_t answers[GAUGES];
  for (size_t k = 0; k < GAUGES; k++)
    spill[2 * k] = SPILL, spill[2 * k + 1] = 0, spill_basins[k] = SPILL_BASIN;
  uint64_t answer = pf_flow_pairs(3, LEAST, gauges, 2 * GAUGES, gauge_basins, GAUGES, spill, 2 * GAUGES, spill_basins,
                                  GAUGES, answers, GAUGES);
  if (answer % 256 != 0) {
    printf("refused by %u\n", (unsigned)(answer % 256));
    return 1;
  }
  for (size_t k = 0; k < answer / 256; k++) {
    printf("water from %d of basin %d passes %llu of basin %u: ", SPILL, SPILL_BASIN,
           (unsigned long long)gauges[2 * k], (unsigned)gauge_basins[k]);
    if (answers[k] < 128)
      printf("%s\n", told[answers[k]]);
    else
      printf("refused by %u\n", (unsigned)answers[k] - 128);
  }
  return 0;
}
