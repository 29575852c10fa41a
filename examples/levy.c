/* Shares a sum among the units of sample A, whose cells are all of basin 1, by ground, with a weight for each row: a
   cell of row 0 counts for 3, one of row 1 for 2, one of row 2 for 1. With these weights sample A has other labels than
   without. Its 11 inside cells weigh 3 x 3 + 4 x 2 + 4 x 1 = 21. The units 11, 12, 13, 2, 4, 6, 7, 8, 9 weigh 2, 1, 2,
   1, 1, 6, 2, 3, 3; up to each of them that makes 2, 3, 5, 6, 7, 13, 15, 18, 21. So the unit 13 owes the whole part of
   1000 x 5 / 21, which is 238, less that of 1000 x 3 / 21, which is 142. */
#include <stdio.h>
#include "pfafstetter.h"

/* A label is two numbers: its first 18 digits, then the next ones, 0 if there are none. */
static void print_label(const uint64_t label[2]) {
  printf("%llu", (unsigned long long)label[0]);
  if (label[1] != 0)
    printf("%llu", (unsigned long long)label[1]);
}

int main(void) {
  enum { ROWS = 3, COLS = 4, N = ROWS * COLS, BASIN = 1, TOTAL = 1000 /* cents */ };
  enum { LEAST = 1, SPLIT = 4 }; /* all mouths counted, four taken */
  uint8_t dirs[N] = {0, 4, 16, 8, 16, 16, 16, 16, 64, 64, 32, 64};
  uint16_t weights[ROWS] = {3, 2, 1};
  uint32_t areas[N], basins[N], work[8 * N], outlets[N], counts[N], unit_basins[N];
  uint64_t labels[2 * N], units[2 * N], dues[N], sum = 0; /* two numbers for each label */
  uint64_t answer = pf_levy(ROWS, COLS, 3, LEAST, SPLIT, dirs, N, weights, ROWS, areas, N, labels, 2 * N, basins, N,
                            work, 8 * N, units, 2 * N, outlets, N, counts, N, unit_basins, N, BASIN, TOTAL, dues, N);
  if (answer % 256 != 0) {
    printf("refused by %u, place %u\n", (unsigned)(answer % 256), (unsigned)(answer / 256));
    return 1;
  }
  size_t count = answer / 256, due = 0; /* the dues are those of the basin's units alone, from the first place on */
  printf("label,cells,cents\n");
  for (size_t k = 0; k < count; k++)
    if (unit_basins[k] == BASIN) {
      print_label(&units[2 * k]);
      printf(",%u,%llu\n", (unsigned)counts[k], (unsigned long long)dues[due]);
      sum += dues[due++];
    }
  printf("sum of the dues %llu, total %d\n", (unsigned long long)sum, TOTAL);
  return 0;
}
