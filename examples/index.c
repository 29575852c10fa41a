/* Prints the index of sample A, whose cells are all of basin 1, and the labels of that basin that begin with 9. */
#include <stdio.h>
#include "pfafstetter.h"

/* A label is two numbers: its first 18 digits, then the next ones, 0 if there are none. */
static void print_label(const uint64_t label[2]) {
  printf("%llu", (unsigned long long)label[0]);
  if (label[1] != 0)
    printf("%llu", (unsigned long long)label[1]);
}

int main(void) {
  enum { ROWS = 3, COLS = 4, N = ROWS * COLS, LEAST = 1, SPLIT = 4 }; /* all mouths counted, four taken */
  uint8_t dirs[N] = {0, 4, 16, 8, 16, 16, 16, 16, 64, 64, 32, 64};
  uint16_t weights[ROWS] = {1, 1, 1}; /* 1 for each row: areas are counts of cells */
  uint32_t areas[N], basins[N], work[8 * N], outlets[N], counts[N], unit_basins[N];
  uint64_t labels[2 * N], units[2 * N]; /* two numbers for each label */
  uint64_t answer = pf_index(ROWS, COLS, 3, LEAST, SPLIT, dirs, N, weights, ROWS, areas, N, labels, 2 * N, basins, N,
                             work, 8 * N, units, 2 * N, outlets, N, counts, N, unit_basins, N);
  if (answer % 256 != 0) {
    printf("refused by %u, place %u\n", (unsigned)(answer % 256), (unsigned)(answer / 256));
    return 1;
  }
  size_t count = answer / 256, start, length;
  printf("basin,label,outlet row,outlet col,cells\n");
  for (size_t k = 0; k < count; k++) {
    printf("%u,", (unsigned)unit_basins[k]);
    print_label(&units[2 * k]);
    printf(",%u,%u,%u\n", (unsigned)outlets[k] / COLS, (unsigned)outlets[k] % COLS, (unsigned)counts[k]);
  }
  uint32_t refused = pf_lookup(1, 9, 0, units, 2 * count, unit_basins, count, &start, &length);
  if (refused != 0) {
    printf("refused by %u\n", (unsigned)refused);
    return 1;
  }
  printf("%u labels begin with 9:", (unsigned)length); /* start and length count labels */
  for (size_t k = start; k < start + length; k++) {
    printf(" ");
    print_label(&units[2 * k]);
  }
  printf("\n");
  return 0;
}
