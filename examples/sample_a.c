/* Labels sample A, prints its inside cells, and asks whether water from the label 92 passes the label 91, and whether
   it passes the outlet of the unit 91. All its cells are of one basin, 1. */
#include <stdio.h>
#include "pfafstetter.h"

/* A label is two numbers: its first 18 digits, then the next ones, 0 if there are none. */
static void print_label(const uint64_t label[2]) {
  printf("%llu", (unsigned long long)label[0]);
  if (label[1] != 0)
    printf("%llu", (unsigned long long)label[1]);
}

int main(void) {
  enum { ROWS = 3, COLS = 4, N = ROWS * COLS, LEAST = 1, SPLIT = 4 }; /* all mouths counted, four taken */
  uint8_t dirs[N] = {0, 4, 16, 8, 16, 16, 16, 16, 64, 64, 32, 64};
  uint16_t weights[ROWS] = {1, 1, 1}; /* 1 for each row: areas are counts of cells */
  uint32_t areas[N], basins[N], work[8 * N];
  uint64_t labels[2 * N]; /* that of the cell c is labels[2 * c] and labels[2 * c + 1] */
  uint64_t answer = pf_label(ROWS, COLS, 3, LEAST, SPLIT, dirs, N, weights, ROWS, areas, N, labels, 2 * N, basins, N,
                             work, 8 * N);
  if (answer != 0)
    printf("refused by %u, place %u\n", (unsigned)(answer % 256), (unsigned)(answer / 256));
  for (int c = 0; answer == 0 && c < N; c++)
    if (dirs[c] != 0) {
      printf("%u,%d,%d,%u,", (unsigned)basins[c], c / COLS, c % COLS, (unsigned)areas[c]);
      print_label(&labels[2 * c]);
      printf("\n");
    }
  printf("water from 92 passes 91: %s\n", pf_flow(3, LEAST, 1, 91, 0, 1, 92, 0) == 1 ? "yes" : "no, or not known");
  printf("water from 92 passes the outlet of 91: %s\n",
         pf_outlet_flow(3, 1, 91, 0, 1, 92, 0) == 1 ? "yes" : "no, or refused");
  return 0;
}
