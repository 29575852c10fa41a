/* The sheets of the benchmark, side x side cells, and how calls on them are timed. */
#ifndef SHEETS_H
#define SHEETS_H
#include <stddef.h>
#include <stdint.h>

/* The first of the shapes have one basin, the others several. */
enum { SIDE = 256, CELLS = SIDE * SIDE, ONE_BASIN = 5, SHAPES = 7 };

/* The directions and the weights of the sheet that was made last. */
extern uint8_t dirs[CELLS];
extern uint16_t weights[SIDE];

/* What is lent to a call for its answers; two numbers for each label. */
extern uint32_t areas[CELLS], basins[CELLS], work[8 * CELLS], outlets[CELLS], counts[CELLS], unit_basins[CELLS];
extern uint64_t labels[2 * CELLS], units[2 * CELLS];

extern const struct shape { const char *name; void (*make)(int side); } shapes[SHAPES];

void weights_of_1(void);
void weights_by_chance(void);

typedef uint64_t (*call_of)(int side, int depth);

/* The least time of each call, in seconds, over rounds in which both are timed, one right after the other; they take
   turns in going first. */
void least_times(call_of first, call_of second, int side, int depth, double *p, double *q);

#endif
