/* Numbers by chance, the same in every run. */
#ifndef CHANCE_H
#define CHANCE_H
#include <stdint.h>
/* One of the numbers from 0 to n - 1. */
uint32_t below(uint32_t n);
#endif
