#ifndef BASELINE_H
#define BASELINE_H
#include <stddef.h>
#include <stdint.h>
/* 0, or refusal number + 256 x place. A label is two numbers, as those of pf_label; basins are numbered as there. */
uint64_t baseline_label(size_t rows, size_t cols, size_t depth, size_t split, const uint8_t *dirs,
                        const uint16_t *weights, uint32_t *areas, uint64_t *labels, uint32_t *basins);
#endif
