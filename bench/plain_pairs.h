#ifndef PLAIN_PAIRS_H
#define PLAIN_PAIRS_H
#include <stddef.h>
#include <stdint.h>
/* 256 x the count of pairs, or the refusal's number. */
uint64_t plain_flow_pairs(size_t depth, size_t least, const uint64_t *p, size_t p_len, const uint32_t *p_basins,
                          size_t p_basins_len, const uint64_t *q, size_t q_len, const uint32_t *q_basins,
                          size_t q_basins_len, uint8_t *answers, size_t answers_len);
#endif
