#ifndef PLAIN_PLAN_H
#define PLAIN_PLAN_H
#include <stddef.h>
#include <stdint.h>
/* 0, or refusal number + 256 x place. */
uint64_t plain_check_plan(const uint64_t *index, size_t index_len, const uint64_t *plan, size_t plan_len,
                          uint32_t *work, size_t work_len);
#endif
