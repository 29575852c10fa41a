/* Calls of an older library on the sheet, or on the pairs of labels, that were made last. */
#ifndef OLD_H
#define OLD_H
#include <stddef.h>
#include <stdint.h>
extern const int old_max_depth;
uint64_t old_label(int side, int depth);
uint64_t old_index(int side, int depth);
uint64_t old_flow_one_by_one(int depth);

/* Forgets the labels that the older library wrote. */
void forget_old_labels(void);

/* Did the older library write these n labels, two numbers each? One of its numbers is a first number beside a 0. */
int are_old_labels(const uint64_t *labels, size_t n);
#endif
