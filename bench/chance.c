/* Numbers by chance, the same in every run. */
#include "chance.h"

static uint64_t seed = 88172645463325252ull;

uint32_t below(uint32_t n) {
    seed ^= seed << 13, seed ^= seed >> 7, seed ^= seed << 17;
    return (uint32_t)(seed % n);
}
