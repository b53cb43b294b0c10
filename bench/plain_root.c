/* The integer root in plain C, written for the benchmark as a C programmer would write it for speed: a bit to a round, with all
 * rounds in a row and no branch in them; and by the machine's square root, for scale. */
#include "plain_root.h"

#include <math.h>

/* The root's bit k. Before it the bits that are found stand in root shifted by k + 1, and after it by k. Where the trial is above n
 * the rest wraps, and is above n too. */
#define ROUND(k)                                                                       \
    {                                                                                  \
        uint64_t trial = root + (1ull << 2 * (k)), rest = n - trial, half = root >> 1; \
        root = trial <= n ? trial - half : half;                                       \
        n = rest < n ? rest : n;                                                       \
    }
#define FOUR_ROUNDS(k) ROUND((k) + 3) ROUND((k) + 2) ROUND((k) + 1) ROUND(k)
#define SIXTEEN_ROUNDS(k) FOUR_ROUNDS((k) + 12) FOUR_ROUNDS((k) + 8) FOUR_ROUNDS((k) + 4) FOUR_ROUNDS(k)

uint32_t plain_root(uint64_t n) {
    uint64_t root = 0;
    if (n >> 32 == 0) {
        SIXTEEN_ROUNDS(0)
        return (uint32_t)root;
    }
    SIXTEEN_ROUNDS(16)
    SIXTEEN_ROUNDS(0)
    return (uint32_t)root;
}

uint32_t plain_root_32(uint64_t n) {
    uint64_t root = 0;
    SIXTEEN_ROUNDS(16)
    SIXTEEN_ROUNDS(0)
    return (uint32_t)root;
}

/* The nearest double to n, by its halves: gcc converts 64 bits with a branch on the highest. */
static double nearest_double(uint64_t n) { return (double)(uint32_t)(n >> 32) * 4294967296.0 + (double)(uint32_t)n; }

/* Rounded, the root is never too low, and at most one too high, as 2^32 is for the largest n. */
uint32_t machine_root(uint64_t n) {
    uint64_t root = (uint64_t)(int64_t)sqrt(nearest_double(n));
    return (uint32_t)(root - (root > UINT32_MAX || root * root > n));
}
