/* Times the proved integer root alone, and the roots in plain C, on squared distances as readings have them and on random numbers
 * of 64 bits. First every root is held to what a root is, so that all of them are equal. */
#include "measure.h"
#include "plain_root.h"

#include <inttypes.h>
#include <stdio.h>
#include <stdlib.h>

enum { NUMBERS = 50000, ROUNDS = 201, FARTHEST = 50000, CHECKED = 1500000 };

root_of proved_root; /* arith::integer_root, as bench/root exports it */

enum { PROVED, PLAIN, PLAIN_32, MACHINE, WAYS };
static const char *const NAMES[WAYS] = {"Cradlekeel, arith::integer_root", "plain C, bit by bit", "plain C, bit by bit, always 32 rounds",
                                        "plain C, the machine's square root"};
static root_of *const ROOTS[WAYS] = {proved_root, plain_root, plain_root_32, machine_root};

/* Each way's root of n is the largest whole number whose square is at most n. */
static void require_roots(uint64_t n) {
    for (int way = 0; way < WAYS; way++) {
        uint64_t root = ROOTS[way](n), square = root * root;
        if (square <= n && n - square <= 2 * root) continue;
        printf("DIFFERENT ROOTS: %s answers %" PRIu64 " for %" PRIu64 "\n", NAMES[way], root, n);
        exit(1);
    }
}

/* A random number below 2^length, where the length is random too, from 0 to `most`. */
static uint64_t random_bits(uint64_t most) {
    uint64_t length = below(most + 1);
    return length == 0 ? 0 : below(UINT64_MAX) >> (64 - length);
}

/* The square of root, its neighbours (that before 0 is the largest number), the last number with this root, and a random one. */
static void require_roots_about(uint64_t root) {
    uint64_t square = root * root;
    require_roots(square - 1);
    require_roots(square);
    require_roots(square + 1);
    require_roots(square + 2 * root);
    require_roots(random_bits(64));
}

/* About the least roots, the largest ones and random ones. */
static void require_equal_roots(void) {
    for (uint64_t i = 0; i < CHECKED / 15; i++) {
        require_roots_about(i);
        require_roots_about(UINT32_MAX - i);
        require_roots_about(random_bits(32));
    }
}

enum { DISTANCES, RANDOM, SETS };
static uint64_t numbers[SETS][NUMBERS];

static void make_numbers(void) {
    for (size_t i = 0; i < NUMBERS; i++) {
        uint64_t root = below(FARTHEST);
        numbers[DISTANCES][i] = root * root + below(2 * root + 1);
        numbers[RANDOM][i] = below(UINT64_MAX);
    }
}

static uint64_t sink; /* what was answered, so that no call is left out */

static double time_roots(root_of *root, const uint64_t *of) {
    double start = seconds();
    for (size_t i = 0; i < NUMBERS; i++) sink += root(of[i]);
    return seconds() - start;
}

static double times[SETS][WAYS];

/* One round: every root once, so that other work on the machine falls on all of them. */
static void time_all(void) {
    for (int set = 0; set < SETS; set++)
        for (int way = 0; way < WAYS; way++) keep_least(&times[set][way], time_roots(ROOTS[way], numbers[set]));
}

static double nanoseconds(double time) { return time / NUMBERS * 1e9; }

int main(void) {
    require_equal_roots();
    printf("%d numbers: arith::integer_root and the three roots in plain C are equal.\n\n", CHECKED);
    make_numbers();
    for (int round = 0; round < ROUNDS; round++) time_all();
    printf("Processor time of a root over that of the plain C, bit by bit; arith::integer_root takes %.1f ns for a squared distance and\n"
           "%.1f ns for 64 bits here (best of %d rounds):\n\n",
           nanoseconds(times[DISTANCES][PROVED]), nanoseconds(times[RANDOM][PROVED]), ROUNDS);
    printf("| %-37s | distances | 64 bits |\n|---------------------------------------|----------:|--------:|\n", "");
    for (int way = 0; way < WAYS; way++)
        printf("| %-37s |      %4.2f |    %4.2f |\n", NAMES[way], times[DISTANCES][way] / times[DISTANCES][PLAIN],
               times[RANDOM][way] / times[RANDOM][PLAIN]);
    return sink == 0;
}
