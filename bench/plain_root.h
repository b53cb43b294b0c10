/* The integer root in plain C: what the benchmark compares the proved root with. */
#ifndef PLAIN_ROOT_H
#define PLAIN_ROOT_H

#include <stdint.h>

/* The largest whole number whose square is at most n; the type of the proved root too. */
typedef uint32_t root_of(uint64_t n);

/* Bit by bit: in 16 rounds where n is below 2^32 and 32 otherwise, as the proved root has them, and always in 32. */
root_of plain_root, plain_root_32;

/* By the machine's square root of a double. */
root_of machine_root;

#endif
