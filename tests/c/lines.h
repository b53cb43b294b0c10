/* What the tests of the C functions share for the lines of the vectors: the words after the first one, and the checksum. */
#ifndef LINES_H
#define LINES_H

#include <stdint.h>
#include <stdlib.h>
#include <string.h>

static inline const char *next_word(void) { return strtok(NULL, " \n"); }

static inline uint32_t next_number(int base) {
    const char *word = next_word();
    return (uint32_t)strtoul(word ? word : "", NULL, base);
}

static inline size_t next_size(void) {
    const char *word = next_word();
    return strtoull(word ? word : "", NULL, 10);
}

/* Adds the numbers of a word, `N` or `NxK` for K times N, and gives how many there are now; one below zero by its bits. */
static inline size_t add_numbers(uint32_t *numbers, size_t count, size_t most, const char *word) {
    char *end;
    uint32_t number = (uint32_t)strtoll(word, &end, 10);
    size_t times = *end == 'x' ? strtoul(end + 1, NULL, 10) : 1;
    for (size_t i = 0; i < times && count < most; i++) numbers[count++] = number;
    return count;
}

/* A checksum with one more number. */
static inline uint32_t with_number(uint32_t sum, uint32_t number) { return (uint32_t)(((uint64_t)sum * 1000003 + number) % 4294967291u); }

#endif
