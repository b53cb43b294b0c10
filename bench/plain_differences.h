/* The differences of two record files in plain C: what the benchmark compares the proved library with. */
#ifndef PLAIN_DIFFERENCES_H
#define PLAIN_DIFFERENCES_H

#include "../include/cradlekeel.h"

/* The type of ck_compare_files too. */
typedef ck_compared compare_files(const uint8_t *first, size_t first_length, const uint8_t *second, size_t second_length, int64_t *target,
                                  size_t room);
compare_files plain_compare_files;

#endif
