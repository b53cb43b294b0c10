#define _POSIX_C_SOURCE 200809L
#include "measure.h"

#include <stdio.h>
#include <string.h>
#include <time.h>

const uint32_t EDGES[EDGE_COUNT] = {1600, 2500, 3500, 5000, 20001};
const uint32_t STEPS[STEP_COUNTS] = {0, 6, 14};

/* xorshift64 */
uint64_t below(uint64_t n) {
    static uint64_t state = 88172645463325252u;
    state ^= state << 13;
    state ^= state >> 7;
    state ^= state << 17;
    return state % n;
}

int same(ck_answer a, ck_answer b) {
    return memcmp(&a.kelvin, &b.kelvin, sizeof a.kelvin) == 0 && memcmp(&a.duv, &b.duv, sizeof a.duv) == 0 &&
           a.whole.place == b.whole.place && a.whole.low == b.whole.low && a.whole.high == b.whole.high &&
           a.whole.duv == b.whole.duv && a.whole.refusal == b.whole.refusal && a.whole.steps == b.whole.steps &&
           a.whole.class_index == b.whole.class_index;
}

double seconds(void) {
    struct timespec now;
    clock_gettime(CLOCK_PROCESS_CPUTIME_ID, &now);
    return (double)now.tv_sec + (double)now.tv_nsec / 1e9;
}

void keep_least(double *least, double time) {
    if (*least == 0 || time < *least) *least = time;
}

void print_head(void) {
    printf("| %-34s | 0 steps | 6 steps | 14 steps|\n|------------------------------------|--------:|--------:|--------:|\n", "");
}

void print_row(const char *name, const double *times, const double *units) {
    printf("| %-34s |", name);
    for (size_t k = 0; k < STEP_COUNTS; k++) printf("    %4.2f |", times[k] / units[k]);
    printf("\n");
}
