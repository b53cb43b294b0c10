/* What the programs that time calls share: class edges and numbers of steps, random numbers, equal answers, time and tables. */
#ifndef MEASURE_H
#define MEASURE_H

#include "../include/cradlekeel.h"

enum { EDGE_COUNT = 5, STEP_COUNTS = 3 };

extern const uint32_t EDGES[EDGE_COUNT];
extern const uint32_t STEPS[STEP_COUNTS];

/* A random number under n, the same in every run. */
uint64_t below(uint64_t n);

/* Whether every field is equal, the doubles bit by bit. */
int same(ck_answer a, ck_answer b);

/* Processor time, so that other work on the machine counts less. */
double seconds(void);

void keep_least(double *least, double time);

/* A table's head, with one column for each number of steps, and a row of it: each time over its column's unit. */
void print_head(void);
void print_row(const char *name, const double *times, const double *units);

#endif
