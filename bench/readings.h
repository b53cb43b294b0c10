/* The readings that calls are timed on, and the two calls: what the programs that time them share. */
#ifndef READINGS_H
#define READINGS_H

#include "../include/cradlekeel.h"

enum { READINGS = 200000 };

/* Each reading as u and v in millionths, and as x and y. */
extern uint32_t us[READINGS], vs[READINGS];
extern float xs[READINGS], ys[READINGS];

/* Makes reading i anywhere about the locus; 1 where the rules answer it both ways. */
int offer_reading(size_t i);

typedef ck_answer read_micro(uint32_t, uint32_t, const uint32_t *, size_t, uint32_t);
typedef ck_answer read_xy(float, float, const uint32_t *, size_t, uint32_t);

/* ck_read_micro and ck_read_xy, or what is compared with them. */
typedef struct {
    read_micro *micro;
    read_xy *xy;
} calls;

/* Whether both answer reading i alike, as u, v and as x, y. */
int same_answers(const calls *a, const calls *b, size_t i, uint32_t steps);

/* The processor time of one call for each reading. */
double time_micro(read_micro *read, uint32_t steps);
double time_xy(read_xy *read, uint32_t steps);

/* What was answered, so that no call is left out. */
extern double sink;

#endif
