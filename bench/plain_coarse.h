/* The coarse reader in plain C: what the benchmark compares the proved library with. */
#ifndef PLAIN_COARSE_H
#define PLAIN_COARSE_H

#include "../include/cradlekeel.h"

enum { READY_COUNT = 1565 };

/* The types of ck_coarse_micro and ck_coarse_xy too. */
typedef ck_coarse coarse_micro(uint32_t u, uint32_t v);
typedef ck_coarse coarse_xy(float x, float y);

/* The ready points are looked at from the first to the last; from the last to the first; and as the library does it, from the first to the
 * last with the distance of the nearest entry as a bound, and u before v. */
coarse_micro plain_coarse_micro, plain_coarse_micro_down, plain_coarse_micro_bounded;
coarse_xy plain_coarse_xy, plain_coarse_xy_down, plain_coarse_xy_bounded;

/* That alone, without any check, for a reading that is accepted: the number of the nearest ready point, where some point is no farther
 * than `near`. */
typedef size_t nearest_ready(uint32_t u, uint32_t v, int64_t near);
nearest_ready plain_nearest_ready, plain_nearest_ready_down, plain_nearest_ready_bounded;

/* u and v of ready point k. */
void plain_ready_point(size_t k, uint32_t *u, uint32_t *v);

#endif
