/* The 24 stored points, the refusals 2, 3 and 5 to 7, and u and v of x and y in plain C: what the search and the coarse reader share. */
#ifndef PLAIN_CHECKS_H
#define PLAIN_CHECKS_H

#include "../include/cradlekeel.h"

#include <math.h>

enum { ENTRIES = 24, WHOLE_LIMIT = 4000000 };
static const int64_t FARTHEST = 2500000000;

static const uint32_t TABLE_U[ENTRIES] = {183870, 186730, 190310, 194620, 199620, 205240, 211420, 218070,
                                          225110, 232470, 240100, 247920, 255910, 264000, 272170, 280390,
                                          288620, 296850, 305040, 313190, 321280, 329300, 337230, 345070};
static const uint32_t TABLE_V[ENTRIES] = {277150, 285090, 293300, 301440, 309230, 316490, 323130, 329100,
                                          334400, 339040, 343080, 346550, 349510, 352000, 354070, 355770,
                                          357140, 358230, 359070, 359680, 360120, 360380, 360510, 360530};

typedef struct {
    uint32_t u, v;
} point;

static point entry_point(uint32_t k) { return (point){TABLE_U[k], TABLE_V[k]}; }

static int64_t squared_distance(point p, point q) {
    int64_t du = (int64_t)p.u - q.u, dv = (int64_t)p.v - q.v;
    return du * du + dv * dv;
}

/* (reading - corner) . (other - corner). */
static int64_t dot(point reading, point corner, point other) {
    return ((int64_t)reading.u - corner.u) * ((int64_t)other.u - corner.u) +
           ((int64_t)reading.v - corner.v) * ((int64_t)other.v - corner.v);
}

typedef struct {
    uint32_t entry;
    int64_t distance;
} nearest;

static nearest nearest_entry(point reading) {
    nearest found = {0, squared_distance(reading, entry_point(0))};
    for (uint32_t k = 1; k < ENTRIES; k++) {
        int64_t distance = squared_distance(reading, entry_point(k));
        if (distance < found.distance) found = (nearest){k, distance};
    }
    return found;
}

/* Refusals 5, 6 and 7, or 0. */
static uint8_t refusal_of(point reading, nearest found) {
    if (found.distance > FARTHEST) return CK_TOO_FAR;
    if (found.entry == 0 && dot(reading, entry_point(0), entry_point(1)) < 0) return CK_TOO_HOT;
    if (found.entry == ENTRIES - 1 && dot(reading, entry_point(ENTRIES - 1), entry_point(ENTRIES - 2)) < 0) return CK_TOO_COOL;
    return CK_ACCEPTED;
}

static int in_whole_range(uint32_t u, uint32_t v) { return u <= WHOLE_LIMIT && v <= WHOLE_LIMIT; }

/* Above -1/2 of a millionth and below 1; the product is exact. */
static int in_range(float x) { return x < 0 ? (double)x * 2e6 > -1 : x < 1; }

/* floor(x * 1,000,000 + 1/2): product and sum are exact in a double wherever they matter to the floor. */
static uint64_t to_micro(float x) { return (uint64_t)((double)x * 1e6 + 0.5); }

static uint32_t nearest_quotient(uint64_t a, uint64_t b) { return (uint32_t)((2 * a + b) / (2 * b)); }

/* u and v from x and y, or from X and Y, over the divisor n. */
static point point_over(uint64_t x, uint64_t y, uint64_t n) {
    return (point){nearest_quotient(4 * x * 1000000, n), nearest_quotient(6 * y * 1000000, n)};
}

/* Refusals 2 and 3, or 0. */
static uint8_t refusal_of_xy(float x, float y) {
    if (!isfinite(x) || !isfinite(y)) return CK_NOT_FINITE;
    return in_range(x) && in_range(y) ? CK_ACCEPTED : CK_OUT_OF_RANGE;
}

static point point_of_xy(float x, float y) {
    uint64_t mx = to_micro(x), my = to_micro(y);
    return point_over(mx, my, 3000000 + 12 * my - 2 * mx);
}

#endif
