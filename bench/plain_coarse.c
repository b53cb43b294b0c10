/* Request No. 12 of document 02 in plain C, written for the benchmark as a C programmer would write it: the ready points are a constant table
 * that stays where it is, made by bench/build of the one that the library has. */
#include "plain_coarse.h"
#include "plain_checks.h"

enum { FIRST_PLACE = 5168, SPACING = 38 };

static const point READY[READY_COUNT] = {
#include "../target/bench/ready_points.h"
};

void plain_ready_point(size_t k, uint32_t *u, uint32_t *v) { *u = READY[k].u, *v = READY[k].v; }

size_t plain_nearest_ready(uint32_t u, uint32_t v, int64_t near) {
    (void)near;
    point reading = {u, v};
    size_t nearest = 0;
    int64_t least = squared_distance(reading, READY[0]);
    for (size_t k = 1; k < READY_COUNT; k++) {
        int64_t distance = squared_distance(reading, READY[k]);
        if (distance < least) nearest = k, least = distance;
    }
    return nearest;
}

size_t plain_nearest_ready_down(uint32_t u, uint32_t v, int64_t near) {
    (void)near;
    point reading = {u, v};
    size_t nearest = READY_COUNT - 1;
    int64_t least = squared_distance(reading, READY[READY_COUNT - 1]);
    for (size_t k = READY_COUNT - 1; k-- > 0;) {
        int64_t distance = squared_distance(reading, READY[k]);
        if (distance <= least) nearest = k, least = distance;
    }
    return nearest;
}

size_t plain_nearest_ready_bounded(uint32_t u, uint32_t v, int64_t near) {
    size_t nearest = 0;
    int64_t least = near + 1;
    for (size_t k = 0; k < READY_COUNT; k++) {
        int64_t du = (int64_t)u - READY[k].u, dv = (int64_t)v - READY[k].v;
        if (du * du >= least) continue;
        int64_t distance = du * du + dv * dv;
        if (distance < least) nearest = k, least = distance;
    }
    return nearest;
}

static ck_coarse refused(uint8_t refusal) { return (ck_coarse){.refusal = refusal}; }

static inline ck_coarse answer(point reading, nearest_ready *scan) {
    nearest found = nearest_entry(reading);
    uint8_t refusal = refusal_of(reading, found);
    if (refusal) return refused(refusal);
    return (ck_coarse){.place = FIRST_PLACE + SPACING * (uint32_t)scan(reading.u, reading.v, found.distance)};
}

static inline ck_coarse answer_micro(uint32_t u, uint32_t v, nearest_ready *scan) {
    return in_whole_range(u, v) ? answer((point){u, v}, scan) : refused(CK_OUT_OF_RANGE);
}

static inline ck_coarse answer_xy(float x, float y, nearest_ready *scan) {
    uint8_t refusal = refusal_of_xy(x, y);
    return refusal ? refused(refusal) : answer(point_of_xy(x, y), scan);
}

ck_coarse plain_coarse_micro(uint32_t u, uint32_t v) { return answer_micro(u, v, plain_nearest_ready); }
ck_coarse plain_coarse_micro_down(uint32_t u, uint32_t v) { return answer_micro(u, v, plain_nearest_ready_down); }
ck_coarse plain_coarse_micro_bounded(uint32_t u, uint32_t v) { return answer_micro(u, v, plain_nearest_ready_bounded); }
ck_coarse plain_coarse_xy(float x, float y) { return answer_xy(x, y, plain_nearest_ready); }
ck_coarse plain_coarse_xy_down(float x, float y) { return answer_xy(x, y, plain_nearest_ready_down); }
ck_coarse plain_coarse_xy_bounded(float x, float y) { return answer_xy(x, y, plain_nearest_ready_bounded); }
