#include "readings.h"
#include "measure.h"
#include "plain.h"

uint32_t us[READINGS], vs[READINGS];
float xs[READINGS], ys[READINGS];

int offer_reading(size_t i) {
    us[i] = (uint32_t)(130000 + below(270000)), vs[i] = (uint32_t)(220000 + below(200000));
    double u = us[i] / 1e6, v = vs[i] / 1e6, n = 2 * u - 8 * v + 4;
    xs[i] = (float)(3 * u / n), ys[i] = (float)(2 * v / n);
    return plain_read_micro(us[i], vs[i], EDGES, EDGE_COUNT, 0).whole.refusal == CK_ACCEPTED &&
           plain_read_xy(xs[i], ys[i], EDGES, EDGE_COUNT, 0).whole.refusal == CK_ACCEPTED;
}

int same_answers(const calls *a, const calls *b, size_t i, uint32_t steps) {
    return same(a->micro(us[i], vs[i], EDGES, EDGE_COUNT, steps), b->micro(us[i], vs[i], EDGES, EDGE_COUNT, steps)) &&
           same(a->xy(xs[i], ys[i], EDGES, EDGE_COUNT, steps), b->xy(xs[i], ys[i], EDGES, EDGE_COUNT, steps));
}

double sink;

double time_micro(read_micro *read, uint32_t steps) {
    double start = seconds();
    for (size_t i = 0; i < READINGS; i++) sink += read(us[i], vs[i], EDGES, EDGE_COUNT, steps).kelvin;
    return seconds() - start;
}

double time_xy(read_xy *read, uint32_t steps) {
    double start = seconds();
    for (size_t i = 0; i < READINGS; i++) sink += read(xs[i], ys[i], EDGES, EDGE_COUNT, steps).kelvin;
    return seconds() - start;
}
