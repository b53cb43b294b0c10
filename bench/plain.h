/* The rules of documents 01 and 02 in plain C: what the benchmark compares the proved library with. */
#ifndef PLAIN_H
#define PLAIN_H

#include "../include/cradlekeel.h"

ck_answer plain_read_xy(float x, float y, const uint32_t *edges, size_t edge_count, uint32_t max_steps);
ck_answer plain_read_micro(uint32_t u, uint32_t v, const uint32_t *edges, size_t edge_count, uint32_t max_steps);

/* The type of ck_read_samples too. */
typedef ck_answer read_samples(const uint32_t *samples, size_t sample_count, const uint32_t *x_bar, size_t x_count,
                               const uint32_t *y_bar, size_t y_count, const uint32_t *z_bar, size_t z_count,
                               const uint32_t *edges, size_t edge_count, uint32_t max_steps);
read_samples plain_read_samples;

/* The whole-number answer alone, as the text filter needs it. */
ck_whole plain_whole(uint32_t u, uint32_t v, const uint32_t *edges, size_t edge_count, uint32_t max_steps);

/* The same in two parts, for many readings with the same edges: whether these are good, and the answer where they are. */
int plain_edges_valid(const uint32_t *edges, size_t count);
ck_whole plain_answer(uint32_t u, uint32_t v, const uint32_t *edges, size_t edge_count, uint32_t max_steps);

#endif
