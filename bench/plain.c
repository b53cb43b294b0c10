/* The rules of document 01, and those of document 02 for spectral samples and for the curve between entries, in plain C, written
 * for the benchmark from the documents as a C programmer would write them for speed: constant tables, one curve for both sides of an
 * entry, distances carried from step to step, the machine's square root, the sums and limits of samples in one pass. */
#include "plain.h"
#include "plain_checks.h"

#include <math.h>

enum { PIECE = 2584, KELVIN_PLACES = 103360000, MOST_STEPS = 14 };
enum { MOST_SAMPLES = 471, SAMPLE_LIMIT = 16777215, OBSERVER_LIMIT = 4000000 };

static const uint16_t FIBONACCI[19] = {0, 1, 1, 2, 3, 5, 8, 13, 21, 34, 55, 89, 144, 233, 377, 610, 987, 1597, 2584};

/* Entry k (from 0) stands at place 2584 * (k + 2). */
static uint32_t entry_place(uint32_t k) { return PIECE * (k + 2); }

/* The curve about an entry, at t places past it, times 6 * 2584^3, with half of that added: a + t (b + t c + (t^2 - 2584^2) third).
 * The cubics on the two sides share the quadratic through the entry and its neighbours, and differ in the third difference only. */
typedef struct {
    int64_t a, b, c, third[2]; /* the third differences before and after the entry */
} curve;

typedef struct {
    curve u, v;
} curves;

#define SCALE (6LL * PIECE * PIECE * PIECE)
#define THIRD(w, x, y, z) ((z) - 3LL * (y) + 3LL * (x) - (w))
/* About the middle one of five entries. */
#define CURVE(w, x, y, z, next)                                                                           \
    {SCALE * (y) + SCALE / 2, 3LL * PIECE * PIECE * ((z) - (x)), 3LL * PIECE * ((z) - 2LL * (y) + (x)), \
     {THIRD(w, x, y, z), THIRD(x, y, z, next)}}

/* About the second entry to the last but one. The first number of the first row and the last of the last are no entries: they
 * continue the cubic through the first four entries, and that through the last four. */
static const curves CURVES[ENTRIES - 2] = {
    {CURVE(181720, 183870, 186730, 190310, 194620), CURVE(269820, 277150, 285090, 293300, 301440)},
    {CURVE(183870, 186730, 190310, 194620, 199620), CURVE(277150, 285090, 293300, 301440, 309230)},
    {CURVE(186730, 190310, 194620, 199620, 205240), CURVE(285090, 293300, 301440, 309230, 316490)},
    {CURVE(190310, 194620, 199620, 205240, 211420), CURVE(293300, 301440, 309230, 316490, 323130)},
    {CURVE(194620, 199620, 205240, 211420, 218070), CURVE(301440, 309230, 316490, 323130, 329100)},
    {CURVE(199620, 205240, 211420, 218070, 225110), CURVE(309230, 316490, 323130, 329100, 334400)},
    {CURVE(205240, 211420, 218070, 225110, 232470), CURVE(316490, 323130, 329100, 334400, 339040)},
    {CURVE(211420, 218070, 225110, 232470, 240100), CURVE(323130, 329100, 334400, 339040, 343080)},
    {CURVE(218070, 225110, 232470, 240100, 247920), CURVE(329100, 334400, 339040, 343080, 346550)},
    {CURVE(225110, 232470, 240100, 247920, 255910), CURVE(334400, 339040, 343080, 346550, 349510)},
    {CURVE(232470, 240100, 247920, 255910, 264000), CURVE(339040, 343080, 346550, 349510, 352000)},
    {CURVE(240100, 247920, 255910, 264000, 272170), CURVE(343080, 346550, 349510, 352000, 354070)},
    {CURVE(247920, 255910, 264000, 272170, 280390), CURVE(346550, 349510, 352000, 354070, 355770)},
    {CURVE(255910, 264000, 272170, 280390, 288620), CURVE(349510, 352000, 354070, 355770, 357140)},
    {CURVE(264000, 272170, 280390, 288620, 296850), CURVE(352000, 354070, 355770, 357140, 358230)},
    {CURVE(272170, 280390, 288620, 296850, 305040), CURVE(354070, 355770, 357140, 358230, 359070)},
    {CURVE(280390, 288620, 296850, 305040, 313190), CURVE(355770, 357140, 358230, 359070, 359680)},
    {CURVE(288620, 296850, 305040, 313190, 321280), CURVE(357140, 358230, 359070, 359680, 360120)},
    {CURVE(296850, 305040, 313190, 321280, 329300), CURVE(358230, 359070, 359680, 360120, 360380)},
    {CURVE(305040, 313190, 321280, 329300, 337230), CURVE(359070, 359680, 360120, 360380, 360510)},
    {CURVE(313190, 321280, 329300, 337230, 345070), CURVE(359680, 360120, 360380, 360510, 360530)},
    {CURVE(321280, 329300, 337230, 345070, 352820), CURVE(360120, 360380, 360510, 360530, 360460)},
};

/* The entry whose curves hold the whole bracket about an entry: itself, or at an end its neighbour. */
static uint32_t middle_entry(uint32_t k) { return k == 0 ? 1 : k == ENTRIES - 1 ? ENTRIES - 2 : k; }

static uint32_t on_curve(const curve *k, int64_t t) {
    return (uint32_t)((uint64_t)(k->a + t * (k->b + t * k->c + (t * t - PIECE * PIECE) * k->third[t >= 0])) / SCALE);
}

/* The locus t places past an entry, each coordinate to the nearest whole number, halves up. */
static inline point locus_point(const curves *c, int64_t t) { return (point){on_curve(&c->u, t), on_curve(&c->v, t)}; }

static inline int64_t distance_at(point reading, const curves *c, int64_t t) { return squared_distance(reading, locus_point(c, t)); }

int plain_edges_valid(const uint32_t *edges, size_t count) {
    if (count < 2 || count > 32 || edges[0] < 1600 || edges[count - 1] > 20001) return 0;
    for (size_t i = 1; i < count; i++)
        if (edges[i - 1] >= edges[i]) return 0;
    return 1;
}

static uint8_t class_of(const uint32_t *edges, size_t count, uint32_t low, uint32_t high, uint32_t best) {
    uint32_t hottest = best < low ? best : low, coolest = best > high ? best : high;
    for (size_t j = 0; j + 1 < count; j++)
        if (edges[j] * coolest <= KELVIN_PLACES && KELVIN_PLACES < edges[j + 1] * hottest) return (uint8_t)j;
    return CK_NO_CLASS;
}

/* The bracket [low, high], its inner points a and b with their distances, and the nearest point that was looked at, at last with
 * its v. */
typedef struct {
    uint32_t low, high, a, b, best, v;
    int64_t at_a, at_b, at_best;
} state;

static void look(state *s, uint32_t place, int64_t distance) {
    if (distance < s->at_best) s->best = place, s->at_best = distance;
}

static state search(point reading, nearest found, uint32_t steps) {
    uint32_t m = found.entry, first = m == 0 ? 0 : m - 1, last = m == ENTRIES - 1 ? m : m + 1, g = last - first;
    const curves *c = &CURVES[middle_entry(m) - 1];
    int64_t middle = entry_place(middle_entry(m));
    state s = {.low = entry_place(first), .high = entry_place(last), .best = entry_place(m), .at_best = found.distance};
    s.a = s.low + g * FIBONACCI[16], s.at_a = distance_at(reading, c, s.a - middle);
    s.b = s.low + g * FIBONACCI[17], s.at_b = distance_at(reading, c, s.b - middle);
    look(&s, s.a, s.at_a);
    look(&s, s.b, s.at_b);
    for (uint32_t j = 1; j <= steps; j++) {
        if (s.at_a < s.at_b) {
            s.high = s.b, s.b = s.a, s.at_b = s.at_a;
            s.a = s.low + g * FIBONACCI[16 - j], s.at_a = distance_at(reading, c, s.a - middle);
            look(&s, s.a, s.at_a);
        } else {
            s.low = s.a, s.a = s.b, s.at_a = s.at_b;
            s.b = s.low + g * FIBONACCI[17 - j], s.at_b = distance_at(reading, c, s.b - middle);
            look(&s, s.b, s.at_b);
        }
    }
    s.v = on_curve(&c->v, s.best - middle);
    return s;
}

static ck_whole refused(uint8_t refusal) { return (ck_whole){.refusal = refusal}; }

static ck_whole answer(point reading, const uint32_t *edges, size_t edge_count, uint32_t max_steps) {
    nearest found = nearest_entry(reading);
    uint8_t refusal = refusal_of(reading, found);
    if (refusal) return refused(refusal);
    uint32_t steps = max_steps < MOST_STEPS ? max_steps : MOST_STEPS;
    state s = search(reading, found, steps);
    int32_t root = (int32_t)sqrt((double)s.at_best); /* below 2^32, so the root of the double is exact enough to cut */
    return (ck_whole){.place = s.best,
                      .low = s.low,
                      .high = s.high,
                      .duv = reading.v >= s.v ? root : -root,
                      .steps = (uint8_t)steps,
                      .class_index = class_of(edges, edge_count, s.low, s.high, s.best)};
}

static ck_answer with_floats(ck_whole whole) {
    if (whole.refusal) return (ck_answer){.whole = whole};
    return (ck_answer){(double)KELVIN_PLACES / whole.place, whole.duv / 1e6, whole};
}

ck_whole plain_answer(uint32_t u, uint32_t v, const uint32_t *edges, size_t edge_count, uint32_t max_steps) {
    if (!in_whole_range(u, v)) return refused(CK_OUT_OF_RANGE);
    return answer((point){u, v}, edges, edge_count, max_steps);
}

ck_whole plain_whole(uint32_t u, uint32_t v, const uint32_t *edges, size_t edge_count, uint32_t max_steps) {
    if (!plain_edges_valid(edges, edge_count)) return refused(CK_BAD_EDGES);
    return plain_answer(u, v, edges, edge_count, max_steps);
}

ck_answer plain_read_micro(uint32_t u, uint32_t v, const uint32_t *edges, size_t edge_count, uint32_t max_steps) {
    return with_floats(plain_whole(u, v, edges, edge_count, max_steps));
}

ck_answer plain_read_xy(float x, float y, const uint32_t *edges, size_t edge_count, uint32_t max_steps) {
    if (!plain_edges_valid(edges, edge_count)) return with_floats(refused(CK_BAD_EDGES));
    uint8_t refusal = refusal_of_xy(x, y);
    if (refusal) return with_floats(refused(refusal));
    return with_floats(answer(point_of_xy(x, y), edges, edge_count, max_steps));
}

/* X, Y and Z, and what tells whether a number was over its limit: all bits of the samples, whose limit is 2^24 - 1, and the
 * largest number of the tables. A sum can wrap only where a number was over, and then it is not used. */
typedef struct {
    uint64_t x, y, z;
    uint32_t sample_bits, observer_largest;
} sums;

static uint32_t larger(uint32_t a, uint32_t b) { return a > b ? a : b; }

static sums sum_products(const uint32_t *samples, const uint32_t *x_bar, const uint32_t *y_bar, const uint32_t *z_bar, size_t count) {
    sums s = {0};
    for (size_t i = 0; i < count; i++) {
        uint64_t sample = samples[i];
        s.x += sample * x_bar[i], s.y += sample * y_bar[i], s.z += sample * z_bar[i];
        s.sample_bits |= samples[i];
        s.observer_largest = larger(larger(larger(s.observer_largest, x_bar[i]), y_bar[i]), z_bar[i]);
    }
    return s;
}

/* The sums over the least power of two that leaves the largest under 2^32, then the XYZ rule. */
static ck_whole answer_sums(sums s, const uint32_t *edges, size_t edge_count, uint32_t max_steps) {
    uint64_t high = (s.x | s.y | s.z) >> 32;
    int shift = high == 0 ? 0 : 64 - __builtin_clzll(high);
    uint64_t x = s.x >> shift, y = s.y >> shift, z = s.z >> shift;
    if (y == 0) return refused(CK_TOO_DARK);
    return answer(point_over(x, y, x + 15 * y + 3 * z), edges, edge_count, max_steps);
}

ck_answer plain_read_samples(const uint32_t *samples, size_t sample_count, const uint32_t *x_bar, size_t x_count,
                             const uint32_t *y_bar, size_t y_count, const uint32_t *z_bar, size_t z_count,
                             const uint32_t *edges, size_t edge_count, uint32_t max_steps) {
    if (!plain_edges_valid(edges, edge_count)) return with_floats(refused(CK_BAD_EDGES));
    if (sample_count == 0 || sample_count > MOST_SAMPLES || x_count != sample_count || y_count != sample_count || z_count != sample_count)
        return with_floats(refused(CK_BAD_LENGTHS));
    sums s = sum_products(samples, x_bar, y_bar, z_bar, sample_count);
    if (s.sample_bits > SAMPLE_LIMIT || s.observer_largest > OBSERVER_LIMIT) return with_floats(refused(CK_SAMPLE_TOO_LARGE));
    return with_floats(answer_sums(s, edges, edge_count, max_steps));
}
