/* Times one call of ck_read_samples and of the same rules in plain C on the same spectra, with the CIE 1931 tables that it reads
 * from standard input. First every answer of the library is held to the plain C's, field by field, the doubles bit by bit. */
#include "measure.h"
#include "plain.h"

#include <math.h>
#include <stdio.h>
#include <stdlib.h>

enum { SPECTRA = 300, CALLS = 5000, ROUNDS = 101 };
enum { FIRST_NM = 360, LAST_NM = 830, MOST = LAST_NM - FIRST_NM + 1, FULL_SCALE = 16777215 };

/* All spectra and the tables at `first`, `first + step`, .. nm, and the least time of all calls at each number of steps. */
typedef struct {
    const char *name;
    uint32_t count, first, step;
    uint32_t samples[SPECTRA][MOST], x_bar[MOST], y_bar[MOST], z_bar[MOST];
    double proved[STEP_COUNTS], plain[STEP_COUNTS];
} sampling;

static sampling samplings[] = {{.name = "81 samples, 380 to 780 nm", .count = 81, .first = 380, .step = 5},
                               {.name = "471 samples, 360 to 830 nm", .count = 471, .first = 360, .step = 1}};
enum { SAMPLINGS = sizeof samplings / sizeof *samplings };

static void take_row(sampling *s, uint32_t nm, const uint32_t row[3]) {
    uint32_t k = (nm - s->first) / s->step;
    if (nm < s->first || (nm - s->first) % s->step != 0 || k >= s->count) return;
    s->x_bar[k] = row[0], s->y_bar[k] = row[1], s->z_bar[k] = row[2];
}

static void read_tables(void) {
    for (uint32_t nm = FIRST_NM; nm <= LAST_NM; nm++) {
        uint32_t at, row[3];
        if (scanf("%u,%u,%u,%u", &at, &row[0], &row[1], &row[2]) != 4 || at != nm) {
            printf("NO TABLES: the row for %u nm cannot be read\n", nm);
            exit(1);
        }
        for (size_t j = 0; j < SAMPLINGS; j++) take_row(&samplings[j], nm, row);
    }
}

/* Two blackbodies, the second with its share, and a narrow band. */
typedef struct {
    double kelvin, other_kelvin, other_share, band, band_nm;
} lamp;

static double between(double low, double high) { return low + (high - low) * (double)below(1000001) / 1e6; }

static double random_kelvin(void) { return 1e6 / between(52, 620); }

/* One blackbody alone, or a mixture. */
static lamp random_lamp(int mixed) {
    lamp l = {.kelvin = random_kelvin(), .other_kelvin = 5000};
    if (!mixed) return l;
    l.other_kelvin = random_kelvin(), l.other_share = between(0, 1);
    l.band = between(0, 1), l.band_nm = between(430, 670);
    return l;
}

/* Planck's law, 1 at 560 nm. */
static double blackbody(double kelvin, double nm) {
    return pow(560 / nm, 5) * expm1(1.4388e7 / (560 * kelvin)) / expm1(1.4388e7 / (nm * kelvin));
}

static double power_at(const lamp *l, double nm) {
    return (1 - l->other_share) * blackbody(l->kelvin, nm) + l->other_share * blackbody(l->other_kelvin, nm) +
           l->band * exp(-pow((nm - l->band_nm) / 12, 2));
}

static double largest_power(const lamp *l) {
    double largest = 0;
    for (int nm = FIRST_NM; nm <= LAST_NM; nm++) largest = fmax(largest, power_at(l, nm));
    return largest;
}

static ck_answer call(read_samples *read, const sampling *s, size_t i, uint32_t steps) {
    return read(s->samples[i], s->count, s->x_bar, s->count, s->y_bar, s->count, s->z_bar, s->count, EDGES, EDGE_COUNT, steps);
}

/* Makes the lamp spectrum i; 1 where it is answered. */
static int take_lamp(sampling *s, size_t i, const lamp *l, double scale) {
    for (uint32_t k = 0; k < s->count; k++) s->samples[i][k] = (uint32_t)(scale * power_at(l, s->first + k * s->step) + 0.5);
    return call(plain_read_samples, s, i, 0).whole.refusal == CK_ACCEPTED;
}

/* A spectrum i whose largest sample is from 31 to 16,777,215; 1 where it is answered in every sampling. */
static int offer(size_t i) {
    lamp l = random_lamp(i % 2);
    double scale = (FULL_SCALE >> below(20)) / largest_power(&l);
    int answered = 1;
    for (size_t j = 0; j < SAMPLINGS; j++) answered &= take_lamp(&samplings[j], i, &l, scale);
    return answered;
}

static void require_equal_answers(const sampling *s) {
    for (size_t i = 0; i < SPECTRA; i++)
        for (uint32_t steps = 0; steps <= 15; steps++)
            if (!same(call(ck_read_samples, s, i, steps), call(plain_read_samples, s, i, steps))) {
                printf("DIFFERENT ANSWERS to spectrum %zu, %s, %u steps\n", i, s->name, steps);
                exit(1);
            }
}

static uint16_t order[CALLS]; /* spectra in random order, too many for the processor to learn */
static double sink;           /* what was answered, so that no call is left out */

static double time_calls(read_samples *read, const sampling *s, uint32_t steps) {
    double start = seconds();
    for (size_t i = 0; i < CALLS; i++) sink += call(read, s, order[i], steps).kelvin;
    return seconds() - start;
}

/* One round: one function right after the other, so that other work on the machine falls on both. */
static void time_both(sampling *s) {
    for (size_t k = 0; k < STEP_COUNTS; k++) {
        keep_least(&s->proved[k], time_calls(ck_read_samples, s, STEPS[k]));
        keep_least(&s->plain[k], time_calls(plain_read_samples, s, STEPS[k]));
    }
}

static double nanoseconds(double time) { return time / CALLS * 1e9; }

int main(void) {
    read_tables();
    for (size_t i = 0; i < SPECTRA;) i += (size_t)offer(i);
    for (size_t i = 0; i < CALLS; i++) order[i] = (uint16_t)below(SPECTRA);
    for (size_t j = 0; j < SAMPLINGS; j++) require_equal_answers(&samplings[j]);
    printf("%d spectra: the library and the plain C give equal answers at 0 to 15 steps, with 81 samples and with 471.\n\n", SPECTRA);
    for (int round = 0; round < ROUNDS; round++)
        for (size_t j = 0; j < SAMPLINGS; j++) time_both(&samplings[j]);
    printf("Processor time of a call of ck_read_samples over that of the plain C, which at 0 steps takes %.0f ns with 81 samples and\n"
           "%.0f ns with 471 here (best of %d rounds):\n\n",
           nanoseconds(samplings[0].plain[0]), nanoseconds(samplings[1].plain[0]), ROUNDS);
    print_head();
    for (size_t j = 0; j < SAMPLINGS; j++) print_row(samplings[j].name, samplings[j].proved, samplings[j].plain);
    return sink == 0;
}
