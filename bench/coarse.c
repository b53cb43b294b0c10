/* Times a coarse reading by the library and by the same rules in plain C. First the answers to readings of every kind, accepted and refused,
 * are held to each other. Refused readings are timed too: the library makes its table for them as well, and looks at no ready point. */
#include "measure.h"
#include "plain_coarse.h"
#include "readings.h"

#include <stdio.h>
#include <stdlib.h>
#include <string.h>

enum { CHECKED = 600000, TIMED = 5000, ROUNDS = 101, LIMIT = 4000000 };

enum { PROVED, PLAIN, DOWN, BOUNDED, WAYS };
static const char *const NAMES[WAYS] = {"Cradlekeel", "plain C of the same rules", "plain C, from the last point to the first",
                                        "plain C, with the library's bound"};
static coarse_micro *const MICRO[WAYS] = {ck_coarse_micro, plain_coarse_micro, plain_coarse_micro_down, plain_coarse_micro_bounded};
static coarse_xy *const XY[WAYS] = {ck_coarse_xy, plain_coarse_xy, plain_coarse_xy_down, plain_coarse_xy_bounded};

/* --- Equal answers ------------------------------------------------------------------------------------------------- */

typedef struct {
    uint32_t u, v;
    float x, y;
} reading;

static float any_float(void) {
    uint32_t bits = (uint32_t)below(1ull << 32);
    float value;
    memcpy(&value, &bits, sizeof value);
    return value;
}

/* Halfway from a ready point to the next, or a millionth beside that, where two are as near or nearly. */
static reading between_ready_points(void) {
    uint32_t u, v, next_u, next_v;
    size_t k = (size_t)below(READY_COUNT - 1);
    plain_ready_point(k, &u, &v);
    plain_ready_point(k + 1, &next_u, &next_v);
    return (reading){(u + next_u) / 2 + (uint32_t)below(2), (v + next_v) / 2 + (uint32_t)below(2), any_float(), any_float()};
}

/* About the locus, anywhere in the range, of any bits, or between two ready points. */
static reading any_reading(void) {
    switch (below(4)) {
    case 0: offer_reading(0); return (reading){us[0], vs[0], xs[0], ys[0]};
    case 1: return (reading){(uint32_t)below(LIMIT + 2), (uint32_t)below(LIMIT + 2), (float)below(LIMIT) / LIMIT, (float)below(LIMIT) / LIMIT};
    case 2: return (reading){(uint32_t)below(1ull << 32), (uint32_t)below(1ull << 32), any_float(), any_float()};
    default: return between_ready_points();
    }
}

static int same_coarse(ck_coarse a, ck_coarse b) { return a.place == b.place && a.refusal == b.refusal; }

enum { MICRO_FORM, XY_FORM, FORMS, MOST_REFUSALS = 8 };

/* Counts the refusal that is met in each form. */
static void require_same(reading r, size_t met[FORMS][MOST_REFUSALS]) {
    ck_coarse micro = ck_coarse_micro(r.u, r.v), xy = ck_coarse_xy(r.x, r.y);
    for (int way = PLAIN; way < WAYS; way++) {
        if (same_coarse(micro, MICRO[way](r.u, r.v)) && same_coarse(xy, XY[way](r.x, r.y))) continue;
        printf("DIFFERENT ANSWERS: %s, at u %u v %u, x %a y %a\n", NAMES[way], r.u, r.v, r.x, r.y);
        exit(1);
    }
    met[MICRO_FORM][micro.refusal]++, met[XY_FORM][xy.refusal]++;
}

/* The readings have both outcomes, and every refusal that there is in their form. */
static void require_equal_answers(void) {
    static const uint8_t outcomes[] = {CK_ACCEPTED, CK_OUT_OF_RANGE, CK_TOO_FAR, CK_TOO_HOT, CK_TOO_COOL};
    size_t met[FORMS][MOST_REFUSALS] = {{0}}, least;
    for (int i = 0; i < CHECKED; i++) require_same(any_reading(), met);
    least = met[XY_FORM][CK_NOT_FINITE];
    for (int form = 0; form < FORMS; form++)
        for (size_t k = 0; k < sizeof outcomes; k++)
            if (met[form][outcomes[k]] < least) least = met[form][outcomes[k]];
    if (least == 0) {
        printf("NO READING for one of the refusals\n");
        exit(1);
    }
    printf("%d readings as u, v and as many as x, y, %zu or more for each refusal: the library and the plain C give equal answers.\n\n", CHECKED,
           least);
}

/* --- Time ---------------------------------------------------------------------------------------------------------- */

enum { ACCEPTED, OUT_OF_RANGE, TOO_FAR, SETS };
static const uint8_t REFUSALS[SETS] = {CK_ACCEPTED, CK_OUT_OF_RANGE, CK_TOO_FAR};
static uint32_t set_u[SETS][TIMED], set_v[SETS][TIMED];

static void make_sets(void) {
    for (size_t i = 0; i < TIMED;) i += (size_t)offer_reading(i);
    for (size_t i = 0; i < TIMED; i++) {
        set_u[ACCEPTED][i] = us[i], set_v[ACCEPTED][i] = vs[i];
        set_u[OUT_OF_RANGE][i] = (uint32_t)(LIMIT + 1 + below(LIMIT)), set_v[OUT_OF_RANGE][i] = vs[i];
        set_u[TOO_FAR][i] = (uint32_t)(500000 + below(LIMIT / 2)), set_v[TOO_FAR][i] = vs[i];
    }
}

static size_t places; /* what was answered, so that no call is left out */

static double time_set(coarse_micro *read, int set) {
    size_t refusals = 0;
    double start = seconds();
    for (size_t i = 0; i < TIMED; i++) {
        ck_coarse a = read(set_u[set][i], set_v[set][i]);
        places += a.place, refusals += a.refusal;
    }
    double time = seconds() - start;
    if (refusals == TIMED * (size_t)REFUSALS[set]) return time;
    printf("ANOTHER OUTCOME than refusal %d\n", REFUSALS[set]);
    exit(1);
}

static double time_floats(coarse_xy *read) {
    double start = seconds();
    for (size_t i = 0; i < TIMED; i++) places += read(xs[i], ys[i]).place;
    return seconds() - start;
}

static double time_scan(nearest_ready *scan) {
    double start = seconds();
    for (size_t i = 0; i < TIMED; i++) places += scan(us[i], vs[i], 0); /* neither way has a bound */
    return seconds() - start;
}

static double micro[SETS][WAYS], xy[WAYS], scans[WAYS];

/* One round: every function once, so that other work on the machine falls on all of them. */
static void time_all(void) {
    for (int way = 0; way < WAYS; way++) {
        for (int set = 0; set < SETS; set++) keep_least(&micro[set][way], time_set(MICRO[way], set));
        keep_least(&xy[way], time_floats(XY[way]));
    }
    keep_least(&scans[PLAIN], time_scan(plain_nearest_ready));
    keep_least(&scans[DOWN], time_scan(plain_nearest_ready_down));
}

static double nanoseconds(double time) { return time / TIMED * 1e9; }

static void print_ratios(void) {
    printf("Processor time of an accepted reading over that of the plain C, which takes %.0f ns for u and v and %.0f ns for x and y here (best\n"
           "of %d rounds):\n\n",
           nanoseconds(micro[ACCEPTED][PLAIN]), nanoseconds(xy[PLAIN]), ROUNDS);
    printf("| %-41s | u and v | x and y |\n|-------------------------------------------|--------:|--------:|\n", "");
    for (int way = 0; way < WAYS; way++)
        printf("| %-41s |    %4.2f |    %4.2f |\n", NAMES[way], micro[ACCEPTED][way] / micro[ACCEPTED][PLAIN], xy[way] / xy[PLAIN]);
}

static void print_part(const char *name, double time) {
    printf("| %-72s |    %4.0f |              %4.2f |\n", name, nanoseconds(time), time / micro[ACCEPTED][PROVED]);
}

static void print_parts(void) {
    printf("\nWhat such a reading, as u and v, takes the library, and parts of it:\n\n");
    printf("| %-72s |      ns | of the whole call |\n|%s|--------:|------------------:|\n", "",
           "--------------------------------------------------------------------------");
    print_part("the whole call", micro[ACCEPTED][PROVED]);
    print_part("to make the table: a call that is refused with 3 does little else", micro[OUT_OF_RANGE][PROVED]);
    print_part("to make it and check: a call that is refused with 5 looks at 24 points", micro[TOO_FAR][PROVED]);
    print_part("to look at the ready points: the whole call less the one before", micro[ACCEPTED][PROVED] - micro[TOO_FAR][PROVED]);
    print_part("plain C, a call that is refused with 5", micro[TOO_FAR][PLAIN]);
    print_part("plain C, to look at the ready points", scans[PLAIN]);
    print_part("plain C, to look at the ready points from the last to the first", scans[DOWN]);
}

int main(void) {
    require_equal_answers();
    make_sets();
    for (int round = 0; round < ROUNDS; round++) time_all();
    print_ratios();
    print_parts();
    return places == 0;
}
