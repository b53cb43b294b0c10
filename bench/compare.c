/* Times one call of Cradlekeel's C functions, of the same rules in plain C and of lcms2's cmsTempFromWhitePoint on the same
 * readings. First every answer of the library is held to the plain C's, field by field, the doubles bit by bit. */
#include "measure.h"
#include "plain.h"
#include "readings.h"

#include <lcms2.h>
#include <stdio.h>
#include <stdlib.h>

enum { ROUNDS = 21 };

static cmsCIExyY white_points[READINGS];

/* Reading i, as a white point too; 1 where Cradlekeel's rules and lcms2 both answer it. */
static int offer(size_t i) {
    double kelvin;
    int answered = offer_reading(i);
    white_points[i] = (cmsCIExyY){xs[i], ys[i], 1};
    return answered && cmsTempFromWhitePoint(&kelvin, &white_points[i]);
}

static const calls PROVED = {ck_read_micro, ck_read_xy}, PLAIN = {plain_read_micro, plain_read_xy};

static void require_equal_answers(void) {
    for (size_t i = 0; i < READINGS; i++)
        for (uint32_t steps = 0; steps <= 15; steps++)
            if (!same_answers(&PROVED, &PLAIN, i, steps)) {
                printf("DIFFERENT ANSWERS at u %u v %u, x %a y %a, %u steps\n", us[i], vs[i], xs[i], ys[i], steps);
                exit(1);
            }
}

static double time_lcms2(void) {
    double start = seconds(), kelvin = 0;
    for (size_t i = 0; i < READINGS; i++) {
        cmsTempFromWhitePoint(&kelvin, &white_points[i]);
        sink += kelvin;
    }
    return seconds() - start;
}

static double lcms2, micro[STEP_COUNTS], xy[STEP_COUNTS], plain_micro[STEP_COUNTS], plain_xy[STEP_COUNTS];

/* One round: every function once, so that other work on the machine falls on all of them. */
static void time_all(void) {
    keep_least(&lcms2, time_lcms2());
    for (size_t k = 0; k < STEP_COUNTS; k++) {
        keep_least(&micro[k], time_micro(PROVED.micro, STEPS[k]));
        keep_least(&plain_micro[k], time_micro(PLAIN.micro, STEPS[k]));
        keep_least(&xy[k], time_xy(PROVED.xy, STEPS[k]));
        keep_least(&plain_xy[k], time_xy(PLAIN.xy, STEPS[k]));
    }
}

int main(void) {
    for (size_t i = 0; i < READINGS;) i += (size_t)offer(i);
    require_equal_answers();
    printf("%d readings: the library and the plain C give equal answers at 0 to 15 steps, as u, v and as x, y.\n\n", READINGS);
    for (int round = 0; round < ROUNDS; round++) time_all();
    printf("Processor time of a call over that of lcms2's cmsTempFromWhitePoint, %.0f ns here (best of %d rounds):\n\n",
           lcms2 / READINGS * 1e9, ROUNDS);
    print_head();
    const double units[STEP_COUNTS] = {lcms2, lcms2, lcms2};
    print_row("Cradlekeel, ck_read_micro", micro, units);
    print_row("plain C of the same rules, u and v", plain_micro, units);
    print_row("Cradlekeel, ck_read_xy", xy, units);
    print_row("plain C of the same rules, x and y", plain_xy, units);
    return sink == 0;
}
