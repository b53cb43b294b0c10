/* Times one call of Cradlekeel's C functions as they are now and as they were at another commit, on the same readings. First every
 * answer of the one is held to the other's, field by field, the doubles bit by bit. */
#include "measure.h"
#include "readings.h"

#include <stdio.h>

enum { ROUNDS = 41, MOST_STEPS = 15, COMPARED = READINGS * (MOST_STEPS + 1) };

/* ck_read_micro and ck_read_xy of the other commit, as bench/before renames them. */
read_micro before_read_micro;
read_xy before_read_xy;

static const calls NOW = {ck_read_micro, ck_read_xy}, BEFORE = {before_read_micro, before_read_xy};

static int count_different(void) {
    int different = 0;
    for (size_t i = 0; i < READINGS; i++)
        for (uint32_t steps = 0; steps <= MOST_STEPS; steps++) different += !same_answers(&NOW, &BEFORE, i, steps);
    return different;
}

/* The least times at each number of steps. */
typedef struct {
    double micro[STEP_COUNTS], xy[STEP_COUNTS];
} least;

static least now, before;

/* One round: one library right after the other, so that other work on the machine falls on both. */
static void time_both(void) {
    for (size_t k = 0; k < STEP_COUNTS; k++) {
        keep_least(&now.micro[k], time_micro(NOW.micro, STEPS[k]));
        keep_least(&before.micro[k], time_micro(BEFORE.micro, STEPS[k]));
        keep_least(&now.xy[k], time_xy(NOW.xy, STEPS[k]));
        keep_least(&before.xy[k], time_xy(BEFORE.xy, STEPS[k]));
    }
}

static void print_nanoseconds(const char *name, const double *times) {
    printf("%s %.1f, %.1f and %.1f ns", name, times[0] / READINGS * 1e9, times[1] / READINGS * 1e9, times[2] / READINGS * 1e9);
}

int main(int count, char **words) {
    const char *commit = count > 1 ? words[1] : "the other commit";
    for (size_t i = 0; i < READINGS;) i += (size_t)offer_reading(i);
    int different = count_different();
    if (different != 0) {
        printf("DIFFERENT ANSWERS: %d of %d are not those of %s\n", different, COMPARED, commit);
        return 1;
    }
    printf("%d readings: the library gives the answers that it gave at %s, at 0 to 15 steps, as u, v and as x, y.\n\n", READINGS, commit);
    for (int round = 0; round < ROUNDS; round++) time_both();
    printf("Processor time of a call over that of the same call at %s, where at 0, 6 and 14 steps\n", commit);
    print_nanoseconds("ck_read_micro takes", before.micro);
    print_nanoseconds(" and ck_read_xy", before.xy);
    printf(" here (best of %d rounds):\n\n", ROUNDS);
    print_head();
    print_row("ck_read_micro", now.micro, before.micro);
    print_row("ck_read_xy", now.xy, before.xy);
    return sink == 0;
}
