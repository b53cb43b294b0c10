/* What the light of a blackbody comes to, its spectrum taken from Planck's law. In the repository's root, once `make lib` has
 * built the library:
 *     gcc -Iinclude examples/samples.c target/lib/libcradlekeel.a -lm -o target/samples && target/samples 2856 */
#include <inttypes.h>
#include <math.h>
#include <stdio.h>
#include "cradlekeel.h"

enum { COUNT = 471, LARGEST_SAMPLE = 16777215 };                 /* CIE's table of 1931 goes from 360 to 830 nm by 1 nm */
static const uint32_t edges[] = {1600, 2500, 3500, 5000, 20001}; /* class 0 is 1600 K to under 2500 K, and so on */

int main(int argc, char **argv)
{
    static uint32_t samples[COUNT], x_bar[COUNT], y_bar[COUNT], z_bar[COUNT];
    static double power[COUNT]; /* a meter's values would go here: any unit, none below zero */
    double kelvin, largest = 0;
    char more;
    FILE *table = fopen("data/cie1931_2deg_1nm_millionths.csv", "r");
    if (!table || argc != 2 || sscanf(argv[1], "%lf%c", &kelvin, &more) != 1 || !(kelvin >= 100 && kelvin <= 1e6)) {
        fprintf(stderr, "usage: samples KELVIN    (100 to 1000000, as: samples 2856; run it in the repository's root)\n");
        return 2;
    }
    for (int i = 0; i < COUNT; i++) {
        uint32_t nm;
        if (fscanf(table, "%" SCNu32 ",%" SCNu32 ",%" SCNu32 ",%" SCNu32, &nm, &x_bar[i], &y_bar[i], &z_bar[i]) != 4) {
            fprintf(stderr, "samples: row %d of the table cannot be read\n", i + 1);
            return 2;
        }
        power[i] = pow(nm, -5) / expm1(1.4388e7 / (nm * kelvin));
        largest = fmax(largest, power[i]);
    }
    fclose(table);
    for (int i = 0; i < COUNT; i++) samples[i] = (uint32_t)(power[i] / largest * LARGEST_SAMPLE + 0.5);
    ck_answer a = ck_read_samples(samples, COUNT, x_bar, COUNT, y_bar, COUNT, z_bar, COUNT, edges, 5, 14);
    if (a.whole.refusal == CK_ACCEPTED) printf("%.1f K, Duv %+.6f\n", a.kelvin, a.duv);
    else printf("refusal %d; include/cradlekeel.h says why\n", a.whole.refusal);
    return a.whole.refusal != CK_ACCEPTED;
}
