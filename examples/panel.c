/* What a panel shows of a lamp: its nearest ready place, and the temperature there in whole kelvin. In the repository's root, once `make lib`
 * has built the library:
 *     gcc -Iinclude examples/panel.c target/lib/libcradlekeel.a -o target/panel && target/panel micro 219300 327100
 * `micro` takes CIE 1960 u and v in millionths, and no float is used then; `xy` takes CIE 1931 x and y. The exit status is 0 for a
 * temperature, 1 for a refusal and 2 for wrong usage. */
#include <inttypes.h>
#include <stdio.h>
#include <stdlib.h>
#include <string.h>
#include "cradlekeel.h"

static const char *const reasons[] = {
    [CK_NOT_FINITE] = "x or y is infinite or not a number",
    [CK_OUT_OF_RANGE] = "x or y is not above -0.0000005 and below 1, or u or v is over 4,000,000",
    [CK_TOO_DARK] = "Y is less than 1",
    [CK_TOO_FAR] = "too far from the blackbody locus",
    [CK_TOO_HOT] = "beyond the locus's 20,000 K end",
    [CK_TOO_COOL] = "beyond the locus's 1600 K end",
};

/* 1 where a word is a whole number of 1 to 7 digits. */
static int read_whole(const char *word, uint32_t *number)
{
    char digits[8], more;
    if (sscanf(word, "%7[0-9]%c", digits, &more) != 1) return 0;
    *number = (uint32_t)strtoul(digits, NULL, 10);
    return 1;
}

static int read_float(const char *word, float *number)
{
    char more;
    return sscanf(word, "%f%c", number, &more) == 1;
}

int main(int argc, char **argv)
{
    uint32_t u, v;
    float x, y;
    ck_coarse a;
    if (argc == 4 && strcmp(argv[1], "micro") == 0 && read_whole(argv[2], &u) && read_whole(argv[3], &v)) {
        a = ck_coarse_micro(u, v);
    } else if (argc == 4 && strcmp(argv[1], "xy") == 0 && read_float(argv[2], &x) && read_float(argv[3], &y)) {
        a = ck_coarse_xy(x, y);
    } else {
        fprintf(stderr, "usage: panel micro U V | panel xy X Y    (as: panel micro 219300 327100)\n");
        return 2;
    }
    if (a.refusal != CK_ACCEPTED) {
        printf("refusal %d: %s\n", a.refusal, reasons[a.refusal]);
        return 1;
    }
    printf("place %" PRIu32 ", %" PRIu32 " K\n", a.place, (103360000 + a.place / 2) / a.place);
    return 0;
}
