/* What the CIE 1931 x and y of a lamp come to. In the repository's root, once `make lib` has built the library:
 *     gcc -Iinclude examples/lamp.c target/lib/libcradlekeel.a -o target/lamp && target/lamp 0.3127 0.3290 */
#include <stdio.h>
#include "cradlekeel.h"

static const uint32_t edges[] = {1600, 2500, 3500, 5000, 20001}; /* class 0 is 1600 K to under 2500 K, and so on */

static const char *const reasons[] = {
    [CK_BAD_EDGES] = "the class edges break their rule",
    [CK_NOT_FINITE] = "x or y is infinite or not a number",
    [CK_OUT_OF_RANGE] = "x or y is not above -0.0000005 and below 1",
    [CK_TOO_FAR] = "too far from the blackbody locus",
    [CK_TOO_HOT] = "beyond the locus's 20,000 K end",
    [CK_TOO_COOL] = "beyond the locus's 1600 K end",
};

int main(int argc, char **argv)
{
    float x, y;
    char more;
    if (argc != 3 || sscanf(argv[1], "%f%c", &x, &more) != 1 || sscanf(argv[2], "%f%c", &y, &more) != 1) {
        fprintf(stderr, "usage: lamp X Y    (CIE 1931, as: lamp 0.3127 0.3290)\n");
        return 2;
    }
    ck_answer a = ck_read_xy(x, y, edges, 5, 14);
    if (a.whole.refusal != CK_ACCEPTED) {
        printf("refusal %d: %s\n", a.whole.refusal, reasons[a.whole.refusal]);
        return 1;
    }
    printf("%.1f K, Duv %+.6f, range %.1f to %.1f K, ", a.kelvin, a.duv, 103360000.0 / a.whole.high, 103360000.0 / a.whole.low);
    if (a.whole.class_index == CK_NO_CLASS) puts("no class");
    else printf("class %d\n", a.whole.class_index);
    return 0;
}
