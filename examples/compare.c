/* Prints where two record files differ. In the repository's root, once `make lib` has built the library:
 *     printf '219300 327100\n255910 349510 14\n' | bin/cradlekeel save --replace target/one.rec
 *     printf '219300 327100\n255910 349510\n240000 335000\n' | bin/cradlekeel save --replace target/other.rec
 *     gcc -Iinclude examples/compare.c target/lib/libcradlekeel.a -o target/compare && target/compare target/one.rec target/other.rec
 * The exit status is that of cmp: 0 where nothing differs, 1 where something does, 2 where the files could not be compared. */
#include <inttypes.h>
#include <stdio.h>
#include "cradlekeel.h"

static const char *const fields[] = {"u", "v", "place", "low", "high", "duv", "steps", "class"}; /* by CK_FIELD_U and so on */

static uint8_t first[CK_LARGEST_FILE + 1], second[CK_LARGEST_FILE + 1]; /* with room for a byte too many, which shows that a file is too long */
static int64_t list[CK_MOST_DIFFERENCE_NUMBERS];

/* Reads a file; 0 where that fails, and then it has said why. */
static int read_file(const char *path, uint8_t *file, size_t *length)
{
    FILE *from = fopen(path, "rb");
    *length = from ? fread(file, 1, CK_LARGEST_FILE + 1, from) : 0;
    if (!from || ferror(from)) {
        perror(path);
        return 0;
    }
    fclose(from);
    if (*length > CK_LARGEST_FILE) fprintf(stderr, "compare: %s: longer than any record file\n", path);
    return *length <= CK_LARGEST_FILE;
}

static void print_difference(const int64_t *numbers, char **paths)
{
    printf("record %" PRId64 ": ", numbers[0]);
    if (numbers[1] == CK_ONLY_FIRST) printf("only in %s\n", paths[0]);
    else if (numbers[1] == CK_ONLY_SECOND) printf("only in %s\n", paths[1]);
    else printf("%s %" PRId64 " | %" PRId64 "\n", fields[numbers[1]], numbers[2], numbers[3]);
}

int main(int argc, char **argv)
{
    size_t first_length, second_length;
    if (argc != 3) {
        fprintf(stderr, "usage: compare FIRST SECOND\n");
        return 2;
    }
    if (!read_file(argv[1], first, &first_length) || !read_file(argv[2], second, &second_length)) return 2;
    ck_compared compared = ck_compare_files(first, first_length, second, second_length, list, CK_MOST_DIFFERENCE_NUMBERS);
    if (compared.refusal != CK_ACCEPTED) { /* of file 1 or 2: there is room for all that two files can differ in */
        fprintf(stderr, "compare: %s: refusal %d: no record file, or a damaged one\n", argv[compared.file], compared.refusal);
        return 2;
    }
    for (size_t i = 0; i < compared.count; i++) print_difference(list + CK_DIFFERENCE_NUMBERS * i, argv + 1);
    if (fflush(stdout) != 0 || ferror(stdout)) { /* of any print before, too */
        fprintf(stderr, "compare: standard output could not be written\n");
        return 2;
    }
    return compared.count != 0;
}
