/* Runs the vectors of comparisons of tests/make_vectors.py through ck_compare_files, lists that were worked out by hand, and the cases
 * that only C can make.
 *
 *     compare_test crates/vectors/stdin crates/vectors/stdout
 *
 * Both files can be read and not written, and end before a page that cannot be touched, so that a write to one, or a read past its
 * end, ends the test. The target ends before such a page too, and what stands before it is looked at again after the call.
 * Compiles as C11 and as C++11. */
#define _GNU_SOURCE 1
#include "../../include/cradlekeel.h"
#include "files.h"

#include <inttypes.h>

SAME_LAYOUT(sizeof(ck_compared) == 16);
SAME_LAYOUT(offsetof(ck_compared, count) == 0);
SAME_LAYOUT(offsetof(ck_compared, refusal) == 8);
SAME_LAYOUT(offsetof(ck_compared, file) == 9);
SAME_LAYOUT(CK_MOST_DIFFERENCE_NUMBERS == 115200);
SAME_LAYOUT(CK_MOST_DIFFERENCE_NUMBERS * sizeof(int64_t) == 921600);

/* The most that a line of the vectors asks for. */
enum { MOST_FIRST_BYTES = 73728, MOST_LISTED = CK_MOST_DIFFERENCE_NUMBERS + 64 };

static region file_region, first_region, target_region;

static void make_regions(void) {
    file_region = make_region(MOST_BYTES);
    first_region = make_region(MOST_FIRST_BYTES);
    target_region = make_region(MOST_LISTED * sizeof(int64_t));
}

/* A target that holds the pattern. */
static int64_t *target(size_t room) {
    int64_t *at = (int64_t *)target_room(&target_region, room * sizeof(int64_t));
    for (size_t i = 0; i < room; i++) at[i] = (int64_t)(7 * i + 3);
    return at;
}

static ck_compared compare(lent_file first, lent_file second, int64_t *to, size_t room) {
    return ck_compare_files(first.at, first.length, second.at, second.length, to, room);
}

/* --- The vectors: each line's answer as tests/compare_lines.py writes what it expects ------------------------------ */

/* Of the 64 bits of each number the lower 32, and then the upper 32. */
static uint32_t checksum(const int64_t *numbers, size_t count) {
    uint32_t sum = 0;
    for (size_t i = 0; i < count; i++) {
        uint64_t bits = (uint64_t)numbers[i];
        sum = with_number(with_number(sum, (uint32_t)bits), (uint32_t)(bits >> 32));
    }
    return sum;
}

/* The file that is held, and the first one of a comparison. */
static lent_file held, first;

static void hold_first(char *shown) {
    first = lend_file(&first_region, held.at, held.length);
    sprintf(shown, "%zu\n", first.length);
}

static void compare_line(char *shown, const char *line) {
    size_t room = next_size();
    int64_t *to = target(room);
    ck_compared found = compare(first, held, to, room);
    check_before(&target_region, to, line);
    sprintf(shown, "%u %u %zu %" PRIu32 "\n", found.file, found.refusal, found.count, checksum(to, room));
}

/* How many comparisons there are. */
static long run_vectors(const char *calls_path, const char *answers_path) {
    static char line[LONGEST_LINE], kept[LONGEST_LINE], expected[LONGEST_LINE], shown[LONGEST_LINE];
    long count = 0;
    FILE *calls = open_lines(calls_path), *answers = open_lines(answers_path);
    while (next_line(line, calls) && next_line(expected, answers)) {
        memcpy(kept, line, sizeof kept);
        const char *word = strtok(line, " \n");
        int is_file = word && strcmp(word, "file") == 0, is_first = word && strcmp(word, "first") == 0;
        int is_compare = word && strcmp(word, "compare") == 0;
        if (!is_file && !is_first && !is_compare) continue;
        if (is_file) held = hold_file(&file_region, shown);
        if (is_first) hold_first(shown);
        if (is_compare) compare_line(shown, kept), count++;
        if (strcmp(shown, expected) != 0) fail(shown, kept);
    }
    fclose(calls);
    fclose(answers);
    return count;
}

/* --- Lists that were worked out by hand from document 02, No. 7 and 8 ----------------------------------------------- */

enum { NUMBERS = 4, ROOM = 48 };

/* The answers to two lines of the listing, and the same with another Duv and class in record 1 and a record of zeros more; then both with
 * records of 18 bytes. */
static const uint8_t DESK[] = {0xa6, 0xe7, 3, 0, 0x46, 0x55, 5, 0, 0x50, 0x8d, 0x38, 0x83, 0x68, 0x97, 0, 0, 0, 0, 0, 1,
                               0xa4, 0x58, 3, 0, 0xbc, 0xfd, 4, 0, 0xd8, 0x5a, 0xc0, 0x50, 0xf0, 0x64, 0xd5, 0xf6, 0xff, 0xff, 0, 255,
                               20, 0, 2, 0, 40, 0, 0, 0};
static const uint8_t BENCH[] = {0xa6, 0xe7, 3, 0, 0x46, 0x55, 5, 0, 0x50, 0x8d, 0x38, 0x83, 0x68, 0x97, 0, 0, 0, 0, 0, 1,
                                0xa4, 0x58, 3, 0, 0xbc, 0xfd, 4, 0, 0xd8, 0x5a, 0xc0, 0x50, 0xf0, 0x64, 0x2b, 9, 0, 0, 0, 3,
                                0, 0, 0, 0, 0, 0, 0, 0, 0, 0, 0, 0, 0, 0, 0, 0, 0, 0, 0, 0,
                                20, 0, 3, 0, 60, 0, 0, 0};
static const uint8_t EARLIER_DESK[] = {0xa6, 0xe7, 3, 0, 0x46, 0x55, 5, 0, 0x50, 0x8d, 0x38, 0x83, 0x68, 0x97, 0, 0, 0, 1,
                                       0xa4, 0x58, 3, 0, 0xbc, 0xfd, 4, 0, 0xd8, 0x5a, 0xc0, 0x50, 0xf0, 0x64, 0xd5, 0xf6, 0, 255,
                                       18, 0, 2, 0, 36, 0, 0, 0};
static const uint8_t EARLIER_BENCH[] = {0xa6, 0xe7, 3, 0, 0x46, 0x55, 5, 0, 0x50, 0x8d, 0x38, 0x83, 0x68, 0x97, 0, 0, 0, 1,
                                        0xa4, 0x58, 3, 0, 0xbc, 0xfd, 4, 0, 0xd8, 0x5a, 0xc0, 0x50, 0xf0, 0x64, 0x2b, 9, 0, 3,
                                        0, 0, 0, 0, 0, 0, 0, 0, 0, 0, 0, 0, 0, 0, 0, 0, 0, 0,
                                        18, 0, 3, 0, 54, 0, 0, 0};
/* One record, whose bytes all differ but for Duv, which is -2, and class, which is none; and one of the largest numbers. */
static const uint8_t UNLIKE[] = {4, 3, 2, 1, 8, 7, 6, 5, 10, 9, 12, 11, 15, 13, 254, 255, 255, 255, 14, 255, 20, 0, 1, 0, 20, 0, 0, 0};
static const uint8_t LARGEST[] = {255, 255, 255, 255, 255, 255, 255, 255, 255, 255, 255, 255, 255, 255, 255, 255, 255, 127, 255, 255,
                                  20, 0, 1, 0, 20, 0, 0, 0};
static const uint8_t EARLIER_LARGEST[] = {255, 255, 255, 255, 255, 255, 255, 255, 255, 255, 255, 255, 255, 255, 255, 127, 255, 255,
                                          18, 0, 1, 0, 18, 0, 0, 0};
static const uint8_t NONE[] = {20, 0, 0, 0, 0, 0, 0, 0}, EARLIER_NONE[] = {18, 0, 0, 0, 0, 0, 0, 0};
static const uint8_t LENGTH_OF_19[] = {19, 0, 0, 0, 0, 0, 0, 0}, NO_RECORD_THERE[] = {20, 0, 1, 0, 20, 0, 0, 0};

#define WHOLE(array) {array, sizeof array}

typedef struct worked {
    lent_file first, second;
    size_t count;
    int64_t entries[ROOM]; /* as many numbers of it as the count says, four to an entry */
} worked;

static const worked WORKED[] = {
    {WHOLE(NONE), WHOLE(NONE), 0, {0}},
    {WHOLE(NONE), WHOLE(EARLIER_NONE), 0, {0}},
    {WHOLE(DESK), WHOLE(DESK), 0, {0}},
    {WHOLE(DESK), WHOLE(EARLIER_DESK), 0, {0}},
    {WHOLE(EARLIER_BENCH), WHOLE(BENCH), 0, {0}},
    {WHOLE(DESK), WHOLE(BENCH), 3, {1, 5, -2347, 2347, 1, 7, 255, 3, 2, 9, 0, 0}},
    {WHOLE(DESK), WHOLE(EARLIER_BENCH), 3, {1, 5, -2347, 2347, 1, 7, 255, 3, 2, 9, 0, 0}},
    {WHOLE(EARLIER_DESK), WHOLE(EARLIER_BENCH), 3, {1, 5, -2347, 2347, 1, 7, 255, 3, 2, 9, 0, 0}},
    {WHOLE(BENCH), WHOLE(DESK), 3, {1, 5, 2347, -2347, 1, 7, 3, 255, 2, 8, 0, 0}},
    {WHOLE(EARLIER_BENCH), WHOLE(DESK), 3, {1, 5, 2347, -2347, 1, 7, 3, 255, 2, 8, 0, 0}},
    {WHOLE(NONE), WHOLE(DESK), 2, {0, 9, 0, 0, 1, 9, 0, 0}},
    {WHOLE(BENCH), WHOLE(NONE), 3, {0, 8, 0, 0, 1, 8, 0, 0, 2, 8, 0, 0}},
    {WHOLE(UNLIKE), WHOLE(DESK), 9,
     {0, 0, 16909060, 255910, 0, 1, 84281096, 349510, 0, 2, 2314, 36176, 0, 3, 2828, 33592, 0, 4, 3343, 38760,
      0, 5, -2, 0, 0, 6, 14, 0, 0, 7, 255, 1, 1, 9, 0, 0}},
    {WHOLE(UNLIKE), WHOLE(LARGEST), 7,
     {0, 0, 16909060, 4294967295, 0, 1, 84281096, 4294967295, 0, 2, 2314, 65535, 0, 3, 2828, 65535, 0, 4, 3343, 65535,
      0, 5, -2, 2147483647, 0, 6, 14, 255}},
    {WHOLE(LARGEST), WHOLE(EARLIER_LARGEST), 1, {0, 5, 2147483647, 32767}},
};

typedef struct refused {
    lent_file first, second;
    uint8_t file, refusal; /* in any room but for refusal 12, which is met in less than 12 numbers */
} refused;

static const refused REFUSED[] = {
    {{NULL, 0}, {NULL, 0}, 1, CK_NO_TRAILER},
    {WHOLE(LENGTH_OF_19), {NULL, 0}, 1, CK_BAD_RECORD_LENGTH},
    {WHOLE(NO_RECORD_THERE), WHOLE(LENGTH_OF_19), 1, CK_BAD_TRAILER},
    {{DESK, sizeof DESK - 1}, WHOLE(DESK), 1, CK_BAD_RECORD_LENGTH},
    {WHOLE(DESK), {NULL, 0}, 2, CK_NO_TRAILER},
    {WHOLE(DESK), {NONE, 7}, 2, CK_NO_TRAILER},
    {WHOLE(DESK), WHOLE(LENGTH_OF_19), 2, CK_BAD_RECORD_LENGTH},
    {WHOLE(NONE), WHOLE(NO_RECORD_THERE), 2, CK_BAD_TRAILER},
    {WHOLE(DESK), WHOLE(BENCH), 0, CK_NO_ROOM},
    {WHOLE(BENCH), WHOLE(DESK), 0, CK_NO_ROOM},
    {WHOLE(EARLIER_DESK), WHOLE(BENCH), 0, CK_NO_ROOM},
    {WHOLE(BENCH), WHOLE(NONE), 0, CK_NO_ROOM},
};

/* Compares two files in a room that holds the pattern; the first so many numbers are then the entries, and the others the pattern. */
static void expect(lent_file one, lent_file other, size_t room, ck_compared expected, const int64_t *entries, const char *what) {
    lent_file a = lend_file(&first_region, one.at ? one.at : NONE, one.length);
    lent_file b = lend_file(&file_region, other.at ? other.at : NONE, other.length);
    int64_t *to = target(room);
    ck_compared found = compare(a, b, to, room);
    check_before(&target_region, to, what);
    if (found.count != expected.count || found.refusal != expected.refusal || found.file != expected.file) fail(what, "another outcome");
    for (size_t i = 0; i < room; i++)
        if (to[i] != (i < NUMBERS * expected.count ? entries[i] : (int64_t)(7 * i + 3))) fail(what, "another number in the target");
}

/* The room that the header says always suffices. */
static size_t always_enough(lent_file one, lent_file other) {
    size_t m = ck_check_file(one.at, one.length).count, n = ck_check_file(other.at, other.length).count;
    return m < n ? 4 * (8 * m + (n - m)) : 4 * (8 * n + (m - n));
}

static void lists(void) {
    static const size_t more[] = {0, 1, 3, 4, 5, 12};
    for (size_t k = 0; k < sizeof WORKED / sizeof *WORKED; k++) {
        const worked *w = &WORKED[k];
        ck_compared listed = {w->count, 0, 0}, no_room = {0, CK_NO_ROOM, 0};
        char what[32];
        sprintf(what, "list %zu", k);
        for (size_t i = 0; i < sizeof more / sizeof *more; i++)
            expect(w->first, w->second, NUMBERS * w->count + more[i], listed, w->entries, what);
        expect(w->first, w->second, always_enough(w->first, w->second), listed, w->entries, what);
        for (size_t room = 0; room < NUMBERS * w->count; room++) expect(w->first, w->second, room, no_room, NULL, what);
    }
}

static void refusals(void) {
    for (size_t k = 0; k < sizeof REFUSED / sizeof *REFUSED; k++) {
        const refused *r = &REFUSED[k];
        ck_compared expected = {0, r->refusal, r->file};
        char what[32];
        sprintf(what, "refusal %zu", k);
        for (size_t room = 0; room < 12; room++) expect(r->first, r->second, room, expected, NULL, what);
    }
}

/* --- Cases that only C can make ------------------------------------------------------------------------------------ */

static void expect_outcome(ck_compared found, uint8_t file, uint8_t refusal, const char *what) {
    if (found.count != 0 || found.refusal != refusal || found.file != file) fail(what, "another outcome");
}

/* NULL with a count of 0 for a file, which has no trailer, and for a target, which has no room. */
static void without_memory(void) {
    expect_outcome(ck_compare_files(NULL, 0, NULL, 0, NULL, 0), 1, CK_NO_TRAILER, "NULL for everything");
    expect_outcome(ck_compare_files(DESK, sizeof DESK, NULL, 0, NULL, 0), 2, CK_NO_TRAILER, "NULL for the second file");
    expect_outcome(ck_compare_files(DESK, sizeof DESK, DESK, sizeof DESK, NULL, 0), 0, CK_ACCEPTED, "nothing to list, and NULL for the target");
    expect_outcome(ck_compare_files(DESK, sizeof DESK, BENCH, sizeof BENCH, NULL, 0), 0, CK_NO_ROOM, "NULL for the target");
}

/* The files are only read, so they may be one, or one the end of the other: the second record and the trailer, which then counts 2. */
static void files_that_overlap(void) {
    static uint8_t two[sizeof DESK];
    int64_t *to = target(0);
    memcpy(two, DESK, sizeof DESK);
    lent_file whole = lend_file(&first_region, two, sizeof two), end = {whole.at + CK_RECORD_BYTES, whole.length - CK_RECORD_BYTES};
    expect_outcome(compare(whole, whole, to, 0), 0, CK_ACCEPTED, "one file");
    expect_outcome(compare(whole, end, to, 0), 2, CK_BAD_TRAILER, "a file and its end");
    expect_outcome(compare(end, whole, to, 0), 1, CK_BAD_TRAILER, "the end of a file and the file");
}

int main(int argc, char **argv) {
    if (argc != 3) {
        fprintf(stderr, "compare_test CALLS ANSWERS\n");
        return 2;
    }
    make_regions();
    lists();
    refusals();
    without_memory();
    files_that_overlap();
    long count = run_vectors(argv[1], argv[2]);
    if (count == 0) fail("no vectors of comparisons", argv[1]);
    printf("compare_test: %ld comparisons, and %zu lists worked out by hand, %ld failures\n", count, sizeof WORKED / sizeof *WORKED, failures);
    return failures != 0;
}
