/* Times the comparison of two files of 3,200 records by the library and by the same rules in plain C: equal files, files with one field
 * of each record different, files with all fields different, and a file of 18-byte records beside one of 20-byte records that has the same
 * numbers. First the two are held to each other, number by number. For equal files a memcmp of both is timed beside them, which is the
 * limit. */
#include "measure.h"
#include "plain_differences.h"
#include "plain_records.h"

#include <stdio.h>
#include <stdlib.h>
#include <string.h>

enum {
    COUNT = CK_MOST_WRITTEN,
    LENGTH = COUNT * CK_RECORD_BYTES + CK_TRAILER_BYTES,
    ROOM = CK_MOST_DIFFERENCE_NUMBERS,
    FIELDS = 8,
    SMALL = 20,
    PAIRS = 2000,
    CALLS = 50,
    ROUNDS = 101
};

static packed_record records[COUNT];
static uint8_t first[LENGTH], second[LENGTH];
static int64_t proved_list[ROOM], plain_list[ROOM];

/* --- Files --------------------------------------------------------------------------------------------------------- */

/* Random records; the Duv of half of them fits 2 bytes. */
static void make_records(size_t count) {
    uint8_t *bytes = (uint8_t *)records;
    for (size_t i = 0; i < count * sizeof *records; i++) bytes[i] = (uint8_t)below(256);
    for (size_t i = 0; i < count; i++)
        if (below(2) == 0) records[i].duv = (int16_t)records[i].duv;
}

/* A file of the records with so many bytes each; its length. */
static size_t make_file(uint8_t *file, size_t count, size_t record_bytes) {
    if (record_bytes == CK_EARLIER_RECORD_BYTES) return earlier_write_records(records, count, file);
    return packed_write_records(records, count, file, LENGTH).count;
}

/* Changes the lowest byte of a field. */
static void change_field(uint8_t *file, size_t record_bytes, size_t record, size_t field) {
    const size_t begins[FIELDS] = {0, 4, 8, 10, 12, 14, record_bytes - 2, record_bytes - 1};
    file[record * record_bytes + begins[field]] ^= (uint8_t)(1 + below(255));
}

enum { EQUAL, ONE_FIELD, ALL_FIELDS, BOTH_LENGTHS, KINDS };

/* Makes both files; the length of the first. */
static size_t make_files(int kind) {
    if (kind == BOTH_LENGTHS)
        for (size_t i = 0; i < COUNT; i++) records[i].duv = (int16_t)records[i].duv;
    make_file(second, COUNT, CK_RECORD_BYTES);
    for (size_t i = 0; i < COUNT; i++) {
        if (kind == ONE_FIELD) change_field(second, CK_RECORD_BYTES, i, below(FIELDS));
        for (size_t field = 0; field < FIELDS && kind == ALL_FIELDS; field++) change_field(second, CK_RECORD_BYTES, i, field);
    }
    return make_file(first, COUNT, kind == BOTH_LENGTHS ? CK_EARLIER_RECORD_BYTES : CK_RECORD_BYTES);
}

/* --- Equal lists --------------------------------------------------------------------------------------------------- */

/* Both compare two files in a target that holds a pattern, which is looked at whole afterwards. */
static size_t require_same(size_t first_length, size_t second_length, size_t room) {
    for (size_t i = 0; i < ROOM; i++) proved_list[i] = plain_list[i] = (int64_t)(7 * i + 3);
    ck_compared proved = ck_compare_files(first, first_length, second, second_length, proved_list, room);
    ck_compared plain = plain_compare_files(first, first_length, second, second_length, plain_list, room);
    if (proved.count == plain.count && proved.refusal == plain.refusal && proved.file == plain.file &&
        memcmp(proved_list, plain_list, sizeof plain_list) == 0)
        return plain.count;
    printf("DIFFERENT LISTS: files of %zu and %zu bytes, room for %zu numbers\n", first_length, second_length, room);
    exit(1);
}

static size_t some_length(void) { return below(2) == 0 ? CK_RECORD_BYTES : CK_EARLIER_RECORD_BYTES; }

static void damage(uint8_t *file, size_t length) {
    if (below(16) == 0) file[length - 1 - below(CK_TRAILER_BYTES)] ^= (uint8_t)(below(2) == 0 ? 1 : CK_RECORD_BYTES ^ CK_EARLIER_RECORD_BYTES);
}

/* Small files of either record length that share some records, now and then with a damaged trailer, in rooms about what it takes. */
static void require_same_pair(void) {
    size_t first_count = below(SMALL), second_count = below(2) == 0 ? first_count : below(SMALL), second_bytes = some_length();
    make_records(SMALL);
    size_t m = make_file(first, first_count, some_length());
    if (below(2) == 0) make_records(SMALL);
    size_t n = make_file(second, second_count, second_bytes);
    for (size_t k = below(4); k > 0 && second_count > 0; k--) change_field(second, second_bytes, below(second_count), below(FIELDS));
    damage(first, m);
    damage(second, n);
    size_t numbers = CK_DIFFERENCE_NUMBERS * require_same(m, n, ROOM);
    require_same(m, n, numbers);
    if (numbers > 0) require_same(m, n, numbers - 1);
}

/* --- Time ---------------------------------------------------------------------------------------------------------- */

static double time_calls(compare_files *compare, size_t first_length, size_t expected) {
    double start = seconds();
    size_t counted = 0;
    for (int i = 0; i < CALLS; i++) counted += compare(first, first_length, second, LENGTH, plain_list, ROOM).count;
    double spent = seconds() - start;
    if (counted == CALLS * expected) return spent;
    printf("ANOTHER OUTCOME: %zu differences in %d calls\n", counted, CALLS);
    exit(1);
}

/* The compiler does not look into the second file. */
static double time_memcmp(void) {
    double start = seconds();
    int is_different = 0;
    for (int i = 0; i < CALLS; i++) {
        const uint8_t *volatile other = second;
        is_different |= memcmp(first, other, LENGTH);
    }
    double spent = seconds() - start;
    if (!is_different) return spent;
    printf("ANOTHER OUTCOME: the files are not equal\n");
    exit(1);
}

static double nanoseconds(double time) { return time / CALLS / COUNT * 1e9; }

static void print_kinds(const char *name, const double *times, const double *units) {
    printf("| %-26s |  %5.2f |             %5.2f |      %5.2f |           %5.2f |\n", name, times[EQUAL] / units[EQUAL],
           times[ONE_FIELD] / units[ONE_FIELD], times[ALL_FIELDS] / units[ALL_FIELDS], times[BOTH_LENGTHS] / units[BOTH_LENGTHS]);
}

static void print_table(const double *proved, const double *plain, double limit) {
    printf("Processor time over that of the plain C, which takes %.2f, %.2f, %.2f and %.2f ns a record here (best of %d rounds):\n\n",
           nanoseconds(plain[EQUAL]), nanoseconds(plain[ONE_FIELD]), nanoseconds(plain[ALL_FIELDS]), nanoseconds(plain[BOTH_LENGTHS]), ROUNDS);
    printf("| two files of %d records  |  equal | one field of each | all fields | 18 and 20 bytes |\n", COUNT);
    printf("|----------------------------|-------:|------------------:|-----------:|----------------:|\n");
    print_kinds("Cradlekeel", proved, plain);
    print_kinds("plain C of the same rules", plain, plain);
    printf("| memcmp of both files       |  %5.2f |                   |            |                 |\n", limit / plain[EQUAL]);
}

int main(void) {
    static const size_t expected[KINDS] = {0, COUNT, FIELDS * COUNT, 0};
    double proved[KINDS] = {0}, plain[KINDS] = {0}, limit = 0;
    for (int i = 0; i < PAIRS; i++) require_same_pair();
    make_records(COUNT);
    for (int kind = 0; kind < KINDS; kind++) {
        size_t length = make_files(kind);
        require_same(length, LENGTH, ROOM);
        for (int round = 0; round < ROUNDS; round++) {
            keep_least(&proved[kind], time_calls(ck_compare_files, length, expected[kind]));
            keep_least(&plain[kind], time_calls(plain_compare_files, length, expected[kind]));
            if (kind == EQUAL) keep_least(&limit, time_memcmp());
        }
    }
    printf("%d pairs of small files and %d of %d records: the library and the plain C list the same differences.\n\n", PAIRS, KINDS, COUNT);
    print_table(proved, plain, limit);
    return 0;
}
