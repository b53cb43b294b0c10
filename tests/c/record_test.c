/* Runs the vectors of record files of tests/make_vectors.py through the C functions on record files, and the cases that only C can make.
 *
 *     record_test crates/vectors/stdin crates/vectors/stdout
 *
 * What is lent can be read and not written, and ends before a page that cannot be touched, so that a write to it, or a read past
 * its end, ends the test. A target ends before such a page too, and what stands before it is looked at again after the call.
 * Compiles as C11 and as C++11. */
#define _GNU_SOURCE 1
#include "../../include/cradlekeel.h"
#include "columns.h"
#include "files.h"

#include <inttypes.h>

SAME_LAYOUT(sizeof(ck_record) == 24);
SAME_LAYOUT(offsetof(ck_record, v) == 4);
SAME_LAYOUT(offsetof(ck_record, place) == 8);
SAME_LAYOUT(offsetof(ck_record, low) == 10);
SAME_LAYOUT(offsetof(ck_record, high) == 12);
SAME_LAYOUT(offsetof(ck_record, duv) == 16);
SAME_LAYOUT(offsetof(ck_record, steps) == 20);
SAME_LAYOUT(offsetof(ck_record, class_index) == 21);
SAME_LAYOUT(CK_RECORD_BYTES == 20 && CK_EARLIER_RECORD_BYTES == 18 && CK_TRAILER_BYTES == 8);
SAME_LAYOUT(CK_MOST_WRITTEN == 3200 && CK_MOST_RECORDS == 3600 && CK_LARGEST_FILE == 64808);
SAME_LAYOUT(sizeof(ck_done) == 16);
SAME_LAYOUT(offsetof(ck_done, refusal) == 8);

/* The most that a line of the vectors asks for. */
enum { MOST_WRITTEN = 65536, MOST_READ = 4096 };

/* --- Numbers of each width ----------------------------------------------------------------------------------------- */

static uint32_t get_number(const void *at, size_t width, size_t i) {
    if (width == 4) return ((const uint32_t *)at)[i];
    if (width == 2) return ((const uint16_t *)at)[i];
    return ((const uint8_t *)at)[i];
}

static uint32_t checksum(const void *at, size_t width, size_t count) {
    uint32_t sum = 0;
    for (size_t i = 0; i < count; i++) sum = with_number(sum, get_number(at, width, i));
    return sum;
}

/* --- What is lent, and targets ------------------------------------------------------------------------------------- */

/* The columns and the file that are held from line to line. */
typedef struct held {
    columns list;
    lent_file file;
} held;

static region file_region, target_regions[COLUMNS], target_file_region;

static void make_regions(void) {
    make_column_regions();
    for (int k = 0; k < COLUMNS; k++) target_regions[k] = make_region(MOST_READ * WIDTHS[k]);
    file_region = make_region(MOST_BYTES);
    target_file_region = make_region(MOST_WRITTEN);
}

/* A target that holds the pattern. */
static void *target(const region *r, size_t width, size_t count) {
    void *at = target_room(r, count * width);
    for (size_t i = 0; i < count; i++) put_number(at, width, i, (uint32_t)(7 * i + 3));
    return at;
}

static ck_done write_held(const held *h, uint8_t *to, size_t room) {
    const void *const *c = h->list.at;
    const size_t *n = h->list.counts;
    return ck_write_records((const uint32_t *)c[U], n[U], (const uint32_t *)c[V], n[V], (const uint16_t *)c[PLACE], n[PLACE],
                            (const uint16_t *)c[LOW], n[LOW], (const uint16_t *)c[HIGH], n[HIGH], (const int32_t *)c[DUV], n[DUV],
                            (const uint8_t *)c[STEPS], n[STEPS], (const uint8_t *)c[CLASS], n[CLASS], to, room);
}

static ck_done read_into(const uint8_t *file, size_t length, void *const c[COLUMNS], const size_t n[COLUMNS]) {
    return ck_read_records(file, length, (uint32_t *)c[U], n[U], (uint32_t *)c[V], n[V], (uint16_t *)c[PLACE], n[PLACE],
                           (uint16_t *)c[LOW], n[LOW], (uint16_t *)c[HIGH], n[HIGH], (int32_t *)c[DUV], n[DUV], (uint8_t *)c[STEPS],
                           n[STEPS], (uint8_t *)c[CLASS], n[CLASS]);
}

/* --- The vectors: each line's answer as tests/record_lines.py writes what it expects ------------------------------- */

static void write_line(held *h, char *shown, const char *line) {
    size_t room = next_size();
    uint8_t *to = (uint8_t *)target(&target_file_region, 1, room);
    ck_done done = write_held(h, to, room);
    check_before(&target_file_region, to, line);
    sprintf(shown, "%u %zu %" PRIu32 "\n", done.refusal, done.count, checksum(to, 1, room));
    if (done.refusal == CK_ACCEPTED && done.count <= room) h->file = lend_file(&file_region, to, done.count);
}

static void form_line(const held *h, char *shown) {
    ck_done done = ck_check_file(h->file.at, h->file.length);
    sprintf(shown, "%u %zu\n", done.refusal, done.count);
}

static void record_line(const held *h, char *shown) {
    ck_record r = ck_record_at(h->file.at, h->file.length, next_size());
    sprintf(shown, "%" PRIu32 " %" PRIu32 " %u %u %u %" PRId32 " %u %u\n", r.u, r.v, r.place, r.low, r.high, r.duv, r.steps, r.class_index);
}

static void read_line(const held *h, char *shown, const char *line) {
    void *to[COLUMNS];
    size_t rooms[COLUMNS];
    for (int k = 0; k < COLUMNS; k++) {
        rooms[k] = next_size();
        to[k] = target(&target_regions[k], WIDTHS[k], rooms[k]);
    }
    ck_done done = read_into(h->file.at, h->file.length, to, rooms);
    shown += sprintf(shown, "%u %zu", done.refusal, done.count);
    for (int k = 0; k < COLUMNS; k++) {
        check_before(&target_regions[k], to[k], line);
        shown += sprintf(shown, " %" PRIu32, checksum(to[k], WIDTHS[k], rooms[k]));
    }
    sprintf(shown, "\n");
}

enum { COLUMN_LINE, FILE_LINE, WRITE_LINE, FORM_LINE, RECORD_LINE, READ_LINE, KINDS };
static const char *const KIND_NAMES[KINDS] = {"column", "file", "write", "form", "record", "read"};
static long counts[KINDS];

static int kind_of(const char *word) {
    int kind = 0;
    while (kind < KINDS && (!word || strcmp(word, KIND_NAMES[kind]) != 0)) kind++;
    return kind;
}

static void run_line(held *h, int kind, const char *expected, const char *line) {
    char shown[256] = "";
    if (kind == COLUMN_LINE) hold_column(&h->list, shown, line);
    if (kind == FILE_LINE) h->file = hold_file(&file_region, shown);
    if (kind == WRITE_LINE) write_line(h, shown, line);
    if (kind == FORM_LINE) form_line(h, shown);
    if (kind == RECORD_LINE) record_line(h, shown);
    if (kind == READ_LINE) read_line(h, shown, line);
    if (strcmp(shown, expected) != 0) fail(shown, line);
    counts[kind]++;
}

static void run_vectors(const char *calls_path, const char *answers_path) {
    static char line[LONGEST_LINE], kept[LONGEST_LINE], expected[LONGEST_LINE];
    static held h; /* NULL with a count of 0 for each column and the file, until a line replaces it */
    FILE *calls = open_lines(calls_path), *answers = open_lines(answers_path);
    while (next_line(line, calls) && next_line(expected, answers)) {
        memcpy(kept, line, sizeof kept);
        int kind = kind_of(strtok(line, " \n"));
        if (kind < KINDS) run_line(&h, kind, expected, kept);
    }
    fclose(calls);
    fclose(answers);
    for (int kind = 0; kind < KINDS; kind++)
        if (counts[kind] == 0) fail("no vectors", KIND_NAMES[kind]);
}

/* --- Cases that only C can make ------------------------------------------------------------------------------------ */

static void expect(ck_done found, uint8_t refusal, size_t count, const char *what) {
    if (found.refusal != refusal || found.count != count) fail(what, "another outcome");
}

static void expect_record(ck_record found, ck_record r, const char *what) {
    if (found.u != r.u || found.v != r.v || found.place != r.place || found.low != r.low || found.high != r.high || found.duv != r.duv ||
        found.steps != r.steps || found.class_index != r.class_index)
        fail(what, "another record");
}

static const ck_record NO_RECORD = {0, 0, 0, 0, 0, 0, 0, 0};

/* NULL with a count of 0: for everything, and for each column alone, which makes the list one of no records. */
static void without_a_list(void) {
    static const uint32_t numbers[1] = {1};
    static const uint8_t empty[] = {20, 0, 0, 0, 0, 0, 0, 0}, earlier[] = {18, 0, 0, 0, 0, 0, 0, 0};
    held none = {{{NULL}, {0}}, {NULL, 0}};
    void *const no_columns[COLUMNS] = {NULL};
    uint8_t *to = (uint8_t *)target(&target_file_region, 1, 8);
    expect(write_held(&none, NULL, 0), CK_NO_ROOM, 0, "NULL for everything");
    expect(read_into(NULL, 0, no_columns, none.list.counts), CK_NO_TRAILER, 0, "NULL for everything");
    expect(read_into(empty, sizeof empty, no_columns, none.list.counts), CK_ACCEPTED, 0, "no records into NULL");
    expect(read_into(earlier, sizeof earlier, no_columns, none.list.counts), CK_ACCEPTED, 0, "no records of 18 bytes into NULL");
    expect(ck_check_file(NULL, 0), CK_NO_TRAILER, 0, "NULL for the file");
    expect_record(ck_record_at(NULL, 0, 0), NO_RECORD, "NULL for the file");
    for (int k = 0; k <= COLUMNS; k++) {
        held most = none;
        for (int j = 0; j < COLUMNS; j++)
            if (j != k && k != COLUMNS) most.list.at[j] = numbers, most.list.counts[j] = 1;
        memset(to, 0, 8);
        expect(write_held(&most, to, 8), CK_ACCEPTED, 8, "NULL for a column");
        if (memcmp(to, empty, sizeof empty) != 0) fail("NULL for a column", "another file");
    }
}

/* What is only read may be one: u and v, the three positions, and steps and class. */
static void columns_that_are_one(void) {
    static const uint32_t wide[] = {0x01020304, 0xa0b0c0d0};
    static const uint16_t middle[] = {0x0506, 0xe0f0};
    static const int32_t duv[] = {-2, 0x0b0a0807};
    static const uint8_t narrow[] = {9, 255};
    static const uint8_t expected[] = {4, 3, 2, 1, 4, 3, 2, 1, 6, 5, 6, 5, 6, 5, 0xfe, 0xff, 0xff, 0xff, 9, 9,
                                       0xd0, 0xc0, 0xb0, 0xa0, 0xd0, 0xc0, 0xb0, 0xa0, 0xf0, 0xe0, 0xf0, 0xe0, 0xf0, 0xe0, 7, 8, 10, 11, 255, 255,
                                       20, 0, 2, 0, 40, 0, 0, 0};
    held one = {{{wide, wide, middle, middle, middle, duv, narrow, narrow}, {2, 2, 2, 2, 2, 2, 2, 2}}, {NULL, 0}};
    uint8_t *to = (uint8_t *)target(&target_file_region, 1, sizeof expected);
    expect(write_held(&one, to, sizeof expected), CK_ACCEPTED, sizeof expected, "columns that are one");
    if (memcmp(to, expected, sizeof expected) != 0) fail("columns that are one", "another file");
}

/* Two records in bytes of both lengths, the second with the least Duv of 2 bytes; and one whose Duv no 2 bytes have. */
static const ck_record TWO[] = {{219300, 327100, 23256, 20672, 25840, -2347, 0, 255}, {0x01020304, 0xfffefdfc, 5, 65535, 0, -32768, 14, 3}};
static const uint8_t TWO_WRITTEN[] = {0xa4, 0x58, 3, 0, 0xbc, 0xfd, 4, 0, 0xd8, 0x5a, 0xc0, 0x50, 0xf0, 0x64, 0xd5, 0xf6, 0xff, 0xff, 0, 255,
                                      4, 3, 2, 1, 0xfc, 0xfd, 0xfe, 0xff, 5, 0, 0xff, 0xff, 0, 0, 0, 0x80, 0xff, 0xff, 14, 3,
                                      20, 0, 2, 0, 40, 0, 0, 0};
static const uint8_t TWO_EARLIER[] = {0xa4, 0x58, 3, 0, 0xbc, 0xfd, 4, 0, 0xd8, 0x5a, 0xc0, 0x50, 0xf0, 0x64, 0xd5, 0xf6, 0, 255,
                                      4, 3, 2, 1, 0xfc, 0xfd, 0xfe, 0xff, 5, 0, 0xff, 0xff, 0, 0, 0, 0x80, 14, 3,
                                      18, 0, 2, 0, 36, 0, 0, 0};
static const ck_record TINTED = {345070, 310530, 64600, 62016, 64600, -50000, 0, 0};
static const uint8_t TINTED_WRITTEN[] = {0xee, 0x43, 5, 0, 2, 0xbd, 4, 0, 0x58, 0xfc, 0x40, 0xf2, 0x58, 0xfc, 0xb0, 0x3c, 0xff, 0xff, 0, 0,
                                         20, 0, 1, 0, 20, 0, 0, 0};

/* A file is read into columns of exact room, those are written again, and that is the file of the length that is written; each record is
 * there by its number, and none beyond them or in a file that is a byte short. */
static void worked_file(const uint8_t *bytes, size_t length, const ck_record *records, size_t count, const uint8_t *again, size_t size) {
    void *to[COLUMNS];
    size_t rooms[COLUMNS];
    held h = {{{NULL}, {0}}, lend_file(&file_region, bytes, length)};
    for (int k = 0; k < COLUMNS; k++) {
        rooms[k] = h.list.counts[k] = count;
        h.list.at[k] = to[k] = target(&target_regions[k], WIDTHS[k], count);
    }
    expect(read_into(h.file.at, length, to, rooms), CK_ACCEPTED, count, "a file worked out by hand");
    uint8_t *written = (uint8_t *)target(&target_file_region, 1, size);
    expect(write_held(&h, written, size - 1), CK_NO_ROOM, 0, "a byte too little");
    expect(write_held(&h, written, size), CK_ACCEPTED, size, "what was read, written again");
    if (memcmp(written, again, size) != 0) fail("what was read, written again", "another file");
    for (size_t i = 0; i < count; i++) expect_record(ck_record_at(h.file.at, length, i), records[i], "a record of a file worked out by hand");
    expect_record(ck_record_at(h.file.at, length, count), NO_RECORD, "a record beyond the last");
    expect_record(ck_record_at(h.file.at, length, SIZE_MAX), NO_RECORD, "a record far beyond the last");
    expect_record(ck_record_at(h.file.at, length - 1, 0), NO_RECORD, "a record of a file that is cut short");
    expect_record(ck_record_at(h.file.at + 1, length - 1, 0), NO_RECORD, "a record of a file without its first byte");
}

static void worked_files(void) {
    worked_file(TWO_WRITTEN, sizeof TWO_WRITTEN, TWO, 2, TWO_WRITTEN, sizeof TWO_WRITTEN);
    worked_file(TWO_EARLIER, sizeof TWO_EARLIER, TWO, 2, TWO_WRITTEN, sizeof TWO_WRITTEN);
    worked_file(TINTED_WRITTEN, sizeof TINTED_WRITTEN, &TINTED, 1, TINTED_WRITTEN, sizeof TINTED_WRITTEN);
}

int main(int argc, char **argv) {
    if (argc != 3) {
        fprintf(stderr, "record_test CALLS ANSWERS\n");
        return 2;
    }
    make_regions();
    without_a_list();
    columns_that_are_one();
    worked_files();
    run_vectors(argv[1], argv[2]);
    printf("record_test: %ld files and %ld columns held; %ld written, %ld read, %ld forms and %ld records, %ld failures\n",
           counts[FILE_LINE], counts[COLUMN_LINE], counts[WRITE_LINE], counts[READ_LINE], counts[FORM_LINE], counts[RECORD_LINE], failures);
    return failures != 0;
}
