/* Times writing and reading a file of 3,200 records by the library, by the same rules in plain C, and by a copy of records that are in
 * the file's own form already, which is the limit, and by the first two reading a file from before. First all are held to each other, byte
 * by byte and number by number. */
#include "measure.h"
#include "plain_records.h"

#include <stdio.h>
#include <stdlib.h>
#include <string.h>

enum { COUNT = CK_MOST_WRITTEN, LENGTH = COUNT * CK_RECORD_BYTES + CK_TRAILER_BYTES, CALLS = 200, ROUNDS = 101 };
enum { EARLIER_LENGTH = COUNT * CK_EARLIER_RECORD_BYTES + CK_TRAILER_BYTES };

typedef struct {
    uint32_t u[COUNT], v[COUNT];
    uint16_t place[COUNT], low[COUNT], high[COUNT];
    int32_t duv[COUNT];
    uint8_t steps[COUNT], class_index[COUNT];
} columns;

static columns given, earlier_given, found; /* the second with the Duv that a file from before keeps */
static packed_record packed[COUNT], packed_found[COUNT];
static uint8_t file[LENGTH], other_file[LENGTH], earlier_file[EARLIER_LENGTH];

static void make_records(void) {
    for (size_t i = 0; i < COUNT; i++) {
        packed_record r = {.u = (uint32_t)below(1ull << 32), .v = (uint32_t)below(1ull << 32), .place = (uint16_t)below(65536),
                           .low = (uint16_t)below(65536), .high = (uint16_t)below(65536), .duv = (int32_t)(uint32_t)below(1ull << 32),
                           .steps = (uint8_t)below(256), .class_index = (uint8_t)below(256)};
        packed[i] = r;
        given.u[i] = r.u, given.v[i] = r.v, given.place[i] = r.place, given.low[i] = r.low, given.high[i] = r.high;
        given.duv[i] = r.duv, given.steps[i] = r.steps, given.class_index[i] = r.class_index;
    }
    earlier_given = given;
    for (size_t i = 0; i < COUNT; i++) earlier_given.duv[i] = (int16_t)given.duv[i];
    earlier_write_records(packed, COUNT, earlier_file);
}

static ck_done write_by(write_records *write, const columns *c, uint8_t *to) {
    return write(c->u, COUNT, c->v, COUNT, c->place, COUNT, c->low, COUNT, c->high, COUNT, c->duv, COUNT, c->steps, COUNT,
                 c->class_index, COUNT, to, LENGTH);
}

static ck_done read_by(read_records *read, const uint8_t *from, size_t length, columns *c) {
    return read(from, length, c->u, COUNT, c->v, COUNT, c->place, COUNT, c->low, COUNT, c->high, COUNT, c->duv, COUNT, c->steps, COUNT,
                c->class_index, COUNT);
}

/* The calls that are timed, in the order of the table's rows. */
static ck_done write_proved(void) { return write_by(ck_write_records, &given, file); }
static ck_done write_plain(void) { return write_by(plain_write_records, &given, file); }
static ck_done write_packed(void) { return packed_write_records(packed, COUNT, file, LENGTH); }
static ck_done read_proved(void) { return read_by(ck_read_records, file, LENGTH, &found); }
static ck_done read_plain(void) { return read_by(plain_read_records, file, LENGTH, &found); }
static ck_done read_packed(void) { return packed_read_records(file, LENGTH, packed_found, COUNT); }
static ck_done read_earlier_proved(void) { return read_by(ck_read_records, earlier_file, EARLIER_LENGTH, &found); }
static ck_done read_earlier_plain(void) { return read_by(plain_read_records, earlier_file, EARLIER_LENGTH, &found); }

enum { PROVED, PLAIN, PACKED, FORMS };
static const char *const NAMES[FORMS] = {"Cradlekeel", "plain C of the same rules", "memcpy of packed structs"};
typedef ck_done call(void);
static call *const WRITES[FORMS] = {write_proved, write_plain, write_packed}, *const READS[FORMS] = {read_proved, read_plain, read_packed};
static call *const EARLIER_READS[PACKED] = {read_earlier_proved, read_earlier_plain};

static void require(int holds, const char *name, const char *what) {
    if (holds) return;
    printf("DIFFERENT RECORDS: %s, %s\n", name, what);
    exit(1);
}

static void require_equal_files(void) {
    ck_done done = write_packed();
    memcpy(other_file, file, LENGTH);
    for (int k = 0; k < FORMS; k++) {
        memset(file, 0, LENGTH);
        done = WRITES[k]();
        require(done.refusal == CK_ACCEPTED && done.count == LENGTH && memcmp(file, other_file, LENGTH) == 0, NAMES[k], "written");
        memset(&found, 0, sizeof found);
        memset(packed_found, 0, sizeof packed_found);
        done = READS[k]();
        int same_records = k == PACKED ? !memcmp(packed_found, packed, sizeof packed) : !memcmp(&found, &given, sizeof given);
        require(done.refusal == CK_ACCEPTED && done.count == COUNT && same_records, NAMES[k], "read");
    }
    for (int k = 0; k < PACKED; k++) {
        memset(&found, 0, sizeof found);
        done = EARLIER_READS[k]();
        require(done.refusal == CK_ACCEPTED && done.count == COUNT && !memcmp(&found, &earlier_given, sizeof found), NAMES[k], "read from before");
    }
}

static double time_calls(call *made) {
    double start = seconds();
    size_t counted = 0;
    for (int i = 0; i < CALLS; i++) counted += made().count;
    double spent = seconds() - start;
    require(counted != 0, "a call", "refused");
    return spent;
}

int main(void) {
    double writing[FORMS] = {0}, reading[FORMS] = {0}, reading_earlier[PACKED] = {0};
    make_records();
    require_equal_files();
    printf("%d records: the library, the plain C and the copy write the same file, and read it to the same records; the library and the\n"
           "plain C read a file from before, with records of %d bytes, to the same records.\n\n",
           COUNT, CK_EARLIER_RECORD_BYTES);
    for (int round = 0; round < ROUNDS; round++)
        for (int k = 0; k < FORMS; k++) {
            keep_least(&writing[k], time_calls(WRITES[k]));
            keep_least(&reading[k], time_calls(READS[k]));
            if (k < PACKED) keep_least(&reading_earlier[k], time_calls(EARLIER_READS[k]));
        }
    printf("Processor time over that of the plain C, which takes %.2f ns a record to write, %.2f ns to read and %.2f ns to read from before\n"
           "here (best of %d rounds):\n\n",
           writing[PLAIN] / CALLS / COUNT * 1e9, reading[PLAIN] / CALLS / COUNT * 1e9, reading_earlier[PLAIN] / CALLS / COUNT * 1e9, ROUNDS);
    printf("| %-26s | writing | reading | reading from before |\n|----------------------------|--------:|--------:|--------------------:|\n",
           "3200 records");
    for (int k = 0; k < FORMS; k++) {
        printf("| %-26s |    %4.2f |    %4.2f |", NAMES[k], writing[k] / writing[PLAIN], reading[k] / reading[PLAIN]);
        if (k < PACKED) printf("                %4.2f |\n", reading_earlier[k] / reading_earlier[PLAIN]);
        else printf("                     |\n");
    }
    return 0;
}
