/* Keeps the answers to three lamps in a record file, and prints the records of such a file. In the repository's root, once
 * `make lib` has built the library:
 *     gcc -Iinclude examples/records.c target/lib/libcradlekeel.a -o target/records
 *     target/records save target/lamps.rec && target/records show target/lamps.rec */
#include <inttypes.h>
#include <stdio.h>
#include <string.h>
#include "cradlekeel.h"

enum { LAMPS = 3 };
static const uint32_t lamps[LAMPS][2] = {{255910, 349510}, {219300, 327100}, {183000, 276000}}; /* CIE 1960 u and v in millionths */
static const uint32_t edges[] = {1600, 2500, 3500, 5000, 20001}; /* class 0 is 1600 K to under 2500 K, and so on */

static const char *const reasons[] = {
    [CK_TOO_MANY_RECORDS] = "more than 3,200 records, or 3,600 of 18 bytes",
    [CK_NO_ROOM] = "no room for the file or its records",
    [CK_NO_TRAILER] = "the file is shorter than 8 bytes",
    [CK_BAD_RECORD_LENGTH] = "no record file, or cut short or added to",
    [CK_BAD_TRAILER] = "cut short, damaged or joined to another",
};

/* One array for each field, as the library takes them. */
static struct {
    uint32_t u[CK_MOST_RECORDS], v[CK_MOST_RECORDS];
    uint16_t place[CK_MOST_RECORDS], low[CK_MOST_RECORDS], high[CK_MOST_RECORDS];
    int32_t duv[CK_MOST_RECORDS];
    uint8_t steps[CK_MOST_RECORDS], class_index[CK_MOST_RECORDS];
} r;
static uint8_t file[CK_LARGEST_FILE + 1]; /* with room for a byte too many, which shows that a file is too long */

static int refused(const char *path, ck_done done)
{
    if (done.refusal != CK_ACCEPTED) fprintf(stderr, "records: %s: refusal %d: %s\n", path, done.refusal, reasons[done.refusal]);
    return done.refusal != CK_ACCEPTED;
}

/* Answers the lamps and adds a record for each that is not refused; how many there are. */
static size_t answer_lamps(void)
{
    size_t count = 0;
    for (int i = 0; i < LAMPS; i++) {
        ck_answer a = ck_read_micro(lamps[i][0], lamps[i][1], edges, 5, 14);
        ck_kept k = ck_record_of(lamps[i][0], lamps[i][1], a.whole);
        if (!k.kept) {
            printf("%" PRIu32 " %" PRIu32 " is refused with %d and not kept\n", lamps[i][0], lamps[i][1], a.whole.refusal);
            continue;
        }
        r.u[count] = k.record.u, r.v[count] = k.record.v;
        r.place[count] = k.record.place, r.low[count] = k.record.low, r.high[count] = k.record.high;
        r.duv[count] = k.record.duv, r.steps[count] = k.record.steps, r.class_index[count] = k.record.class_index;
        count++;
    }
    return count;
}

static int save(const char *path)
{
    size_t n = answer_lamps();
    ck_done done = ck_write_records(r.u, n, r.v, n, r.place, n, r.low, n, r.high, n, r.duv, n, r.steps, n, r.class_index, n, file, sizeof file);
    if (refused(path, done)) return 1;
    FILE *to = fopen(path, "wbx"); /* x: a file that exists is not overwritten */
    if (!to) {
        perror(path);
        return 1;
    }
    int is_written = fwrite(file, 1, done.count, to) == done.count;
    if (fclose(to) != 0 || !is_written) { /* a full disk may show only when the file is closed */
        perror(path);
        remove(path);
        return 1;
    }
    return 0;
}

static int show(const char *path)
{
    FILE *from = fopen(path, "rb");
    size_t length = from ? fread(file, 1, sizeof file, from) : 0;
    if (!from || ferror(from)) {
        perror(path);
        return 1;
    }
    fclose(from);
    enum { N = CK_MOST_RECORDS };
    ck_done done = ck_read_records(file, length, r.u, N, r.v, N, r.place, N, r.low, N, r.high, N, r.duv, N, r.steps, N, r.class_index, N);
    if (refused(path, done)) return 1;
    for (size_t i = 0; i < done.count; i++) {
        printf("%" PRIu32 " %" PRIu32 ": ", r.u[i], r.v[i]);
        if (r.place[i] != 0) printf("%.1f K, ", 103360000.0 / r.place[i]); /* a file may hold any number */
        printf("Duv %+.6f, ", r.duv[i] / 1e6);
        if (r.class_index[i] == CK_NO_CLASS) puts("no class");
        else printf("class %d\n", r.class_index[i]);
    }
    return 0;
}

int main(int argc, char **argv)
{
    int is_save = argc == 3 && strcmp(argv[1], "save") == 0;
    if (!is_save && !(argc == 3 && strcmp(argv[1], "show") == 0)) {
        fprintf(stderr, "usage: records save FILE, or records show FILE\n");
        return 2;
    }
    int status = is_save ? save(argv[2]) : show(argv[2]);
    if (fflush(stdout) != 0 || ferror(stdout)) { /* of any print before, too */
        fprintf(stderr, "records: standard output could not be written\n");
        return 1;
    }
    return status;
}
