/* Times the salvage of files of 3,200 records at 14 steps by the library and by the same rules in plain C: all kept where the targets have
 * room for every record, all kept where they have exactly the room that it takes, half of them damaged, and all kept of records of 18 bytes.
 * A file is salvaged once in a round, so that no processor knows its records by heart. First the two are held to each other, byte by byte
 * and number by number. Beside the first the answers alone are timed, which is what a salvage cannot do without. */
#include "measure.h"
#include "plain.h"
#include "plain_records.h"
#include "plain_salvage.h"

#include <stdio.h>
#include <stdlib.h>
#include <string.h>

enum {
    COUNT = CK_MOST_WRITTEN,
    LENGTH = COUNT * CK_RECORD_BYTES + CK_TRAILER_BYTES,
    MOST_STEPS = 14,
    SMALL = 20,
    SMALL_FILES = 2000,
    FILES = 40,
    ALL = FILES * COUNT,
    ROUNDS = 21
};

static packed_record records[ALL]; /* of one file after the other */
static uint8_t broken[FILES][LENGTH], proved_file[LENGTH], plain_file[LENGTH];
static uint64_t proved_list[COUNT], plain_list[COUNT];

/* --- Files --------------------------------------------------------------------------------------------------------- */

/* Makes a record of a reading anywhere about the locus; 1 where the rules answer it with a Duv that fits 2 bytes. */
static int offer_record(packed_record *made, uint32_t steps) {
    uint32_t u = (uint32_t)(130000 + below(270000)), v = (uint32_t)(220000 + below(200000));
    ck_whole a = plain_whole(u, v, EDGES, EDGE_COUNT, steps);
    *made = (packed_record){u, v, (uint16_t)a.place, (uint16_t)a.low, (uint16_t)a.high, a.duv, a.steps, a.class_index};
    return a.refusal == CK_ACCEPTED && a.duv == (int16_t)a.duv;
}

/* Makes a good file of the records of a number with so many bytes each; its length without the trailer. */
static size_t make_body(size_t file, size_t count, size_t record_bytes) {
    if (record_bytes == CK_EARLIER_RECORD_BYTES) earlier_write_records(records + COUNT * file, count, broken[file]);
    else packed_write_records(records + COUNT * file, count, broken[file], LENGTH);
    return record_bytes * count;
}

/* --- Equal salvages ------------------------------------------------------------------------------------------------ */

typedef struct {
    size_t length, record_bytes, edge_count, file_room, list_room;
} call;

static ck_salvaged salvage_by(salvage *function, call c, const uint8_t *bytes, uint8_t *file, uint64_t *list) {
    return function(bytes, c.length, c.record_bytes, EDGES, c.edge_count, file, c.file_room, list, c.list_room);
}

/* Both salvage the first file into targets that hold a pattern, which are looked at whole afterwards. */
static ck_salvaged require_same(call c) {
    for (size_t i = 0; i < LENGTH; i++) proved_file[i] = plain_file[i] = (uint8_t)(7 * i + 3);
    for (size_t i = 0; i < COUNT; i++) proved_list[i] = plain_list[i] = 7 * i + 3;
    ck_salvaged proved = salvage_by(ck_salvage, c, broken[0], proved_file, proved_list);
    ck_salvaged plain = salvage_by(plain_salvage, c, broken[0], plain_file, plain_list);
    if (proved.kept == plain.kept && proved.dropped == plain.dropped && proved.leftover == plain.leftover && proved.refusal == plain.refusal &&
        memcmp(proved_file, plain_file, sizeof plain_file) == 0 && memcmp(proved_list, plain_list, sizeof plain_list) == 0)
        return plain;
    printf("DIFFERENT SALVAGES: %zu bytes, records of %zu, %zu edges, rooms %zu and %zu\n", c.length, c.record_bytes, c.edge_count,
           c.file_room, c.list_room);
    exit(1);
}

/* Some bytes of a small file of either length, with damage here and there, now and then with bad edges or by another length. */
static call some_call(void) {
    size_t count = below(SMALL), record_bytes = below(2) == 0 ? CK_RECORD_BYTES : CK_EARLIER_RECORD_BYTES;
    for (size_t i = 0; i < count;) i += (size_t)offer_record(&records[i], (uint32_t)below(MOST_STEPS + 2));
    size_t whole = make_body(0, count, record_bytes) + CK_TRAILER_BYTES;
    for (size_t k = below(6); k > 0; k--) broken[0][below(whole)] ^= (uint8_t)(1u << below(8));
    call made = {below(whole + 1), below(8) == 0 ? 17 + below(5) : record_bytes, below(16) == 0 ? below(2) : EDGE_COUNT, LENGTH, COUNT};
    return made;
}

/* Such a call in rooms about what it takes. */
static void require_same_file(void) {
    call c = some_call();
    ck_salvaged found = require_same(c);
    c.file_room = CK_RECORD_BYTES * found.kept + CK_TRAILER_BYTES, c.list_room = found.dropped;
    require_same(c);
    c.file_room--;
    require_same(c);
    c.file_room++;
    if (c.list_room > 0) c.list_room--;
    require_same(c);
}

/* --- Time ---------------------------------------------------------------------------------------------------------- */

enum { ROOM_FOR_ALL, EXACT_ROOM, HALF, EARLIER, KINDS };

/* Makes the files of a kind, and the call that is timed on each. */
static call make_kind(int kind) {
    call made = {0, kind == EARLIER ? CK_EARLIER_RECORD_BYTES : CK_RECORD_BYTES, EDGE_COUNT, LENGTH, kind == EXACT_ROOM ? 0 : COUNT};
    for (size_t file = 0; file < FILES; file++) {
        made.length = make_body(file, COUNT, made.record_bytes);
        for (size_t i = 0; i < COUNT && kind == HALF; i++)
            if (below(2) == 0) broken[file][i * CK_RECORD_BYTES + CK_RECORD_BYTES - 1] ^= 1; /* the class */
    }
    return made;
}

/* Each file once. */
static double time_salvages(salvage *function, call c, size_t *kept) {
    double start = seconds();
    *kept = 0;
    for (size_t file = 0; file < FILES; file++) *kept += salvage_by(function, c, broken[file], plain_file, plain_list).kept;
    return seconds() - start;
}

/* Both in turn, which keep as many. */
static void time_both(double *proved, double *plain, call c) {
    size_t by_proved, by_plain;
    keep_least(proved, time_salvages(ck_salvage, c, &by_proved));
    keep_least(plain, time_salvages(plain_salvage, c, &by_plain));
    if (by_proved == by_plain && by_plain > 0) return;
    printf("ANOTHER OUTCOME: %zu and %zu kept\n", by_proved, by_plain);
    exit(1);
}

static uint64_t sink; /* what was answered, so that no call is left out */

/* The answers to all records alone. */
static double time_answers(void) {
    double start = seconds();
    for (size_t i = 0; i < ALL; i++) sink += ck_read_micro(records[i].u, records[i].v, EDGES, EDGE_COUNT, MOST_STEPS).whole.place;
    return seconds() - start;
}

static double nanoseconds(double time) { return time / ALL * 1e9; }

static void print_kinds(const char *name, const double *times, const double *units) {
    printf("| %-26s |        %5.2f |      %5.2f |        %5.2f |               %5.2f |\n", name, times[ROOM_FOR_ALL] / units[ROOM_FOR_ALL],
           times[EXACT_ROOM] / units[EXACT_ROOM], times[HALF] / units[HALF], times[EARLIER] / units[EARLIER]);
}

static void print_table(const double *proved, const double *plain, double answers) {
    printf("Processor time over that of the plain C, which takes %.0f, %.0f, %.0f and %.0f ns a record here (best of %d rounds):\n\n",
           nanoseconds(plain[ROOM_FOR_ALL]), nanoseconds(plain[EXACT_ROOM]), nanoseconds(plain[HALF]), nanoseconds(plain[EARLIER]), ROUNDS);
    printf("| %d records at %d steps   | room for all | exact room | half damaged | records of 18 bytes |\n", COUNT, MOST_STEPS);
    printf("|----------------------------|-------------:|-----------:|-------------:|--------------------:|\n");
    print_kinds("Cradlekeel", proved, plain);
    print_kinds("plain C of the same rules", plain, plain);
    printf("| ck_read_micro alone        |        %5.2f |            |              |                     |\n", answers / plain[ROOM_FOR_ALL]);
}

int main(void) {
    double proved[KINDS] = {0}, plain[KINDS] = {0}, answers = 0;
    for (int i = 0; i < SMALL_FILES; i++) require_same_file();
    for (size_t i = 0; i < ALL;) i += (size_t)offer_record(&records[i], MOST_STEPS);
    for (int kind = 0; kind < KINDS; kind++) {
        call c = make_kind(kind);
        require_same(c);
        for (int round = 0; round < ROUNDS; round++) {
            time_both(&proved[kind], &plain[kind], c);
            if (kind == ROOM_FOR_ALL) keep_least(&answers, time_answers());
        }
    }
    printf("%d small files and %d of %d records: the library and the plain C salvage the same.\n\n", SMALL_FILES, KINDS, COUNT);
    print_table(proved, plain, answers);
    return sink == 0;
}
