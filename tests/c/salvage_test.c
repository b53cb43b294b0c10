/* Runs the vectors of salvage of tests/make_vectors.py through ck_salvage, bodies that were worked out by hand, and the cases that only C
 * can make.
 *
 *     salvage_test crates/vectors/stdin crates/vectors/stdout
 *
 * The bytes and the edges can be read and not written, and end before a page that cannot be touched, so that a write to them, or a read
 * past their end, ends the test. Both targets end before such a page too, and what stands before them is looked at again after the call.
 * Compiles as C11 and as C++11. */
#define _GNU_SOURCE 1
#include "../../include/cradlekeel.h"
#include "files.h"

#include <inttypes.h>

SAME_LAYOUT(sizeof(ck_salvaged) == 32);
SAME_LAYOUT(offsetof(ck_salvaged, kept) == 0);
SAME_LAYOUT(offsetof(ck_salvaged, dropped) == 8);
SAME_LAYOUT(offsetof(ck_salvaged, leftover) == 16);
SAME_LAYOUT(offsetof(ck_salvaged, refusal) == 24);

/* The most that a line of the vectors asks for. */
enum { MOST_WRITTEN = 65536, MOST_DROPPED = 72896, MOST_EDGES = 64 };

static region bytes_region, edges_region, file_region, list_region;

static void make_regions(void) {
    bytes_region = make_region(MOST_BYTES);
    edges_region = make_region(MOST_EDGES * sizeof(uint32_t));
    file_region = make_region(MOST_WRITTEN);
    list_region = make_region(MOST_DROPPED * sizeof(uint64_t));
}

typedef struct lent_edges {
    const uint32_t *at;
    size_t count;
} lent_edges;

static lent_edges lend_edges(const uint32_t *numbers, size_t count) {
    lent_edges lent = {(const uint32_t *)lend_bytes(&edges_region, numbers, count * sizeof *numbers), count};
    return lent;
}

/* Both targets of a salvage. */
typedef struct targets {
    uint8_t *file;
    uint64_t *list;
    size_t file_room, list_room;
} targets;

static uint8_t byte_pattern(size_t i) { return (uint8_t)(7 * i + 3); }

/* With all of the upper 32 bits set, so that they have to be written too. */
static uint64_t number_pattern(size_t i) { return (7 * i + 3) | UINT64_C(0xffffffff00000000); }

/* A target of bytes that holds the pattern. */
static uint8_t *file_target(size_t room) {
    uint8_t *at = (uint8_t *)target_room(&file_region, room);
    for (size_t i = 0; i < room; i++) at[i] = byte_pattern(i);
    return at;
}

/* The same of numbers. */
static uint64_t *list_target(size_t room) {
    uint64_t *at = (uint64_t *)target_room(&list_region, room * sizeof(uint64_t));
    for (size_t i = 0; i < room; i++) at[i] = number_pattern(i);
    return at;
}

static targets make_targets(size_t file_room, size_t list_room) {
    targets made = {file_target(file_room), list_target(list_room), file_room, list_room};
    return made;
}

/* A salvage into targets that hold the pattern; nothing before them may change. */
static ck_salvaged salvage(lent_file bytes, size_t record_length, lent_edges edges, targets to, const char *what) {
    ck_salvaged found =
        ck_salvage(bytes.at, bytes.length, record_length, edges.at, edges.count, to.file, to.file_room, to.list, to.list_room);
    check_before(&file_region, to.file, what);
    check_before(&list_region, to.list, what);
    return found;
}

/* --- The vectors: each line's answer as tests/salvage_lines.py writes what it expects ------------------------------ */

static uint32_t file_checksum(targets t) {
    uint32_t sum = 0;
    for (size_t i = 0; i < t.file_room; i++) sum = with_number(sum, t.file[i]);
    return sum;
}

/* Of the 64 bits of each number the lower 32, and then the upper 32. */
static uint32_t list_checksum(targets t) {
    uint32_t sum = 0;
    for (size_t i = 0; i < t.list_room; i++) sum = with_number(with_number(sum, (uint32_t)t.list[i]), (uint32_t)(t.list[i] >> 32));
    return sum;
}

static void salvage_line(lent_file held, char *shown, const char *line) {
    uint32_t edges[MOST_EDGES];
    size_t record_length = next_size(), file_room = next_size(), list_room = next_size(), count = 0;
    for (const char *word; (word = next_word());) count = add_numbers(edges, count, MOST_EDGES, word);
    targets to = make_targets(file_room, list_room);
    ck_salvaged found = salvage(held, record_length, lend_edges(edges, count), to, line);
    sprintf(shown, "%u %zu %zu %zu %" PRIu32 " %" PRIu32 "\n", found.refusal, found.kept, found.dropped, found.leftover, file_checksum(to),
            list_checksum(to));
}

/* How many salvages there are. */
static long run_vectors(const char *calls_path, const char *answers_path) {
    static char line[LONGEST_LINE], kept[LONGEST_LINE], expected[LONGEST_LINE], shown[LONGEST_LINE];
    long count = 0;
    lent_file held = lend_file(&bytes_region, (const uint8_t *)"", 0);
    FILE *calls = open_lines(calls_path), *answers = open_lines(answers_path);
    while (next_line(line, calls) && next_line(expected, answers)) {
        memcpy(kept, line, sizeof kept);
        const char *word = strtok(line, " \n");
        int is_file = word && strcmp(word, "file") == 0, is_salvage = word && strcmp(word, "salvage") == 0;
        if (!is_file && !is_salvage) continue;
        if (is_file) held = hold_file(&bytes_region, shown);
        if (is_salvage) salvage_line(held, shown, kept), count++;
        if (strcmp(shown, expected) != 0) fail(shown, kept);
    }
    fclose(calls);
    fclose(answers);
    return count;
}

/* --- Bodies that were worked out by hand from documents 01 and 02 --------------------------------------------------- */

#define LAMP 0xa6, 0xe7, 3, 0, 0x46, 0x55, 5, 0, 0x50, 0x8d, 0x38, 0x83, 0x68, 0x97, 0, 0, 0, 0, 0, 1
#define EARLIER_LAMP 0xa6, 0xe7, 3, 0, 0x46, 0x55, 5, 0, 0x50, 0x8d, 0x38, 0x83, 0x68, 0x97, 0, 0, 0, 1
#define TINTED 0xa4, 0x58, 3, 0, 0xbc, 0xfd, 4, 0, 0xd8, 0x5a, 0xc0, 0x50, 0xf0, 0x64, 0xd5, 0xf6, 0xff, 0xff, 0, 255
#define EARLIER_TINTED 0xa4, 0x58, 3, 0, 0xbc, 0xfd, 4, 0, 0xd8, 0x5a, 0xc0, 0x50, 0xf0, 0x64, 0xd5, 0xf6, 0, 255
#define STEPPED(steps) 0xa4, 0x58, 3, 0, 0xbc, 0xfd, 4, 0, 0x48, 0x5a, 0x84, 0x55, 0x3a, 0x5d, 0xe5, 0xf6, 0xff, 0xff, steps, 2
#define FARTHEST 0xee, 0x43, 5, 0, 0x02, 0xbd, 4, 0, 0x58, 0xfc, 0x40, 0xf2, 0x58, 0xfc, 0xb0, 0x3c, 0xff, 0xff, 0, 0
#define TOO_FAR 0xee, 0x43, 5, 0, 0x01, 0xbd, 4, 0, 0x58, 0xfc, 0x40, 0xf2, 0x58, 0xfc, 0xaf, 0x3c, 0xff, 0xff, 0, 0
#define TOO_HOT 0xd8, 0xca, 2, 0, 0x20, 0x36, 4, 0, 0, 0, 0, 0, 0, 0, 0, 0, 0, 0, 0, 0
#define TRAILER(count) 20, 0, count, 0, 20 * count, 0, 0, 0

/* The listing's edges, and those of one class alone, which is then class 0 of every line. */
static const uint32_t EDGES[] = {1600, 2500, 3500, 5000, 20001}, WIDE[] = {1600, 20001}, EQUAL[] = {5000, 5000};

/* Lines 1 and 2 of the listing as a file; without its trailer; with records of 18 bytes; and cut within record 1. Then line 3, with other
 * steps and with its own, line 7, line 8 with its own distance, and line 9 with fields of zeros. */
static const uint8_t DESK[] = {LAMP, TINTED, TRAILER(2)}, EARLIER_DESK[] = {EARLIER_LAMP, EARLIER_TINTED, 18, 0, 2, 0, 36, 0, 0, 0};
static const uint8_t LAMP_FILE[] = {LAMP, TRAILER(1)}, NONE[] = {TRAILER(0)};
static const uint8_t MIXED[] = {TOO_HOT, LAMP, STEPPED(14), STEPPED(2), TOO_FAR, FARTHEST, STEPPED(15), 1, 2, 3};
static const uint8_t MIXED_FILE[] = {LAMP, STEPPED(2), FARTHEST, TRAILER(3)};

#define WHOLE(array) {array, sizeof array}
#define LIST(array) {array, sizeof array / sizeof *array}

typedef struct worked {
    lent_file bytes;
    size_t record_length;
    lent_edges edges;
    lent_file file;
    size_t dropped, leftover;
    uint64_t numbers[4];
} worked;

static const worked WORKED[] = {
    {{NONE, 0}, 20, LIST(EDGES), WHOLE(NONE), 0, 0, {0}},
    {WHOLE(NONE), 18, LIST(WIDE), WHOLE(NONE), 0, 8, {0}},
    {WHOLE(DESK), 20, LIST(EDGES), WHOLE(DESK), 0, 8, {0}},
    {{DESK, 40}, 20, LIST(EDGES), WHOLE(DESK), 0, 0, {0}},
    {{DESK, 39}, 20, LIST(EDGES), WHOLE(LAMP_FILE), 0, 19, {0}},
    {WHOLE(EARLIER_DESK), 18, LIST(EDGES), WHOLE(DESK), 0, 8, {0}},
    {{EARLIER_DESK, 35}, 18, LIST(EDGES), WHOLE(LAMP_FILE), 0, 17, {0}},
    {WHOLE(DESK), 20, LIST(WIDE), WHOLE(NONE), 2, 8, {0, 1}},
    {WHOLE(DESK), 18, LIST(EDGES), WHOLE(NONE), 2, 12, {0, 1}},
    {WHOLE(EARLIER_DESK), 20, LIST(EDGES), WHOLE(NONE), 2, 4, {0, 1}},
    {WHOLE(MIXED), 20, LIST(EDGES), WHOLE(MIXED_FILE), 4, 3, {0, 2, 4, 6}},
    {WHOLE(MIXED_FILE), 20, LIST(EDGES), WHOLE(MIXED_FILE), 0, 8, {0}},
};

static void expect_counts(ck_salvaged found, size_t kept, size_t dropped, size_t leftover, uint8_t refusal, const char *what) {
    if (found.kept != kept || found.dropped != dropped || found.leftover != leftover || found.refusal != refusal) fail(what, "another outcome");
}

/* The target begins with so many bytes of a file, and holds the pattern after them. */
static void expect_file(targets t, const uint8_t *file, size_t length, const char *what) {
    for (size_t i = 0; i < t.file_room; i++)
        if (t.file[i] != (i < length ? file[i] : byte_pattern(i))) fail(what, "another byte in the file's target");
}

/* The same of the list. */
static void expect_list(targets t, const uint64_t *numbers, size_t count, const char *what) {
    for (size_t i = 0; i < t.list_room; i++)
        if (t.list[i] != (i < count ? numbers[i] : number_pattern(i))) fail(what, "another number in the list's target");
}

/* A salvage that is not refused, in rooms that are exact or larger. */
static void expect_salvaged(const worked *w, size_t more_bytes, size_t more_numbers, const char *what) {
    targets to = make_targets(w->file.length + more_bytes, w->dropped + more_numbers);
    ck_salvaged found = salvage(lend_file(&bytes_region, w->bytes.at, w->bytes.length), w->record_length,
                                lend_edges(w->edges.at, w->edges.count), to, what);
    expect_counts(found, w->file.length / CK_RECORD_BYTES, w->dropped, w->leftover, CK_ACCEPTED, what);
    expect_file(to, w->file.at, w->file.length, what);
    expect_list(to, w->numbers, w->dropped, what);
}

/* A salvage that is refused: no count is given, and nothing is written. */
static void expect_refused(const worked *w, size_t record_length, lent_edges edges, size_t file_room, size_t list_room, uint8_t refusal,
                           const char *what) {
    targets to = make_targets(file_room, list_room);
    ck_salvaged found =
        salvage(lend_file(&bytes_region, w->bytes.at, w->bytes.length), record_length, lend_edges(edges.at, edges.count), to, what);
    expect_counts(found, 0, 0, 0, refusal, what);
    expect_file(to, NULL, 0, what);
    expect_list(to, NULL, 0, what);
}

/* Every room of each target that is too small, and both too small. */
static void expect_no_room(const worked *w, const char *what) {
    for (size_t room = 0; room < w->file.length; room++) expect_refused(w, w->record_length, w->edges, room, w->dropped, CK_NO_ROOM, what);
    for (size_t room = 0; room < w->dropped; room++) {
        expect_refused(w, w->record_length, w->edges, w->file.length, room, CK_NO_ROOM, what);
        expect_refused(w, w->record_length, w->edges, w->file.length - 1, room, CK_NO_ROOM, what);
    }
}

/* Bad edges, which come before a bad record length, and that, which comes before too little room. */
static void expect_bad_arguments(const worked *w, const char *what) {
    static const size_t lengths[] = {0, 1, 17, 19, 21, 36, 40, 65556, SIZE_MAX - 19, SIZE_MAX};
    lent_edges none = {EDGES, 0}, one = {EDGES, 1}, equal = LIST(EQUAL);
    for (size_t i = 0; i < sizeof lengths / sizeof *lengths; i++) {
        expect_refused(w, lengths[i], none, i, i, CK_BAD_EDGES, what);
        expect_refused(w, lengths[i], w->edges, i, i, CK_BAD_RECORD_LENGTH, what);
        expect_refused(w, lengths[i], w->edges, 200, 9, CK_BAD_RECORD_LENGTH, what);
    }
    expect_refused(w, w->record_length, one, 200, 9, CK_BAD_EDGES, what);
    expect_refused(w, w->record_length, equal, 0, 0, CK_BAD_EDGES, what);
}

static void bodies(void) {
    for (size_t k = 0; k < sizeof WORKED / sizeof *WORKED; k++) {
        char what[32];
        sprintf(what, "body %zu", k);
        for (size_t more = 0; more < 30; more++) {
            expect_salvaged(&WORKED[k], more, 0, what);
            expect_salvaged(&WORKED[k], more % 3, more, what);
        }
        expect_no_room(&WORKED[k], what);
        expect_bad_arguments(&WORKED[k], what);
    }
}

/* --- 3,200 records kept, and one more ------------------------------------------------------------------------------- */

enum { MOST = 3200 };

/* So many records of the lamp, with one that is too hot before the last of them, and the new file's trailer where it belongs. */
static void most_kept(size_t kept, uint8_t refusal) {
    static uint8_t body[(MOST + 2) * CK_RECORD_BYTES], file[(MOST + 1) * CK_RECORD_BYTES + CK_TRAILER_BYTES];
    static const uint8_t lamp[] = {LAMP}, hot[] = {TOO_HOT};
    const uint8_t trailer[] = {20, 0, (uint8_t)kept, (uint8_t)(kept >> 8), (uint8_t)(20 * kept), (uint8_t)(20 * kept >> 8), 0, 0};
    uint64_t number = kept - 1;
    for (size_t i = 0; i <= kept; i++) memcpy(body + i * sizeof lamp, i == kept - 1 ? hot : lamp, sizeof lamp);
    for (size_t i = 0; i < kept; i++) memcpy(file + i * sizeof lamp, lamp, sizeof lamp);
    memcpy(file + kept * sizeof lamp, trailer, sizeof trailer);
    worked w = {{body, (kept + 1) * sizeof lamp}, 20, LIST(EDGES), {file, kept * sizeof lamp + sizeof trailer}, 1, 0, {number}};
    if (!refusal) expect_salvaged(&w, 0, 0, "as many as there may be");
    expect_refused(&w, 20, w.edges, w.file.length - 1, 1, refusal ? refusal : (uint8_t)CK_NO_ROOM, "a byte short");
    expect_refused(&w, 20, w.edges, w.file.length, 0, refusal ? refusal : (uint8_t)CK_NO_ROOM, "a number short");
    if (refusal) expect_refused(&w, 20, w.edges, w.file.length, 1, refusal, "one too many");
}

/* --- Cases that only C can make ------------------------------------------------------------------------------------ */

/* NULL with a count of 0 for the bytes, of which nothing is kept, for the edges, which are then bad, and for targets without room. */
static void without_memory(void) {
    lent_edges edges = lend_edges(EDGES, 5);
    targets to = make_targets(8, 0);
    expect_counts(ck_salvage(NULL, 0, 20, NULL, 0, NULL, 0, NULL, 0), 0, 0, 0, CK_BAD_EDGES, "NULL for everything");
    expect_counts(ck_salvage(NULL, 0, 20, edges.at, edges.count, NULL, 0, NULL, 0), 0, 0, 0, CK_NO_ROOM, "NULL for the targets");
    expect_counts(ck_salvage(NULL, 0, 19, edges.at, edges.count, NULL, 0, NULL, 0), 0, 0, 0, CK_BAD_RECORD_LENGTH, "NULL, and 19");
    expect_counts(ck_salvage(NULL, 0, 18, edges.at, edges.count, to.file, 8, NULL, 0), 0, 0, 0, CK_ACCEPTED, "NULL for the list");
    expect_file(to, NONE, sizeof NONE, "the file of no records");
}

/* The bytes and the edges are only read, so they may overlap: the edges as bytes are a record of other fields. */
static void edges_as_bytes(void) {
    lent_edges edges = lend_edges(EDGES, 5);
    targets to = make_targets(8, 1);
    const uint64_t first = 0;
    ck_salvaged found =
        ck_salvage((const uint8_t *)edges.at, 5 * sizeof *edges.at, 18, edges.at, edges.count, to.file, to.file_room, to.list, to.list_room);
    expect_counts(found, 0, 1, 2, CK_ACCEPTED, "the edges as bytes");
    expect_file(to, NONE, sizeof NONE, "the edges as bytes");
    expect_list(to, &first, 1, "the edges as bytes");
}

int main(int argc, char **argv) {
    if (argc != 3) {
        fprintf(stderr, "salvage_test CALLS ANSWERS\n");
        return 2;
    }
    make_regions();
    bodies();
    most_kept(MOST, 0);
    most_kept(MOST + 1, CK_TOO_MANY_RECORDS);
    without_memory();
    edges_as_bytes();
    long count = run_vectors(argv[1], argv[2]);
    if (count == 0) fail("no vectors of salvage", argv[1]);
    printf("salvage_test: %ld salvages, and %zu bodies worked out by hand, %ld failures\n", count, sizeof WORKED / sizeof *WORKED, failures);
    return failures != 0;
}
