/* Runs the answer vectors of tests/make_vectors.py through the six C functions that answer a reading, and each answer through
 * ck_record_of; and the cases that only C can make.
 *
 *     abi_test crates/vectors/stdin crates/vectors/stdout
 *
 * Each list stands at the end of a page of its own that cannot be written, before one that cannot be read, so that a write to
 * it, or a read past its end, ends the test. Compiles as C11 and as C++11. */
#define _GNU_SOURCE 1
#include "../../include/cradlekeel.h"
#include "readings.h"

#include <inttypes.h>

SAME_LAYOUT(sizeof(ck_whole) == 20);
SAME_LAYOUT(sizeof(ck_answer) == 40);
SAME_LAYOUT(offsetof(ck_answer, whole) == 16);
SAME_LAYOUT(offsetof(ck_whole, duv) == 12);
SAME_LAYOUT(offsetof(ck_whole, class_index) == 18);
SAME_LAYOUT(sizeof(ck_kept) == 28);
SAME_LAYOUT(offsetof(ck_kept, kept) == 24);

enum { SAMPLES, X_BAR, Y_BAR, Z_BAR, EDGES, LISTS };
enum { MOST_NUMBERS = 1024 };

/* --- Lists that can be read and nothing else ----------------------------------------------------------------------- */

typedef struct list {
    const uint32_t *numbers;
    size_t count;
} list;

static region regions[LISTS];

static void make_regions(void) {
    for (int which = 0; which < LISTS; which++) regions[which] = make_region(MOST_NUMBERS * sizeof(uint32_t));
}

static list lend(int which, const uint32_t *numbers, size_t count) {
    list copied = {(const uint32_t *)lend_bytes(&regions[which], numbers, count * sizeof *numbers), count};
    return copied;
}

static ck_answer read_samples(const list lists[LISTS], uint32_t max_steps) {
    const list *s = &lists[SAMPLES], *x = &lists[X_BAR], *y = &lists[Y_BAR], *z = &lists[Z_BAR], *e = &lists[EDGES];
    return ck_read_samples(s->numbers, s->count, x->numbers, x->count, y->numbers, y->count, z->numbers, z->count, e->numbers, e->count,
                           max_steps);
}

/* --- The vectors --------------------------------------------------------------------------------------------------- */

static uint64_t bits_of(double value) {
    uint64_t bits;
    memcpy(&bits, &value, sizeof bits);
    return bits;
}

typedef struct call {
    reading asked;
    uint32_t max_steps;
    list lists[LISTS]; /* those of a reading are held from line to line */
} call;

/* The numbers up to the end of the line. */
static list next_list(int which) {
    static uint32_t numbers[MOST_NUMBERS];
    size_t count = 0;
    for (const char *word; (word = next_word());) count = add_numbers(numbers, count, MOST_NUMBERS, word);
    return lend(which, numbers, count);
}

/* `list s|x|y|z NUMBERS..`, the words after the first: the list is replaced, and its length is the answer expected. */
static void hold_list(call *made, const char *expected, const char *line) {
    static const char names[] = "sxyz";
    const char *name = next_word(), *found = name ? strchr(names, *name) : NULL;
    if (!found) {
        fail("no such list", line);
        return;
    }
    int which = (int)(found - names);
    made->lists[which] = next_list(which);
    if (made->lists[which].count != strtoul(expected, NULL, 10)) fail("another number of numbers", line);
}

/* `answer KIND NUMBERS.. MAX_STEPS EDGES..`, the words after the first. */
static void read_call(call *made) {
    next_reading(&made->asked);
    made->max_steps = next_number(10);
    made->lists[EDGES] = next_list(EDGES);
}

static ck_answer run(const call *c) {
    const list *edges = &c->lists[EDGES];
    if (is_kind(&c->asked, "samples")) return read_samples(c->lists, c->max_steps);
    return answer_reading(&c->asked, edges->numbers, edges->count, c->max_steps);
}

/* The answer as tests/answer_cases.py writes what it expects. */
static void show(char *to, size_t size, ck_answer a) {
    const ck_whole *w = &a.whole;
    snprintf(to, size, "%u %" PRIu32 " %" PRIu32 " %" PRIu32 " %" PRId32 " %u %u %016" PRIx64 " %016" PRIx64 "\n", w->refusal, w->place,
             w->low, w->high, w->duv, w->steps, w->class_index, bits_of(a.kelvin), bits_of(a.duv));
}

/* The record of an answer, with any two numbers for u and v: its fields, and zeros where it is not kept. */
static void check_record(uint32_t u, uint32_t v, ck_whole w, int is_kept, const char *line) {
    ck_kept k = ck_record_of(u, v, w);
    const ck_record *r = &k.record;
    if (!is_kept) u = v = 0, memset(&w, 0, sizeof w);
    if (k.kept != is_kept || r->u != u || r->v != v || r->place != w.place || r->low != w.low || r->high != w.high || r->duv != w.duv ||
        r->steps != w.steps || r->class_index != w.class_index)
        fail("ck_record_of", line);
}

static void run_vector(call *c, const char *expected, const char *line) {
    static char shown[LONGEST_LINE];
    read_call(c);
    ck_answer a = run(c);
    show(shown, sizeof shown, a);
    if (strcmp(shown, expected) != 0) fail(shown, line);
    check_record(c->asked.numbers[0], c->asked.numbers[1], a.whole, a.whole.refusal == CK_ACCEPTED, line);
}

static long run_vectors(const char *calls_path, const char *answers_path) {
    static char line[LONGEST_LINE], kept[LONGEST_LINE], expected[LONGEST_LINE];
    static call c;
    long count = 0;
    FILE *calls = open_lines(calls_path), *answers = open_lines(answers_path);
    while (next_line(line, calls) && next_line(expected, answers)) {
        memcpy(kept, line, sizeof kept);
        const char *word = strtok(line, " \n");
        if (word && strcmp(word, "list") == 0) hold_list(&c, expected, kept);
        if (!word || strcmp(word, "answer") != 0) continue;
        run_vector(&c, expected, kept);
        count++;
    }
    fclose(calls);
    fclose(answers);
    return count;
}

/* --- Cases that only C can make ------------------------------------------------------------------------------------ */

/* A refusal: its number, and all bits zero in every other field. */
static void expect_refused(ck_answer a, uint8_t refusal, const char *what) {
    const ck_whole *w = &a.whole;
    int zeros = !w->place && !w->low && !w->high && !w->duv && !w->steps && !w->class_index && !bits_of(a.kelvin) && !bits_of(a.duv);
    if (w->refusal != refusal || !zeros) fail(what, "another answer");
}

static void no_edges_at_all(void) {
    expect_refused(ck_read_uv(0.25f, 0.35f, NULL, 0, 14), CK_BAD_EDGES, "uv, NULL and no edges");
    expect_refused(ck_read_uvp(0.25f, 0.5f, NULL, 0, 14), CK_BAD_EDGES, "uvp, NULL and no edges");
    expect_refused(ck_read_xy(0.3f, 0.3f, NULL, 0, 14), CK_BAD_EDGES, "xy, NULL and no edges");
    expect_refused(ck_read_xyz(95.f, 100.f, 109.f, NULL, 0, 14), CK_BAD_EDGES, "xyz, NULL and no edges");
    expect_refused(ck_read_micro(255910, 349510, NULL, 0, 14), CK_BAD_EDGES, "micro, NULL and no edges");
    expect_refused(ck_read_samples(NULL, 0, NULL, 0, NULL, 0, NULL, 0, NULL, 0, 14), CK_BAD_EDGES, "samples, NULL and no edges");
}

/* Each pattern that is no number at each position of each function. */
static void not_finite(void) {
    const uint32_t *edges = lend(EDGES, GOOD_EDGES, GOOD_COUNT).numbers;
    for (size_t i = 0; i < NOT_FINITE_COUNT; i++) {
        float bad = float_of(NOT_FINITE[i]);
        feclearexcept(FE_INVALID);
        expect_refused(ck_read_uv(bad, 0.35f, edges, GOOD_COUNT, 14), CK_NOT_FINITE, "uv, u not finite");
        expect_refused(ck_read_uv(2.0f, bad, edges, GOOD_COUNT, 14), CK_NOT_FINITE, "uv, v not finite");
        expect_refused(ck_read_uvp(bad, 0.5f, edges, GOOD_COUNT, 14), CK_NOT_FINITE, "uvp, u' not finite");
        expect_refused(ck_read_uvp(-1.0f, bad, edges, GOOD_COUNT, 14), CK_NOT_FINITE, "uvp, v' not finite");
        expect_refused(ck_read_xy(bad, 0.3f, edges, GOOD_COUNT, 14), CK_NOT_FINITE, "xy, x not finite");
        expect_refused(ck_read_xy(1.0f, bad, edges, GOOD_COUNT, 14), CK_NOT_FINITE, "xy, y not finite");
        expect_refused(ck_read_xyz(bad, 100.f, 100.f, edges, GOOD_COUNT, 14), CK_NOT_FINITE, "xyz, X not finite");
        expect_refused(ck_read_xyz(5000.f, bad, 100.f, edges, GOOD_COUNT, 14), CK_NOT_FINITE, "xyz, Y not finite");
        expect_refused(ck_read_xyz(100.f, 0.f, bad, edges, GOOD_COUNT, 14), CK_NOT_FINITE, "xyz, Z not finite");
        expect_refused(ck_read_uv(bad, bad, edges, 1, 14), CK_BAD_EDGES, "uv, bad edges before not finite");
        if (infinity_is_invalid(NOT_FINITE[i])) fail("an invalid operation", "an infinite float");
    }
}

/* One number over and over. */
static list lend_equal(int which, size_t count, uint32_t number) {
    static uint32_t numbers[MOST_NUMBERS];
    for (size_t i = 0; i < count; i++) numbers[i] = number;
    return lend(which, numbers, count);
}

/* Equal samples and equal numbers in the three tables, with good edges. */
static void lend_all(list lists[LISTS], size_t count, uint32_t sample, uint32_t table) {
    lists[SAMPLES] = lend_equal(SAMPLES, count, sample);
    lists[X_BAR] = lend_equal(X_BAR, count, table);
    lists[Y_BAR] = lend_equal(Y_BAR, count, table);
    lists[Z_BAR] = lend_equal(Z_BAR, count, table);
    lists[EDGES] = lend(EDGES, GOOD_EDGES, GOOD_COUNT);
}

/* X = Y = Z is u 210526, v 315789 in document 01. */
static void expect_equal_energy(const list lists[LISTS], const char *what) {
    char shown[LONGEST_LINE], expected[LONGEST_LINE];
    show(shown, sizeof shown, read_samples(lists, 14));
    show(expected, sizeof expected, ck_read_micro(210526, 315789, GOOD_EDGES, GOOD_COUNT, 14));
    if (strcmp(shown, expected) != 0) fail(what, shown);
}

enum { MOST_SAMPLES = 471, LARGEST_SAMPLE = 16777215, LARGEST_TABLE = 4000000 };

/* NULL with a count of 0 in each place, alone and in all four. */
static void samples_without_a_list(void) {
    list lists[LISTS] = {{NULL, 0}, {NULL, 0}, {NULL, 0}, {NULL, 0}, lend(EDGES, GOOD_EDGES, GOOD_COUNT)};
    expect_refused(read_samples(lists, 14), CK_BAD_LENGTHS, "samples, NULL for all four lists");
    for (int which = SAMPLES; which <= EDGES; which++) {
        lend_all(lists, 3, 1, 1);
        lists[which].numbers = NULL;
        lists[which].count = 0;
        expect_refused(read_samples(lists, 14), which == EDGES ? CK_BAD_EDGES : CK_BAD_LENGTHS, "samples, NULL for one list");
    }
}

/* Lists up to a whole page: 471 numbers are taken and more are not, whatever they are. */
static void samples_beyond_the_most(void) {
    list lists[LISTS];
    lend_all(lists, MOST_SAMPLES, 1, 1);
    expect_equal_energy(lists, "471 samples");
    for (size_t count = MOST_SAMPLES + 1; count <= MOST_NUMBERS; count++) {
        lend_all(lists, count, count % 2 ? 1 : UINT32_MAX, 1);
        expect_refused(read_samples(lists, 14), CK_BAD_LENGTHS, "over 471 samples");
    }
}

/* The largest numbers are taken; one more at the end of any list is not, nor the largest of 32 bits. */
static void samples_at_their_limits(void) {
    static uint32_t numbers[MOST_SAMPLES];
    list lists[LISTS];
    lend_all(lists, MOST_SAMPLES, LARGEST_SAMPLE, LARGEST_TABLE);
    expect_equal_energy(lists, "471 samples, all numbers the largest");
    lend_all(lists, MOST_SAMPLES, UINT32_MAX, UINT32_MAX);
    expect_refused(read_samples(lists, 14), CK_SAMPLE_TOO_LARGE, "samples, all numbers of 32 bits");
    for (int which = SAMPLES; which <= Z_BAR; which++) {
        lend_all(lists, MOST_SAMPLES, 0, LARGEST_TABLE);
        memcpy(numbers, lists[which].numbers, sizeof numbers);
        numbers[MOST_SAMPLES - 1] = (which == SAMPLES ? LARGEST_SAMPLE : LARGEST_TABLE) + 1;
        lists[which] = lend(which, numbers, MOST_SAMPLES);
        expect_refused(read_samples(lists, 14), CK_SAMPLE_TOO_LARGE, "samples, the last number of a list one over its limit");
    }
}

/* One list in all four places. */
static void samples_that_are_their_tables(void) {
    list lists[LISTS];
    lend_all(lists, MOST_SAMPLES, LARGEST_TABLE, LARGEST_TABLE);
    for (int which = X_BAR; which <= Z_BAR; which++) lists[which] = lists[SAMPLES];
    expect_equal_energy(lists, "one list in all four places");
}

/* The whole numbers of an answer. */
static void expect_whole(ck_answer a, const char *expected, const char *line) {
    char shown[LONGEST_LINE], *end = shown;
    show(shown, sizeof shown, a);
    for (int words = 0; words < 7; words++) end = strchr(end, ' ') + 1;
    end[-1] = '\0';
    if (strcmp(shown, expected) != 0) fail(line, shown);
}

/* Lines of document 01's listing. */
static void listing(void) {
    const uint32_t *edges = lend(EDGES, GOOD_EDGES, GOOD_COUNT).numbers;
    ck_answer a = ck_read_micro(219300, 327100, edges, GOOD_COUNT, 2);
    expect_whole(a, "0 23112 21892 23866 -2331 2 2", "219300 327100 2");
    if (a.kelvin != 103360000.0 / 23112 || a.duv != -2331 / 1e6) fail("219300 327100 2", "the doubles");
    expect_whole(ck_read_micro(345070, 330530, edges, GOOD_COUNT, 0), "0 64600 62016 64600 -30000 0 0", "345070 330530 0");
    expect_whole(ck_read_micro(345070, 330529, edges, GOOD_COUNT, 0), "0 64600 62016 64600 -30001 0 0", "345070 330529 0");
    expect_whole(ck_read_micro(345070, 310530, edges, GOOD_COUNT, 0), "0 64600 62016 64600 -50000 0 0", "345070 310530 0");
    expect_refused(ck_read_micro(345070, 310529, edges, GOOD_COUNT, 0), CK_TOO_FAR, "345070 310529 0");
    expect_refused(ck_read_micro(183000, 276000, edges, GOOD_COUNT, 14), CK_TOO_HOT, "183000 276000");
    expect_refused(ck_read_micro(346000, 360540, edges, GOOD_COUNT, 14), CK_TOO_COOL, "346000 360540");
}

/* Answers that this library never gives: numbers at the limits of their fields, places beyond them, any Duv, and refusals with other
 * numbers. */
static void records_of_any_answer(void) {
    static const int32_t duvs[] = {0, -1, 30001, -30001, 32767, -32767, 32768, -32768, -32769, 50000, -50001, 65536, INT32_MAX - 1, INT32_MIN + 1};
    const ck_whole largest = {65535, 65535, 65535, INT32_MAX, CK_ACCEPTED, 255, 255};
    const ck_whole least = {0, 0, 0, INT32_MIN, CK_ACCEPTED, 0, 0};
    check_record(UINT32_MAX, 0, largest, 1, "every field the largest");
    check_record(0, UINT32_MAX, least, 1, "every field the least");
    for (size_t i = 0; i < sizeof duvs / sizeof *duvs; i++) {
        ck_whole other = largest;
        other.duv = duvs[i];
        check_record(1, 2, other, 1, "any Duv");
    }
    for (int which = 0; which < 6; which++) {
        ck_whole other = largest;
        uint32_t *const places[] = {&other.place, &other.low, &other.high};
        *places[which % 3] = which < 3 ? 65536 : UINT32_MAX;
        check_record(1, 2, other, 0, "a number beyond its field");
    }
    for (int refusal = 1; refusal < 256; refusal++) {
        ck_whole refused = largest;
        refused.refusal = (uint8_t)refusal;
        check_record(1, 2, refused, 0, "a refusal");
    }
}

int main(int argc, char **argv) {
    if (argc != 3) {
        fprintf(stderr, "abi_test CALLS ANSWERS\n");
        return 2;
    }
    make_regions();
    no_edges_at_all();
    not_finite();
    samples_without_a_list();
    samples_beyond_the_most();
    samples_at_their_limits();
    samples_that_are_their_tables();
    listing();
    records_of_any_answer();
    long count = run_vectors(argv[1], argv[2]);
    if (count == 0) fail("no answer vectors", argv[1]);
    printf("abi_test: %ld vectors, %ld failures\n", count, failures);
    return failures != 0;
}
