/* Runs the vectors of the ready points and of coarse readings of tests/make_vectors.py through the five C functions that read coarsely, each
 * reading through the function that searches too, whose refusal must be the same; readings that were worked out by hand; and the cases that
 * only C can make.
 *
 *     coarse_test crates/vectors/stdin crates/vectors/stdout
 *
 * Compiles as C11 and as C++11. */
#define _GNU_SOURCE 1
#include "../../include/cradlekeel.h"
#include "readings.h"

#include <inttypes.h>
#include <ucontext.h>

SAME_LAYOUT(sizeof(ck_coarse) == 8);
SAME_LAYOUT(offsetof(ck_coarse, place) == 0);
SAME_LAYOUT(offsetof(ck_coarse, refusal) == 4);

static ck_coarse coarse_reading(const reading *r) {
    const uint32_t *n = r->numbers;
    float x = float_of(n[0]), y = float_of(n[1]), z = float_of(n[2]);
    if (is_kind(r, "uv")) return ck_coarse_uv(x, y);
    if (is_kind(r, "uvp")) return ck_coarse_uvp(x, y);
    if (is_kind(r, "xy")) return ck_coarse_xy(x, y);
    if (is_kind(r, "xyz")) return ck_coarse_xyz(x, y, z);
    if (!is_kind(r, "whole")) no_such_kind(r);
    return ck_coarse_micro(n[0], n[1]);
}

static void expect(ck_coarse found, uint8_t refusal, uint32_t place, const char *what) {
    char shown[64];
    sprintf(shown, "answered %u %" PRIu32, found.refusal, found.place);
    if (found.refusal != refusal || found.place != place) fail(what, shown);
}

/* --- The vectors --------------------------------------------------------------------------------------------------- */

static const uint32_t WHOLE_RANGE[] = {1600, 20001}, COOLEST[] = {1600, 1601}, HOTTEST[] = {20000, 20001};

typedef struct edge_list {
    const uint32_t *at;
    size_t count;
} edge_list;

enum { EDGE_LISTS = 4 };
static edge_list lent[EDGE_LISTS];

/* Several good edges, which can be read and nothing else. */
static void lend_edges(void) {
    static const edge_list lists[EDGE_LISTS] = {{GOOD_EDGES, GOOD_COUNT}, {WHOLE_RANGE, 2}, {COOLEST, 2}, {HOTTEST, 2}};
    for (int i = 0; i < EDGE_LISTS; i++) {
        size_t bytes = lists[i].count * sizeof *lists[i].at;
        region r = make_region(bytes);
        lent[i].at = (const uint32_t *)lend_bytes(&r, lists[i].at, bytes);
        lent[i].count = lists[i].count;
    }
}

/* The search refuses with the same number, with each of the edges and several allowances. */
static void check_search(const reading *r, uint8_t refusal, const char *line) {
    static const uint32_t allowances[] = {0, 1, 6, 13, 14, 15, UINT32_MAX};
    for (int i = 0; i < EDGE_LISTS; i++)
        for (size_t k = 0; k < sizeof allowances / sizeof *allowances; k++)
            if (answer_reading(r, lent[i].at, lent[i].count, allowances[k]).whole.refusal != refusal)
                fail("the search has another refusal", line);
}

/* `coarse KIND NUMBERS..`, the words after the first; the answer as tests/coarse_cases.py writes what it expects. */
static void coarse_line(const char *expected, const char *line) {
    static reading asked;
    char shown[64];
    next_reading(&asked);
    ck_coarse found = coarse_reading(&asked);
    sprintf(shown, "%u %" PRIu32 "\n", found.refusal, found.place);
    if (strcmp(shown, expected) != 0) fail(shown, line);
    check_search(&asked, found.refusal, line);
}

/* `ready K`, whose answer is the ready point's place, u and v: the point itself is answered by its place. */
static void ready_line(const char *expected, const char *line) {
    uint32_t place, u, v;
    if (sscanf(expected, "%" SCNu32 " %" SCNu32 " %" SCNu32, &place, &u, &v) != 3) fail("no ready point", line);
    else expect(ck_coarse_micro(u, v), CK_ACCEPTED, place, line);
}

typedef struct counts {
    long ready, coarse;
} counts;

static counts run_vectors(const char *calls_path, const char *answers_path) {
    static char line[LONGEST_LINE], kept[LONGEST_LINE], expected[LONGEST_LINE];
    counts ran = {0, 0};
    FILE *calls = open_lines(calls_path), *answers = open_lines(answers_path);
    while (next_line(line, calls) && next_line(expected, answers)) {
        memcpy(kept, line, sizeof kept);
        const char *word = strtok(line, " \n");
        if (word && strcmp(word, "ready") == 0) ready_line(expected, kept), ran.ready++;
        if (word && strcmp(word, "coarse") == 0) coarse_line(expected, kept), ran.coarse++;
    }
    fclose(calls);
    fclose(answers);
    return ran;
}

/* --- Readings that were worked out by hand from documents 01 and 02 -------------------------------------------------- */

/* Entries, which are ready points; the middle of two ready points and a millionth on; and each refusal of whole numbers. */
static void by_hand(void) {
    expect(ck_coarse_micro(183870, 277150), CK_ACCEPTED, 5168, "the first entry");
    expect(ck_coarse_micro(255910, 349510), CK_ACCEPTED, 36176, "the thirteenth entry");
    expect(ck_coarse_micro(345070, 360530), CK_ACCEPTED, 64600, "the last entry");
    expect(ck_coarse_micro(184037, 277660), CK_ACCEPTED, 5320, "between (184018, 277603) and (184056, 277717)");
    expect(ck_coarse_micro(184038, 277660), CK_ACCEPTED, 5358, "nearer to (184056, 277717)");
    expect(ck_coarse_micro(345070, 310530), CK_ACCEPTED, 64600, "0.05 from the last entry");
    expect(ck_coarse_micro(345070, 310529), CK_TOO_FAR, 0, "a millionth more than 0.05 from the last entry");
    expect(ck_coarse_micro(183000, 276000), CK_TOO_HOT, 0, "183000 276000");
    expect(ck_coarse_micro(346000, 360540), CK_TOO_COOL, 0, "346000 360540");
    expect(ck_coarse_micro(4000000, 4000000), CK_TOO_FAR, 0, "the largest numbers");
    expect(ck_coarse_micro(4000001, 349510), CK_OUT_OF_RANGE, 0, "u over its range");
    expect(ck_coarse_micro(255910, UINT32_MAX), CK_OUT_OF_RANGE, 0, "v over its range");
    expect(ck_coarse_xyz(1.f, 0.f, 1.f), CK_TOO_DARK, 0, "a dark Y");
}

/* --- Cases that only C can make ------------------------------------------------------------------------------------ */

/* Each pattern that is no number at each position of each function, beside numbers out of range and a dark Y. */
static void not_finite(void) {
    for (size_t i = 0; i < NOT_FINITE_COUNT; i++) {
        float bad = float_of(NOT_FINITE[i]);
        feclearexcept(FE_INVALID);
        expect(ck_coarse_uv(bad, 0.35f), CK_NOT_FINITE, 0, "uv, u not finite");
        expect(ck_coarse_uv(2.0f, bad), CK_NOT_FINITE, 0, "uv, v not finite");
        expect(ck_coarse_uvp(bad, 0.5f), CK_NOT_FINITE, 0, "uvp, u' not finite");
        expect(ck_coarse_uvp(-1.0f, bad), CK_NOT_FINITE, 0, "uvp, v' not finite");
        expect(ck_coarse_xy(bad, 0.3f), CK_NOT_FINITE, 0, "xy, x not finite");
        expect(ck_coarse_xy(1.0f, bad), CK_NOT_FINITE, 0, "xy, y not finite");
        expect(ck_coarse_xyz(bad, 100.f, 100.f), CK_NOT_FINITE, 0, "xyz, X not finite");
        expect(ck_coarse_xyz(5000.f, bad, 100.f), CK_NOT_FINITE, 0, "xyz, Y not finite");
        expect(ck_coarse_xyz(100.f, 0.f, bad), CK_NOT_FINITE, 0, "xyz, Z not finite");
        if (infinity_is_invalid(NOT_FINITE[i])) fail("an invalid operation", "an infinite float");
    }
}

enum { STACK = 1 << 16, MOST_STACK = 13 * 1024, UNTOUCHED = 0xa5 };

static ucontext_t tests_own, on_stack;
static const reading *asked_on_stack;
static ck_coarse found_on_stack;

static void call_on_stack(void) {
    if (asked_on_stack) found_on_stack = coarse_reading(asked_on_stack);
}

/* How many bytes of a stack of its own a call takes; with NULL no function is called. */
static size_t stack_of(const reading *asked) {
    static uint8_t stack[STACK];
    size_t untouched = 0;
    memset(stack, UNTOUCHED, sizeof stack);
    asked_on_stack = asked;
    if (getcontext(&on_stack) != 0) exit(2);
    on_stack.uc_stack.ss_sp = stack;
    on_stack.uc_stack.ss_size = sizeof stack;
    on_stack.uc_link = &tests_own;
    makecontext(&on_stack, call_on_stack, 0);
    if (swapcontext(&tests_own, &on_stack) != 0) exit(2);
    while (untouched < sizeof stack && stack[untouched] == UNTOUCHED) untouched++;
    return sizeof stack - untouched;
}

/* The most that a call takes by any of the functions, which the header limits. Each is called before it is measured, since the first call of
 * a shared function has the linker look for it. */
static size_t most_stack(void) {
    static const reading readings[] = {{"uv", {0x3e6076f4, 0x3ea76a2b, 0}}, {"uvp", {0x3e800000, 0x3f000000, 0}},
                                       {"xy", {0x3ea01a37, 0x3ea872b0, 0}}, {"xyz", {0x42c80000, 0x42c80000, 0x42c80000}},
                                       {"whole", {219300, 327100, 0}}};
    size_t most = 0, without = stack_of(NULL);
    for (size_t i = 0; i < sizeof readings / sizeof *readings; i++) {
        ck_coarse first = coarse_reading(&readings[i]);
        size_t used = stack_of(&readings[i]) - without;
        expect(found_on_stack, CK_ACCEPTED, first.place, "on a stack of its own");
        if (used > MOST_STACK) fail("more stack than the header says", readings[i].kind);
        if (used > most) most = used;
    }
    return most;
}

int main(int argc, char **argv) {
    if (argc != 3) {
        fprintf(stderr, "coarse_test CALLS ANSWERS\n");
        return 2;
    }
    lend_edges();
    by_hand();
    not_finite();
    size_t stack = most_stack();
    counts ran = run_vectors(argv[1], argv[2]);
    if (ran.ready == 0 || ran.coarse == 0) fail("no vectors of the ready points, or none of coarse readings", argv[1]);
    printf("coarse_test: %ld ready points and %ld coarse readings, with at most %zu bytes of stack, %ld failures\n", ran.ready, ran.coarse,
           stack, failures);
    return failures != 0;
}
