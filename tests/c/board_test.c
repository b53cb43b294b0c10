/* Runs the vectors of boards of tests/make_vectors.py through the C functions on boards, histories that were worked out by hand, and the
 * cases that only C can make.
 *
 *     board_test crates/vectors/stdin crates/vectors/stdout
 *
 * The columns that are lent can be read and not written, and each ends before a page that cannot be touched, so that a write to one, or
 * a read past its end, ends the test. Compiles as C11 and as C++11. */
#define _GNU_SOURCE 1
#include "../../include/cradlekeel.h"
#include "columns.h"

#include <inttypes.h>

SAME_LAYOUT(CK_MOST_LOTS == 64);
SAME_LAYOUT(CK_HIGHEST_STAMP == 65535);
SAME_LAYOUT(sizeof(ck_lot) == 32);
SAME_LAYOUT(offsetof(ck_lot, record) == 0);
SAME_LAYOUT(offsetof(ck_lot, job) == 24);
SAME_LAYOUT(offsetof(ck_lot, stamp) == 28);
SAME_LAYOUT(CK_OURS == 0);
SAME_LAYOUT(CK_PARTNER == 1);
SAME_LAYOUT(sizeof(ck_board) == 2064);
SAME_LAYOUT(offsetof(ck_board, ours) == 0);
SAME_LAYOUT(offsetof(ck_board, count) == 8);
SAME_LAYOUT(offsetof(ck_board, lots) == 16);
SAME_LAYOUT(sizeof(ck_told) == 36);
SAME_LAYOUT(offsetof(ck_told, lot) == 0);
SAME_LAYOUT(offsetof(ck_told, stamp) == 32);
SAME_LAYOUT(offsetof(ck_told, refusal) == 34);
SAME_LAYOUT(sizeof(ck_board_answer) == 2104);
SAME_LAYOUT(offsetof(ck_board_answer, board) == 0);
SAME_LAYOUT(offsetof(ck_board_answer, told) == 2064);

enum { MOST_LOTS = 64, LAST_STAMP = 65535, HOUSES = 2 };
static const uint8_t NO_PARTIES[] = {2, 3, 128, 254, 255}; /* numbers that no house has */

static region sides[HOUSES][COLUMNS]; /* the columns of each house, apart from those that the vectors hold */

static ck_board_answer load(const columns *ours, const columns *theirs) {
    const void *const *at = ours->at, *const *at2 = theirs->at;
    const size_t *n = ours->counts, *n2 = theirs->counts;
    return ck_board_load((const uint32_t *)at[U], n[U], (const uint32_t *)at[V], n[V], (const uint16_t *)at[PLACE], n[PLACE],
                         (const uint16_t *)at[LOW], n[LOW], (const uint16_t *)at[HIGH], n[HIGH], (const int32_t *)at[DUV], n[DUV],
                         (const uint8_t *)at[STEPS], n[STEPS], (const uint8_t *)at[CLASS], n[CLASS], (const uint32_t *)at2[U], n2[U],
                         (const uint32_t *)at2[V], n2[V], (const uint16_t *)at2[PLACE], n2[PLACE], (const uint16_t *)at2[LOW], n2[LOW],
                         (const uint16_t *)at2[HIGH], n2[HIGH], (const int32_t *)at2[DUV], n2[DUV], (const uint8_t *)at2[STEPS],
                         n2[STEPS], (const uint8_t *)at2[CLASS], n2[CLASS]);
}

/* --- The vectors --------------------------------------------------------------------------------------------------- */

static uint32_t add_lot(uint32_t sum, const ck_lot *lot) {
    const ck_record *r = &lot->record;
    const uint32_t numbers[] = {r->u, r->v, r->place, r->low, r->high, (uint32_t)r->duv, r->steps, r->class_index, lot->job, lot->stamp};
    for (size_t i = 0; i < sizeof numbers / sizeof *numbers; i++) sum = with_number(sum, numbers[i]);
    return sum;
}

/* What a call was told, and then what a read of each place 0 to 64 is told, our house first and then the partner's. */
static uint32_t add_answer(uint32_t sum, const ck_board_answer *a) {
    sum = add_lot(with_number(with_number(sum, a->told.refusal), a->told.stamp), &a->told.lot);
    for (size_t i = 0; i < HOUSES * (MOST_LOTS + 1); i++) {
        ck_told told = ck_board_read(a->board, (uint8_t)(i % HOUSES), i / HOUSES).told;
        sum = add_lot(with_number(sum, told.refusal), &told.lot);
    }
    return sum;
}

/* `n PLACE STAMP JOB TIMES`: assignments with stamps that rise; they end with 65,535. */
static ck_board_answer assign_often(ck_board board, uint8_t party, size_t place, size_t stamp, uint32_t job, size_t times) {
    ck_board_answer a = ck_board_assign(board, party, place, (uint16_t)stamp, job);
    for (size_t k = 1; k < times && stamp + k <= LAST_STAMP; k++) a = ck_board_assign(a.board, party, place, (uint16_t)(stamp + k), job);
    return a;
}

/* A small letter is a call of ours, and a capital one of the partner's. */
static ck_board_answer next_call(ck_board board, char letter) {
    uint8_t party = letter >= 'A' && letter <= 'Z' ? CK_PARTNER : CK_OURS;
    char kind = (char)(letter | 32);
    size_t place = next_size();
    if (kind == 'r') return ck_board_read(board, party, place);
    size_t stamp = next_size();
    uint32_t job = (uint32_t)next_size();
    if (kind == 'n') return assign_often(board, party, place, stamp, job, next_size());
    return ck_board_assign(board, party, place, (uint16_t)stamp, job);
}

/* Of each column held the numbers before the split are ours, and those from it on the partner's. */
static columns part_of(const columns *held, int house, size_t split) {
    columns part = {{NULL}, {0}};
    for (int k = 0; k < COLUMNS; k++) {
        size_t cut = split < held->counts[k] ? split : held->counts[k], first = house == CK_OURS ? 0 : cut;
        part.counts[k] = house == CK_OURS ? cut : held->counts[k] - cut;
        if (!held->at[k]) continue;
        part.at[k] = lend_bytes(&sides[house][k], (const char *)held->at[k] + first * WIDTHS[k], part.counts[k] * WIDTHS[k]);
    }
    return part;
}

/* `board SPLIT WORDS..`, the words after the first. */
static void board_line(const columns *held, char *shown) {
    size_t split = next_size();
    columns ours = part_of(held, CK_OURS, split), theirs = part_of(held, CK_PARTNER, split);
    ck_board_answer a = load(&ours, &theirs);
    uint32_t sum = add_answer(0, &a);
    shown += sprintf(shown, "%u ", a.told.refusal);
    for (const char *word; (word = next_word());) {
        a = next_call(a.board, *word);
        sum = add_answer(sum, &a);
        shown += sprintf(shown, "%u %u ", a.told.refusal, a.told.stamp);
    }
    sprintf(shown, "%" PRIu32 "\n", sum);
}

static long run_vectors(const char *calls_path, const char *answers_path) {
    static char line[LONGEST_LINE], kept[LONGEST_LINE], expected[LONGEST_LINE], shown[4 * LONGEST_LINE];
    static columns held; /* NULL with a count of 0 for each, until a line replaces it */
    long count = 0;
    FILE *calls = open_lines(calls_path), *answers = open_lines(answers_path);
    while (next_line(line, calls) && next_line(expected, answers)) {
        memcpy(kept, line, sizeof kept);
        const char *word = strtok(line, " \n");
        int is_column = word && strcmp(word, "column") == 0, is_board = word && strcmp(word, "board") == 0;
        if (!is_column && !is_board) continue;
        if (is_column) hold_column(&held, shown, kept);
        if (is_board) board_line(&held, shown), count++;
        if (strcmp(shown, expected) != 0) fail(shown, kept);
    }
    fclose(calls);
    fclose(answers);
    return count;
}

/* --- What is equal ------------------------------------------------------------------------------------------------- */

static int same_lot(const ck_lot *a, const ck_lot *b) {
    const ck_record *r = &a->record, *s = &b->record;
    return r->u == s->u && r->v == s->v && r->place == s->place && r->low == s->low && r->high == s->high && r->duv == s->duv &&
           r->steps == s->steps && r->class_index == s->class_index && a->job == b->job && a->stamp == b->stamp;
}

static int same_board(const ck_board *a, const ck_board *b) {
    int same = a->ours == b->ours && a->count == b->count;
    for (size_t i = 0; i < MOST_LOTS; i++) same = same && same_lot(&a->lots[i], &b->lots[i]);
    return same;
}

static const ck_lot NO_LOT = {{0, 0, 0, 0, 0, 0, 0, 0}, 0, 0};

/* An answer: its refusal, stamp and lot, and the whole board. */
static void expect(ck_board_answer a, uint8_t refusal, uint16_t stamp, const ck_lot *lot, const ck_board *board, const char *what) {
    if (a.told.refusal != refusal || a.told.stamp != stamp) fail(what, "another refusal or stamp");
    if (!same_lot(&a.told.lot, lot)) fail(what, "another lot");
    if (!same_board(&a.board, board)) fail(what, "another board");
}

/* --- Loading ------------------------------------------------------------------------------------------------------- */

/* A number for each column and index, at and about the limits of its width. */
static uint32_t number_of(int k, size_t i) {
    if (k == DUV && i % 5 == 4) return i % 2 ? INT32_MAX - (uint32_t)i : (uint32_t)INT32_MIN + (uint32_t)i;
    if (i % 3 == 0) return (uint32_t)(1000 * i + 77 * (size_t)k);
    return i % 3 == 1 ? UINT32_MAX - (uint32_t)i : 0;
}

static ck_lot lot_of(size_t i) {
    ck_lot lot = NO_LOT;
    lot.record.u = number_of(U, i), lot.record.v = number_of(V, i);
    lot.record.place = (uint16_t)number_of(PLACE, i), lot.record.low = (uint16_t)number_of(LOW, i);
    lot.record.high = (uint16_t)number_of(HIGH, i), lot.record.duv = (int32_t)number_of(DUV, i);
    lot.record.steps = (uint8_t)number_of(STEPS, i), lot.record.class_index = (uint8_t)number_of(CLASS, i);
    return lot;
}

enum { THEIR_FIRST = 1000 }; /* where the partner's numbers begin, so that no lot of theirs is one of ours */

/* The board of so many lots of ours and behind them so many of the partner's. */
static ck_board board_of(size_t ours, size_t theirs) {
    ck_board board;
    board.ours = ours;
    board.count = ours + theirs;
    for (size_t i = 0; i < MOST_LOTS; i++) board.lots[i] = i < ours ? lot_of(i) : i < board.count ? lot_of(THEIR_FIRST + i - ours) : NO_LOT;
    return board;
}

static columns lend_all(int house, const size_t counts[COLUMNS]) {
    static uint32_t numbers[MOST_NUMBERS];
    size_t first = house == CK_OURS ? 0 : THEIR_FIRST;
    columns c = {{NULL}, {0}};
    for (int k = 0; k < COLUMNS; k++) {
        for (size_t i = 0; i < counts[k]; i++) numbers[i] = number_of(k, first + i);
        lend_in(sides[house], &c, (size_t)k, numbers, counts[k]);
    }
    return c;
}

static columns lend_equal(int house, size_t count) {
    size_t counts[COLUMNS];
    for (int k = 0; k < COLUMNS; k++) counts[k] = count;
    return lend_all(house, counts);
}

static ck_board_answer load_equal(size_t ours, size_t theirs) {
    columns c = lend_equal(CK_OURS, ours), d = lend_equal(CK_PARTNER, theirs);
    return load(&c, &d);
}

/* Up to 64 records, of both houses together, become the lots in their order, ours first; of more there are none. */
static void loads(void) {
    static const size_t over[][2] = {{64, 64}, {128, 0}, {0, 128}, {200, 56}, {255, 1}, {256, 0}, {1, 255}, {3600, 0}, {64, 3600},
                                     {MOST_NUMBERS, 0}, {1, MOST_NUMBERS}, {MOST_NUMBERS, MOST_NUMBERS}, {65535, 1}, {1, 65535}};
    ck_board none = board_of(0, 0);
    for (size_t together = 0; together <= MOST_LOTS + 2; together++)
        for (size_t ours = 0; ours <= together; ours++) {
            size_t theirs = together - ours;
            if (together > MOST_LOTS) {
                expect(load_equal(ours, theirs), CK_TOO_MANY_LOTS, 0, &NO_LOT, &none, "a load of 65 or 66");
                continue;
            }
            ck_board board = board_of(ours, theirs);
            expect(load_equal(ours, theirs), CK_ACCEPTED, 0, &NO_LOT, &board, "a load");
        }
    for (size_t i = 0; i < sizeof over / sizeof *over; i++)
        expect(load_equal(over[i][0], over[i][1]), CK_TOO_MANY_LOTS, 0, &NO_LOT, &none, "a load of more than 64");
}

/* The load where column k of a house has so many numbers, and each other one more than that; the other house has as many in each. */
static void load_unequal(int house, int k, size_t shortest, size_t longer, size_t other) {
    size_t counts[COLUMNS];
    for (int j = 0; j < COLUMNS; j++) counts[j] = j == k ? shortest : longer + (size_t)j;
    columns uneven = lend_all(house, counts), even = lend_equal(1 - house, other);
    if (shortest == 0) uneven.at[k] = NULL;
    uint8_t refusal = CK_ACCEPTED;
    if (shortest + other > MOST_LOTS) refusal = CK_TOO_MANY_LOTS;
    ck_board board = refusal ? board_of(0, 0) : house == CK_OURS ? board_of(shortest, other) : board_of(other, shortest);
    ck_board_answer a = house == CK_OURS ? load(&uneven, &even) : load(&even, &uneven);
    expect(a, refusal, 0, &NO_LOT, &board, "columns of unequal lengths");
}

/* A list is as long as its shortest column, whichever that is; NULL with a count of 0 is a column too. */
static void loads_of_unequal_columns(void) {
    static const size_t lengths[][2] = {{0, 1}, {1, 2}, {1, 65}, {64, 65}, {64, 3600}, {3, 64}, {65, 66}};
    static const size_t others[] = {0, 1, 61, 63};
    for (int house = 0; house < HOUSES; house++)
        for (int k = 0; k < COLUMNS; k++)
            for (size_t i = 0; i < sizeof lengths / sizeof *lengths; i++)
                for (size_t j = 0; j < sizeof others / sizeof *others; j++) load_unequal(house, k, lengths[i][0], lengths[i][1], others[j]);
    columns nothing = {{NULL}, {0}};
    ck_board none = board_of(0, 0);
    expect(load(&nothing, &nothing), CK_ACCEPTED, 0, &NO_LOT, &none, "NULL for everything");
}

/* What is only read may be one: u and v, the three positions, steps and class, and both houses' lists. */
static void columns_that_are_one(void) {
    columns c = lend_equal(CK_OURS, 5);
    c.at[V] = c.at[U], c.at[LOW] = c.at[HIGH] = c.at[PLACE], c.at[CLASS] = c.at[STEPS];
    ck_board board = board_of(5, 5);
    for (size_t i = 0; i < 5; i++) {
        ck_record *r = &board.lots[i].record;
        r->v = r->u, r->low = r->high = r->place, r->class_index = r->steps;
        board.lots[5 + i] = board.lots[i];
    }
    expect(load(&c, &c), CK_ACCEPTED, 0, &NO_LOT, &board, "columns that are one");
}

/* --- Histories that were worked out by hand from document 02, No. 6 and 11 ----------------------------------------- */

enum { READ, ASSIGN };
typedef struct call {
    int kind;
    size_t place;
    uint16_t stamp; /* the stamp and the job of an assignment */
    uint32_t job;
    uint8_t refusal; /* what it is told */
    uint16_t told_stamp;
    uint32_t jobs[4]; /* of the lots, three or four, once the call is made */
    uint16_t stamps[4];
} call;

static const call CALLS[] = {
    {READ, 0, 0, 0, 0, 0, {0, 0, 0}, {0, 0, 0}},                /* Ann looks at lot 0, */
    {READ, 0, 0, 0, 0, 0, {0, 0, 0}, {0, 0, 0}},                /* and so does Ben: both see stamp 0 */
    {ASSIGN, 0, 0, 4711, 0, 0, {4711, 0, 0}, {1, 0, 0}},        /* Ann is stored, */
    {ASSIGN, 0, 0, 4712, 18, 1, {4711, 0, 0}, {1, 0, 0}},       /* and Ben is told the current stamp */
    {READ, 0, 0, 0, 0, 0, {4711, 0, 0}, {1, 0, 0}},             /* he sees Ann's job */
    {ASSIGN, 0, 1, 4712, 0, 0, {4712, 0, 0}, {2, 0, 0}},        /* and takes the lot over knowingly */
    {ASSIGN, 0, 1, 4713, 18, 2, {4712, 0, 0}, {2, 0, 0}},       /* the stamp before the current one */
    {ASSIGN, 0, 3, 4713, 18, 2, {4712, 0, 0}, {2, 0, 0}},       /* the stamp after it */
    {ASSIGN, 1, 2, 4713, 18, 0, {4712, 0, 0}, {2, 0, 0}},       /* the stamp of another lot; the current one is 0 and is told */
    {ASSIGN, 2, 65535, 1, 18, 0, {4712, 0, 0}, {2, 0, 0}},      /* the largest stamp */
    {ASSIGN, 2, 0, UINT32_MAX, 0, 0, {4712, 0, UINT32_MAX}, {2, 0, 1}}, /* the largest job */
    {ASSIGN, 2, 1, 0, 0, 0, {4712, 0, 0}, {2, 0, 2}},           /* job 0 is stored as any other, and raises the stamp */
    {ASSIGN, 2, 2, 0, 0, 0, {4712, 0, 0}, {2, 0, 3}},           /* the same job again too */
    {READ, 2, 0, 0, 0, 0, {4712, 0, 0}, {2, 0, 3}},
    {READ, 1, 0, 0, 0, 0, {4712, 0, 0}, {2, 0, 3}},
    {READ, 3, 0, 0, 17, 0, {4712, 0, 0}, {2, 0, 3}},            /* one place too far */
    {ASSIGN, 3, 0, 9, 17, 0, {4712, 0, 0}, {2, 0, 3}},          /* with the stamp that an unused place would have */
    {ASSIGN, 3, 7, 9, 17, 0, {4712, 0, 0}, {2, 0, 3}},          /* 17 comes before 18, */
    {ASSIGN, 3, 65535, 9, 17, 0, {4712, 0, 0}, {2, 0, 3}},      /* and before 19 */
    {READ, 63, 0, 0, 17, 0, {4712, 0, 0}, {2, 0, 3}},
    {READ, 64, 0, 0, 17, 0, {4712, 0, 0}, {2, 0, 3}},
    {ASSIGN, 65, 0, 9, 17, 0, {4712, 0, 0}, {2, 0, 3}},
    {READ, SIZE_MAX, 0, 0, 17, 0, {4712, 0, 0}, {2, 0, 3}},     /* the largest place, */
    {ASSIGN, SIZE_MAX, 0, 9, 17, 0, {4712, 0, 0}, {2, 0, 3}},
    {READ, (size_t)1 << 32, 0, 0, 17, 0, {4712, 0, 0}, {2, 0, 3}}, /* and one whose lowest 32 bits are 0 */
    {ASSIGN, 1, 0, 5, 0, 0, {4712, 5, 0}, {2, 1, 3}},
};
enum { CALL_COUNT = sizeof CALLS / sizeof *CALLS };

/* Places 0 and 1 are ours, and 2 and 3 the partner's. */
typedef struct made_call {
    uint8_t party;
    call c;
} made_call;

static const made_call SHARED[] = {
    {0, {READ, 1, 0, 0, 0, 0, {0, 0, 0, 0}, {0, 0, 0, 0}}},             /* our last place, */
    {0, {READ, 2, 0, 0, 17, 0, {0, 0, 0, 0}, {0, 0, 0, 0}}},            /* and the partner's first */
    {1, {READ, 2, 0, 0, 0, 0, {0, 0, 0, 0}, {0, 0, 0, 0}}},
    {1, {READ, 1, 0, 0, 17, 0, {0, 0, 0, 0}, {0, 0, 0, 0}}},
    {1, {READ, 0, 0, 0, 17, 0, {0, 0, 0, 0}, {0, 0, 0, 0}}},
    {0, {ASSIGN, 2, 0, 4711, 17, 0, {0, 0, 0, 0}, {0, 0, 0, 0}}},       /* the other's place with its current stamp, */
    {0, {ASSIGN, 3, 1, 4711, 17, 0, {0, 0, 0, 0}, {0, 0, 0, 0}}},       /* and with another: no 18, which would tell the stamp */
    {1, {ASSIGN, 2, 0, 815, 0, 0, {0, 0, 815, 0}, {0, 0, 1, 0}}},
    {0, {ASSIGN, 2, 0, 4711, 17, 0, {0, 0, 815, 0}, {0, 0, 1, 0}}},     /* now stale, */
    {0, {ASSIGN, 2, 1, 4711, 17, 0, {0, 0, 815, 0}, {0, 0, 1, 0}}},     /* current, */
    {0, {ASSIGN, 2, 65535, 4711, 17, 0, {0, 0, 815, 0}, {0, 0, 1, 0}}}, /* and the largest */
    {0, {ASSIGN, 0, 0, 4711, 0, 0, {4711, 0, 815, 0}, {1, 0, 1, 0}}},
    {1, {ASSIGN, 0, 0, 815, 17, 0, {4711, 0, 815, 0}, {1, 0, 1, 0}}},
    {1, {ASSIGN, 0, 1, 815, 17, 0, {4711, 0, 815, 0}, {1, 0, 1, 0}}},
    {1, {ASSIGN, 2, 0, 816, 18, 1, {4711, 0, 815, 0}, {1, 0, 1, 0}}},   /* of its own place a house is told the stamp */
    {1, {ASSIGN, 2, 1, 0, 0, 0, {4711, 0, 0, 0}, {1, 0, 2, 0}}},
    {2, {READ, 0, 0, 0, 17, 0, {4711, 0, 0, 0}, {1, 0, 2, 0}}},         /* who is neither has no places */
    {2, {READ, 2, 0, 0, 17, 0, {4711, 0, 0, 0}, {1, 0, 2, 0}}},
    {255, {READ, 2, 0, 0, 17, 0, {4711, 0, 0, 0}, {1, 0, 2, 0}}},
    {2, {ASSIGN, 0, 1, 9, 17, 0, {4711, 0, 0, 0}, {1, 0, 2, 0}}},
    {255, {ASSIGN, 2, 2, 9, 17, 0, {4711, 0, 0, 0}, {1, 0, 2, 0}}},
    {2, {ASSIGN, 2, 0, 9, 17, 0, {4711, 0, 0, 0}, {1, 0, 2, 0}}},
    {0, {READ, 4, 0, 0, 17, 0, {4711, 0, 0, 0}, {1, 0, 2, 0}}},         /* nor has any house the place after the last */
    {1, {READ, 4, 0, 0, 17, 0, {4711, 0, 0, 0}, {1, 0, 2, 0}}},
    {1, {ASSIGN, 4, 0, 9, 17, 0, {4711, 0, 0, 0}, {1, 0, 2, 0}}},
    {1, {READ, SIZE_MAX, 0, 0, 17, 0, {4711, 0, 0, 0}, {1, 0, 2, 0}}},
    {1, {ASSIGN, 3, 0, UINT32_MAX, 0, 0, {4711, 0, 0, UINT32_MAX}, {1, 0, 2, 1}}},
    {0, {READ, 0, 0, 0, 0, 0, {4711, 0, 0, UINT32_MAX}, {1, 0, 2, 1}}},
    {1, {READ, 3, 0, 0, 0, 0, {4711, 0, 0, UINT32_MAX}, {1, 0, 2, 1}}},
};
enum { SHARED_COUNT = sizeof SHARED / sizeof *SHARED };

static ck_board_answer made(ck_board board, uint8_t party, const call *c) {
    return c->kind == READ ? ck_board_read(board, party, c->place) : ck_board_assign(board, party, c->place, c->stamp, c->job);
}

/* Makes a call; what it is told and the board that comes back are the expected ones. */
static ck_board next_board(ck_board board, ck_board *expected, uint8_t party, const call *c, size_t number) {
    char what[40];
    sprintf(what, "call %zu of a history, party %d", number, party);
    for (size_t k = 0; k < 4; k++) expected->lots[k].job = c->jobs[k], expected->lots[k].stamp = c->stamps[k];
    ck_board_answer a = made(board, party, c);
    int is_answered = c->kind == READ && c->refusal == CK_ACCEPTED;
    expect(a, c->refusal, c->told_stamp, is_answered ? &expected->lots[c->place] : &NO_LOT, expected, what);
    return a.board;
}

/* The history of three lots, all of them one house's, and the one of two houses. */
static void histories(void) {
    for (int house = 0; house < HOUSES; house++) {
        size_t ours = house == CK_OURS ? 3 : 0;
        ck_board board = load_equal(ours, 3 - ours).board, expected = board_of(ours, 3 - ours);
        for (size_t i = 0; i < CALL_COUNT; i++) board = next_board(board, &expected, (uint8_t)house, &CALLS[i], i);
    }
    ck_board board = load_equal(2, 2).board, expected = board_of(2, 2);
    for (size_t i = 0; i < SHARED_COUNT; i++) board = next_board(board, &expected, SHARED[i].party, &SHARED[i].c, i);
}

/* --- Other cases --------------------------------------------------------------------------------------------------- */

/* Every stamp up to the last one is taken in turn; there the lot stays as it is, and the other house is told nothing of it. */
static void stamps_to_the_last(uint8_t party, size_t place, size_t elsewhere) {
    static const uint16_t stale[] = {0, 1, 32768, 65534};
    uint8_t other = (uint8_t)(1 - party);
    ck_board_answer a = load_equal(32, 32);
    for (uint32_t stamp = 0; stamp < LAST_STAMP; stamp++) {
        a = ck_board_assign(a.board, party, place, (uint16_t)stamp, stamp + 1);
        if (a.told.refusal != CK_ACCEPTED || a.told.stamp != 0) fail("a stamp under 65,535", "refused");
    }
    ck_board last = board_of(32, 32);
    last.lots[place].job = last.lots[place].stamp = LAST_STAMP;
    expect(a, CK_ACCEPTED, 0, &NO_LOT, &last, "the last assignment");
    expect(ck_board_assign(last, party, place, LAST_STAMP, 7), CK_LAST_STAMP, 0, &NO_LOT, &last, "the last stamp");
    expect(ck_board_assign(last, party, place, LAST_STAMP, 0), CK_LAST_STAMP, 0, &NO_LOT, &last, "the last stamp and job 0");
    expect(ck_board_assign(last, other, place, LAST_STAMP, 7), CK_NO_SUCH_PLACE, 0, &NO_LOT, &last, "the last stamp of the other house");
    for (size_t i = 0; i < sizeof stale / sizeof *stale; i++) {
        expect(ck_board_assign(last, party, place, stale[i], 7), CK_STALE_STAMP, LAST_STAMP, &NO_LOT, &last, "a stale stamp at the last");
        expect(ck_board_assign(last, other, place, stale[i], 7), CK_NO_SUCH_PLACE, 0, &NO_LOT, &last, "a stale stamp of the other house");
    }
    expect(ck_board_read(last, party, place), CK_ACCEPTED, 0, &last.lots[place], &last, "a read at the last stamp");
    ck_board next = last;
    next.lots[elsewhere].job = 8, next.lots[elsewhere].stamp = 1;
    expect(ck_board_assign(last, party, elsewhere, 0, 8), CK_ACCEPTED, 0, &NO_LOT, &next, "another lot");
}

/* A read and assignments with the current stamp and with another one, at a place that is the party's on the board or is not. */
static void try_place(const ck_board *board, uint8_t party, size_t place, int has_lot) {
    uint8_t refusal = CK_ACCEPTED;
    if (!has_lot) refusal = CK_NO_SUCH_PLACE;
    uint16_t current = place < MOST_LOTS ? board->lots[place].stamp : 0, other = (uint16_t)(current + 1);
    ck_board after = *board;
    if (has_lot) after.lots[place].job = 4711, after.lots[place].stamp = (uint16_t)(current + 1);
    expect(ck_board_read(*board, party, place), refusal, 0, has_lot ? &board->lots[place] : &NO_LOT, board, "a read");
    expect(ck_board_assign(*board, party, place, current, 4711), refusal, 0, &NO_LOT, &after, "an assignment");
    if (has_lot) expect(ck_board_assign(*board, party, place, other, 4711), CK_STALE_STAMP, current, &NO_LOT, board, "another stamp");
    else expect(ck_board_assign(*board, party, place, other, 4711), CK_NO_SUCH_PLACE, 0, &NO_LOT, board, "another stamp where no lot is");
}

/* Places that `try_places` tries: those of a board, some beyond it, and some whose lowest bits are those of a place. */
static size_t place_at(size_t i) {
    static const size_t beyond[] = {1000, (size_t)1 << 32, ((size_t)1 << 32) + 1, SIZE_MAX};
    return i <= MOST_LOTS + 2 ? i : beyond[i - MOST_LOTS - 3];
}

/* Every place, by our house, the partner's and numbers that no house has. A place is ours where it is under `ours`, and otherwise the
 * partner's, and has a lot where it is under the count and under 64. */
static void try_places(const ck_board *board) {
    for (size_t i = 0; i < MOST_LOTS + 7; i++) {
        size_t place = place_at(i);
        int is_there = place < board->count && place < MOST_LOTS;
        try_place(board, CK_OURS, place, is_there && place < board->ours);
        try_place(board, CK_PARTNER, place, is_there && !(place < board->ours));
        for (size_t k = 0; k < sizeof NO_PARTIES; k++) try_place(board, NO_PARTIES[k], place, 0);
    }
}

/* Boards of every length, with several numbers of lots that are ours. */
static void every_place(void) {
    for (size_t count = 0; count <= MOST_LOTS; count++) {
        const size_t splits[] = {0, 1, count / 2, count - 1, count};
        for (size_t i = 0; i < sizeof splits / sizeof *splits; i++) {
            if (splits[i] > count) continue;
            ck_board board = load_equal(splits[i], count - splits[i]).board;
            try_places(&board);
        }
    }
}

/* A board of zeros is the one of no lots. */
static void board_of_zeros(void) {
    ck_board zeros, none = load_equal(0, 0).board;
    memset(&zeros, 0, sizeof zeros);
    if (!same_board(&zeros, &none)) fail("a board of zeros", "not the board of no lots");
    try_places(&zeros);
}

/* Bytes that no load made: any counts, also more lots of ours than there are lots, and lots beyond the count. */
static void boards_of_any_bytes(void) {
    static const size_t counts[] = {0, 2, 63, 64, 65, 66, 1000, (size_t)1 << 32, SIZE_MAX};
    static const size_t ours[] = {0, 1, 2, 5, 40, 63, 64, 65, (size_t)1 << 32, SIZE_MAX};
    for (size_t i = 0; i < sizeof counts / sizeof *counts; i++)
        for (size_t k = 0; k < sizeof ours / sizeof *ours; k++) {
            ck_board board = board_of(64, 0);
            board.ours = ours[k], board.count = counts[i];
            for (size_t place = 0; place < MOST_LOTS; place++) board.lots[place].stamp = (uint16_t)(3 * place);
            try_places(&board);
        }
    for (uint8_t party = CK_OURS; party <= CK_PARTNER; party++) {
        ck_board ones;
        memset(&ones, 255, sizeof ones);
        if (party == CK_PARTNER) ones.ours = 63;
        expect(ck_board_read(ones, party, 63), CK_ACCEPTED, 0, &ones.lots[63], &ones, "bytes of 255");
        expect(ck_board_assign(ones, party, 63, LAST_STAMP, 9), CK_LAST_STAMP, 0, &NO_LOT, &ones, "bytes of 255");
        expect(ck_board_assign(ones, party, 63, 0, 9), CK_STALE_STAMP, LAST_STAMP, &NO_LOT, &ones, "bytes of 255");
        expect(ck_board_read(ones, (uint8_t)(1 - party), 63), CK_NO_SUCH_PLACE, 0, &NO_LOT, &ones, "bytes of 255, the other house");
    }
}

int main(int argc, char **argv) {
    if (argc != 3) {
        fprintf(stderr, "board_test CALLS ANSWERS\n");
        return 2;
    }
    make_column_regions();
    for (int house = 0; house < HOUSES; house++) make_each_region(sides[house]);
    loads();
    loads_of_unequal_columns();
    columns_that_are_one();
    histories();
    stamps_to_the_last(CK_OURS, 0, 31);
    stamps_to_the_last(CK_PARTNER, 63, 32);
    every_place();
    board_of_zeros();
    boards_of_any_bytes();
    long count = run_vectors(argv[1], argv[2]);
    if (count == 0) fail("no vectors of boards", argv[1]);
    printf("board_test: %ld vectors and histories of %d and %d calls, %ld failures\n", count, CALL_COUNT, SHARED_COUNT, failures);
    return failures != 0;
}
