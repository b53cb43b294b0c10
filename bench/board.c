/* Times an assignment and a read on a board of 64 lots, 40 of them ours and 24 the partner's, by the library, by the same rules in plain C
 * by value, and in plain C in place. First the three are held to each other over random histories. A copy of a board alone is timed
 * beside them. */
#include "measure.h"
#include "plain_board.h"

#include <stdio.h>
#include <stdlib.h>
#include <string.h>

enum { LOTS = CK_MOST_LOTS, OUR_LOTS = 40, HISTORIES = 300, HISTORY = 400, CALLS = 20000, ROUNDS = 101 };

typedef struct {
    uint32_t u[LOTS + 1], v[LOTS + 1];
    uint16_t place[LOTS + 1], low[LOTS + 1], high[LOTS + 1];
    int32_t duv[LOTS + 1];
    uint8_t steps[LOTS + 1], class_index[LOTS + 1];
} columns;

static columns given;

static void make_records(void) {
    for (size_t i = 0; i <= LOTS; i++) {
        given.u[i] = (uint32_t)below(1ull << 32), given.v[i] = (uint32_t)below(1ull << 32);
        given.place[i] = (uint16_t)below(65536), given.low[i] = (uint16_t)below(65536), given.high[i] = (uint16_t)below(65536);
        given.duv[i] = (int32_t)(uint32_t)below(1ull << 32);
        given.steps[i] = (uint8_t)below(256), given.class_index[i] = (uint8_t)below(256);
    }
}

/* A load of `count` records, the first n of them ours. */
static ck_board_answer load_by(load_board *load, size_t n, size_t count) {
    const columns *c = &given;
    size_t m = count - n;
    return load(c->u, n, c->v, n, c->place, n, c->low, n, c->high, n, c->duv, n, c->steps, n, c->class_index, n, c->u + n, m, c->v + n, m,
                c->place + n, m, c->low + n, m, c->high + n, m, c->duv + n, m, c->steps + n, m, c->class_index + n, m);
}

/* --- Equal answers ------------------------------------------------------------------------------------------------- */

static int same_lot(const ck_lot *a, const ck_lot *b) {
    const ck_record *r = &a->record, *s = &b->record;
    return r->u == s->u && r->v == s->v && r->place == s->place && r->low == s->low && r->high == s->high && r->duv == s->duv &&
           r->steps == s->steps && r->class_index == s->class_index && a->job == b->job && a->stamp == b->stamp;
}

static int same_board(const ck_board *a, const ck_board *b) {
    if (a->ours != b->ours || a->count != b->count) return 0;
    for (size_t i = 0; i < LOTS; i++)
        if (!same_lot(&a->lots[i], &b->lots[i])) return 0;
    return 1;
}

static int same_told(const ck_told *a, const ck_told *b) {
    return a->refusal == b->refusal && a->stamp == b->stamp && same_lot(&a->lot, &b->lot);
}

static void require_same(const ck_board_answer *proved, const ck_board_answer *plain, const char *what) {
    if (same_told(&proved->told, &plain->told) && same_board(&proved->board, &plain->board)) return;
    printf("DIFFERENT ANSWERS: %s\n", what);
    exit(1);
}

/* A stamp about the current one of a place; now and then any. */
static uint16_t some_stamp(const ck_board *board, size_t place) {
    uint16_t current = place < board->count ? board->lots[place].stamp : 0;
    return below(8) == 0 ? (uint16_t)below(65536) : (uint16_t)(current + (below(4) == 0 ? below(3) : 0));
}

/* The house that has a place, and one time in eight any number. */
static uint8_t some_party(const ck_board *board, size_t place) {
    return below(8) == 0 ? (uint8_t)below(256) : place < board->ours ? CK_OURS : CK_PARTNER;
}

/* The three make the same calls, from a load of 0 to 65 records, any number of them ours, some lots near the last stamp. */
static void require_same_history(size_t count) {
    size_t ours = (size_t)below(count + 1);
    ck_board_answer proved = load_by(ck_board_load, ours, count), plain = load_by(plain_board_load, ours, count);
    require_same(&proved, &plain, "loading");
    for (size_t i = 0; i < plain.board.count; i++)
        if (below(8) == 0) proved.board.lots[i].stamp = plain.board.lots[i].stamp = (uint16_t)(65533 + below(3));
    ck_board_answer in_place = plain;
    for (int i = 0; i < HISTORY; i++) {
        size_t place = (size_t)(below(16) == 0 ? below(UINT64_MAX) : below(count + 2));
        uint8_t who = some_party(&plain.board, place);
        uint16_t stamp = some_stamp(&plain.board, place);
        uint32_t job = (uint32_t)below(1ull << 32);
        int is_read = below(3) == 0;
        proved = is_read ? ck_board_read(proved.board, who, place) : ck_board_assign(proved.board, who, place, stamp, job);
        plain = is_read ? plain_board_read(plain.board, who, place) : plain_board_assign(plain.board, who, place, stamp, job);
        in_place.told = is_read ? in_place_read(&in_place.board, who, place) : in_place_assign(&in_place.board, who, place, stamp, job);
        require_same(&proved, &plain, "by value");
        require_same(&proved, &in_place, "in place");
    }
}

/* --- Time ---------------------------------------------------------------------------------------------------------- */

enum { PROVED, BY_VALUE, IN_PLACE, COPY, FORMS };
static const char *const NAMES[FORMS] = {"Cradlekeel", "plain C, by value", "plain C, in place", "a copy of a board alone"};

static ck_board held;
static size_t places[CALLS];
static uint8_t houses[CALLS]; /* those that have the places */
static uint16_t stamps[CALLS]; /* those that are current when the assignments are made one after the other */

static void make_calls(void) {
    uint16_t current[LOTS] = {0};
    for (int i = 0; i < CALLS; i++) {
        places[i] = (size_t)below(LOTS);
        houses[i] = places[i] < OUR_LOTS ? CK_OURS : CK_PARTNER;
        stamps[i] = current[places[i]]++;
    }
}

/* Each call is made on the board that the one before handed back; how many were refused, and for reads the sum of stamps. */
static unsigned long assign_by(assign_board *assign) {
    unsigned long refused = 0;
    for (int i = 0; i < CALLS; i++) {
        ck_board_answer a = assign(held, houses[i], places[i], stamps[i], (uint32_t)i);
        held = a.board;
        refused += a.told.refusal;
    }
    return refused;
}

static unsigned long read_by(read_board *read) {
    unsigned long sum = 0;
    for (int i = 0; i < CALLS; i++) {
        ck_board_answer a = read(held, houses[i], places[i]);
        held = a.board;
        sum += a.told.lot.stamp;
    }
    return sum;
}

static unsigned long assign_in_place(void) {
    unsigned long refused = 0;
    for (int i = 0; i < CALLS; i++) refused += in_place_assign(&held, houses[i], places[i], stamps[i], (uint32_t)i).refusal;
    return refused;
}

static unsigned long read_in_place(void) {
    unsigned long sum = 0;
    for (int i = 0; i < CALLS; i++) sum += in_place_read(&held, houses[i], places[i]).lot.stamp;
    return sum;
}

/* A copy to memory that the compiler does not look into. */
static void copy_held(void) {
    static ck_board copies[2];
    for (int i = 0; i < CALLS; i++) {
        ck_board *volatile to = &copies[i % 2];
        memcpy(to, &held, sizeof held);
    }
}

static unsigned long assign_all(int form) {
    if (form == PROVED) return assign_by(ck_board_assign);
    return form == BY_VALUE ? assign_by(plain_board_assign) : assign_in_place();
}

static unsigned long read_all(int form) {
    if (form == PROVED) return read_by(ck_board_read);
    return form == BY_VALUE ? read_by(plain_board_read) : read_in_place();
}

static void require(int holds, const char *what) {
    if (holds) return;
    printf("ANOTHER OUTCOME: %s\n", what);
    exit(1);
}

/* The assignments, all of them stored, and then the reads, on one board; the board after them is the same each time. */
static void time_form(int form, double *assigning, double *reading) {
    static ck_board last;
    held = load_by(ck_board_load, OUR_LOTS, LOTS).board;
    double start = seconds();
    unsigned long refused = assign_all(form);
    keep_least(assigning, seconds() - start);
    require(refused == 0, "an assignment is refused");
    if (last.count == 0) last = held;
    require(same_board(&held, &last), "another board");
    start = seconds();
    unsigned long sum = read_all(form);
    keep_least(reading, seconds() - start);
    require(sum != 0 && same_board(&held, &last), "a read");
}

static double time_copies(void) {
    double start = seconds();
    copy_held();
    return seconds() - start;
}

static void print_form(const char *name, double assigning, double reading, const double *units) {
    printf("| %-23s | %10.1f |  %5.2f | %10.1f |  %5.2f |\n", name, assigning * 1e9 / CALLS, assigning / units[0], reading * 1e9 / CALLS,
           reading / units[1]);
}

int main(void) {
    double assigning[FORMS] = {0}, reading[FORMS] = {0};
    make_records();
    for (int i = 0; i < HISTORIES; i++) require_same_history((size_t)(i % (LOTS + 2)));
    printf("%d histories of %d calls: the library, the plain C by value and the plain C in place give equal boards and answers.\n\n", HISTORIES,
           HISTORY);
    make_calls();
    for (int round = 0; round < ROUNDS; round++) {
        for (int form = 0; form < COPY; form++) time_form(form, &assigning[form], &reading[form]);
        keep_least(&assigning[COPY], time_copies());
    }
    const double units[2] = {assigning[BY_VALUE], reading[BY_VALUE]};
    printf("Processor time of a call on a board of %d lots, %zu bytes, and over that of the plain C by value (best of %d rounds):\n\n", LOTS,
           sizeof(ck_board), ROUNDS);
    printf("| %-23s | assign, ns |  ratio |   read, ns |  ratio |\n|-------------------------|-----------:|-------:|-----------:|-------:|\n", "");
    for (int form = 0; form < COPY; form++) print_form(NAMES[form], assigning[form], reading[form], units);
    print_form(NAMES[COPY], assigning[COPY], assigning[COPY], units);
    return 0;
}
