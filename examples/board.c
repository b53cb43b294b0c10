/* Two dispatchers, Ann and Ben, share a board of the lots in a record file, and both want the lot at place 0. Where a second file is named,
 * its lots are a partner house's, for which Cleo calls. In the repository's root, once `make lib` has built the library:
 *     printf '219300 327100\n255910 349510\n240000 335000\n' | bin/cradlekeel save --replace target/morning.rec
 *     printf '233000 341000\n228000 332000\n' | bin/cradlekeel save --replace target/theirs.rec
 *     gcc -Iinclude examples/board.c target/lib/libcradlekeel.a -o target/board && target/board target/morning.rec
 *     target/board target/morning.rec target/theirs.rec */
#include <inttypes.h>
#include <stdio.h>
#include "cradlekeel.h"

/* One array for each field, as the library takes them, and how many records there are. */
typedef struct list {
    uint32_t u[CK_MOST_RECORDS], v[CK_MOST_RECORDS];
    uint16_t place[CK_MOST_RECORDS], low[CK_MOST_RECORDS], high[CK_MOST_RECORDS];
    int32_t duv[CK_MOST_RECORDS];
    uint8_t steps[CK_MOST_RECORDS], class_index[CK_MOST_RECORDS];
    size_t count;
} list;

static list ours, theirs;
static uint8_t file[CK_LARGEST_FILE + 1]; /* with room for a byte too many, which shows that a file is too long */

/* Reads the records of a file; 0 where that fails, and then it has said why. */
static int read_file(const char *path, list *r)
{
    FILE *from = fopen(path, "rb");
    size_t length = from ? fread(file, 1, sizeof file, from) : 0;
    if (!from || ferror(from)) {
        perror(path);
        return 0;
    }
    fclose(from);
    enum { N = CK_MOST_RECORDS };
    ck_done done = ck_read_records(file, length, r->u, N, r->v, N, r->place, N, r->low, N, r->high, N, r->duv, N, r->steps, N,
                                   r->class_index, N);
    if (done.refusal != CK_ACCEPTED) {
        fprintf(stderr, "board: %s: refusal %d: no record file, or a damaged one\n", path, done.refusal);
        return 0;
    }
    r->count = done.count;
    return 1;
}

/* Loads the board of both lists; the partner's has no records where no second file was read. */
static ck_board_answer load(const list *r, const list *r2)
{
    size_t n = r->count, m = r2->count;
    return ck_board_load(r->u, n, r->v, n, r->place, n, r->low, n, r->high, n, r->duv, n, r->steps, n, r->class_index, n,
                         r2->u, m, r2->v, m, r2->place, m, r2->low, m, r2->high, m, r2->duv, m, r2->steps, m, r2->class_index, m);
}

/* Prints what a call is told. */
static void print_told(const char *call, ck_told told)
{
    printf("%s: ", call);
    if (told.refusal == CK_ACCEPTED) puts("stored");
    else if (told.refusal == CK_NO_SUCH_PLACE) printf("refusal %d: no such place\n", told.refusal);
    else if (told.refusal == CK_STALE_STAMP) printf("refusal %d: the stamp is now %d\n", told.refusal, told.stamp);
    else printf("refusal %d: the stamp is the last one\n", told.refusal);
}

/* Ann is the first to call, and has the lot; Ben is told so, looks again, and takes the next one. The board after that. */
static ck_board two_dispatchers(ck_board board)
{
    ck_lot seen_by_ann = ck_board_read(board, CK_OURS, 0).told.lot;
    ck_lot seen_by_ben = ck_board_read(board, CK_OURS, 0).told.lot;
    printf("Ann sees job %" PRIu32 " and stamp %d at place 0, and so does Ben\n", seen_by_ann.job, seen_by_ann.stamp);

    /* To store is to go on with the board that came back. */
    ck_board_answer ann = ck_board_assign(board, CK_OURS, 0, seen_by_ann.stamp, 4711);
    board = ann.board;
    print_told("Ann assigns place 0 to job 4711", ann.told);

    ck_board_answer ben = ck_board_assign(board, CK_OURS, 0, seen_by_ben.stamp, 4712);
    board = ben.board;
    print_told("Ben assigns place 0 to job 4712", ben.told);

    seen_by_ben = ck_board_read(board, CK_OURS, 0).told.lot;
    printf("Ben sees job %" PRIu32 " and stamp %d at place 0\n", seen_by_ben.job, seen_by_ben.stamp);
    seen_by_ben = ck_board_read(board, CK_OURS, 1).told.lot; /* all zeros where we have no place 1: the assignment is then refused too */
    ben = ck_board_assign(board, CK_OURS, 1, seen_by_ben.stamp, 4712);
    print_told("Ben assigns place 1 to job 4712", ben.told);
    return ben.board;
}

/* Cleo's house has the places behind ours: of place 0 she is told what she would be told of a place that is not there. */
static ck_board partners_dispatcher(ck_board board)
{
    print_told("Cleo reads place 0", ck_board_read(board, CK_PARTNER, 0).told);
    print_told("Cleo assigns place 0 to job 815", ck_board_assign(board, CK_PARTNER, 0, 1, 815).told);
    ck_board_answer cleo = ck_board_assign(board, CK_PARTNER, board.ours, 0, 815);
    print_told("Cleo assigns her first place to job 815", cleo.told);
    return cleo.board;
}

int main(int argc, char **argv)
{
    if (argc != 2 && argc != 3) {
        fprintf(stderr, "usage: board OURS [THEIRS]\n");
        return 2;
    }
    if (!read_file(argv[1], &ours) || (argc == 3 && !read_file(argv[2], &theirs))) return 1;
    if (ours.count == 0) {
        fprintf(stderr, "board: %s has no records\n", argv[1]);
        return 1;
    }
    ck_board_answer loaded = load(&ours, &theirs);
    if (loaded.told.refusal != CK_ACCEPTED) {
        fprintf(stderr, "board: %s%s%s: refusal %d: more than %d records\n", argv[1], argc == 3 ? " and " : "", argc == 3 ? argv[2] : "",
                loaded.told.refusal, CK_MOST_LOTS);
        return 1;
    }
    ck_board board = two_dispatchers(loaded.board);
    if (argc == 3) board = partners_dispatcher(board);
    for (size_t place = 0; place < board.count; place++)
        printf("place %zu: job %" PRIu32 ", stamp %d%s\n", place, board.lots[place].job, board.lots[place].stamp,
               place < board.ours ? "" : ", the partner's");
    if (fflush(stdout) != 0 || ferror(stdout)) { /* of any print before, too */
        fprintf(stderr, "board: standard output could not be written\n");
        return 1;
    }
    return 0;
}
