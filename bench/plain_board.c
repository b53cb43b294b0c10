/* Requests No. 6 and 11 of document 02 in plain C, written for the benchmark as a C programmer would write it for speed: by value, as the
 * library has it, and in place. */
#include "plain_board.h"

static ck_told told(uint8_t refusal, uint16_t stamp) { return (ck_told){.refusal = refusal, .stamp = stamp}; }

/* A place under the count of a board that was loaded is under 64; of other bytes it may not be. */
static int has_lot(const ck_board *board, uint8_t party, size_t place) {
    if (place >= board->count || place >= CK_MOST_LOTS) return 0;
    return party == (place < board->ours ? CK_OURS : CK_PARTNER);
}

ck_told in_place_read(const ck_board *board, uint8_t party, size_t place) {
    if (!has_lot(board, party, place)) return told(CK_NO_SUCH_PLACE, 0);
    return (ck_told){.lot = board->lots[place], .refusal = CK_ACCEPTED};
}

ck_told in_place_assign(ck_board *board, uint8_t party, size_t place, uint16_t stamp, uint32_t job) {
    if (!has_lot(board, party, place)) return told(CK_NO_SUCH_PLACE, 0);
    ck_lot *lot = &board->lots[place];
    if (lot->stamp != stamp) return told(CK_STALE_STAMP, lot->stamp);
    if (stamp == CK_HIGHEST_STAMP) return told(CK_LAST_STAMP, 0);
    lot->job = job;
    lot->stamp++;
    return told(CK_ACCEPTED, 0);
}

static size_t least(const size_t counts[8]) {
    size_t found = counts[0];
    for (size_t i = 1; i < 8; i++)
        if (counts[i] < found) found = counts[i];
    return found;
}

/* A list's records become the n lots from a place on. */
static void put_lots(ck_lot *lots, size_t n, const uint32_t *u, const uint32_t *v, const uint16_t *place, const uint16_t *low,
                     const uint16_t *high, const int32_t *duv, const uint8_t *steps, const uint8_t *class_index) {
    for (size_t i = 0; i < n; i++) lots[i].record = (ck_record){u[i], v[i], place[i], low[i], high[i], duv[i], steps[i], class_index[i]};
}

ck_board_answer plain_board_load(const uint32_t *u, size_t u_count, const uint32_t *v, size_t v_count, const uint16_t *place,
                                 size_t place_count, const uint16_t *low, size_t low_count, const uint16_t *high,
                                 size_t high_count, const int32_t *duv, size_t duv_count, const uint8_t *steps,
                                 size_t steps_count, const uint8_t *class_index, size_t class_count, const uint32_t *u2,
                                 size_t u2_count, const uint32_t *v2, size_t v2_count, const uint16_t *place2,
                                 size_t place2_count, const uint16_t *low2, size_t low2_count, const uint16_t *high2,
                                 size_t high2_count, const int32_t *duv2, size_t duv2_count, const uint8_t *steps2,
                                 size_t steps2_count, const uint8_t *class_index2, size_t class2_count) {
    const size_t counts[8] = {u_count, v_count, place_count, low_count, high_count, duv_count, steps_count, class_count};
    const size_t counts2[8] = {u2_count, v2_count, place2_count, low2_count, high2_count, duv2_count, steps2_count, class2_count};
    size_t ours = least(counts), theirs = least(counts2);
    ck_board_answer answer = {.told = {.refusal = CK_ACCEPTED}};
    if (ours > CK_MOST_LOTS || theirs > CK_MOST_LOTS - ours) {
        answer.told.refusal = CK_TOO_MANY_LOTS;
        return answer;
    }
    answer.board.ours = ours;
    answer.board.count = ours + theirs;
    put_lots(answer.board.lots, ours, u, v, place, low, high, duv, steps, class_index);
    put_lots(answer.board.lots + ours, theirs, u2, v2, place2, low2, high2, duv2, steps2, class_index2);
    return answer;
}

ck_board_answer plain_board_read(ck_board board, uint8_t party, size_t place) {
    return (ck_board_answer){.board = board, .told = in_place_read(&board, party, place)};
}

ck_board_answer plain_board_assign(ck_board board, uint8_t party, size_t place, uint16_t stamp, uint32_t job) {
    ck_told said = in_place_assign(&board, party, place, stamp, job);
    return (ck_board_answer){.board = board, .told = said};
}
