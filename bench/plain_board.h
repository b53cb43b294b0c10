/* The board in plain C: what the benchmark compares the proved library with. */
#ifndef PLAIN_BOARD_H
#define PLAIN_BOARD_H

#include "../include/cradlekeel.h"

/* By value, in the library's form; the types of ck_board_load, ck_board_read and ck_board_assign too. */
typedef ck_board_answer load_board(const uint32_t *u, size_t u_count, const uint32_t *v, size_t v_count, const uint16_t *place,
                                   size_t place_count, const uint16_t *low, size_t low_count, const uint16_t *high,
                                   size_t high_count, const int32_t *duv, size_t duv_count, const uint8_t *steps,
                                   size_t steps_count, const uint8_t *class_index, size_t class_count, const uint32_t *u2,
                                   size_t u2_count, const uint32_t *v2, size_t v2_count, const uint16_t *place2,
                                   size_t place2_count, const uint16_t *low2, size_t low2_count, const uint16_t *high2,
                                   size_t high2_count, const int32_t *duv2, size_t duv2_count, const uint8_t *steps2,
                                   size_t steps2_count, const uint8_t *class_index2, size_t class2_count);
typedef ck_board_answer read_board(ck_board board, uint8_t party, size_t place);
typedef ck_board_answer assign_board(ck_board board, uint8_t party, size_t place, uint16_t stamp, uint32_t job);
load_board plain_board_load;
read_board plain_board_read;
assign_board plain_board_assign;

/* In place: the board stays where it is, and a call looks at one lot or changes it. */
ck_told in_place_read(const ck_board *board, uint8_t party, size_t place);
ck_told in_place_assign(ck_board *board, uint8_t party, size_t place, uint16_t stamp, uint32_t job);

#endif
