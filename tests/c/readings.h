/* The readings of the vectors, for the tests of the C functions that answer one: the numbers of a line, floats by their bits, and good edges. */
#ifndef READINGS_H
#define READINGS_H

#include "../../include/cradlekeel.h"
#include "guarded.h"
#include "lines.h"

#include <fenv.h>

static const uint32_t GOOD_EDGES[] = {1600, 2500, 3500, 5000, 20001};
enum { GOOD_COUNT = sizeof GOOD_EDGES / sizeof *GOOD_EDGES };

/* Signalling and quiet NaNs of both signs with payloads, and the infinities. */
static const uint32_t NOT_FINITE[] = {0x7f800001, 0x7f812345, 0x7fbfffff, 0x7fc00000, 0x7fc0beef, 0x7fffffff,
                                      0xff800001, 0xffbfffff, 0xffc00000, 0xffffffff, 0x7f800000, 0xff800000};
enum { NOT_FINITE_COUNT = sizeof NOT_FINITE / sizeof *NOT_FINITE };

/* Whether the flag of an invalid operation is set after calls on a float with these bits, which is infinite; a program that has asked for a
 * signal would have ended. Of a NaN nothing is said. */
static int infinity_is_invalid(uint32_t bits) { return (bits & 0x7fffffff) == 0x7f800000 && fetestexcept(FE_INVALID); }

static float float_of(uint32_t bits) {
    float value;
    memcpy(&value, &bits, sizeof value);
    return value;
}

typedef struct reading {
    char kind[8];
    uint32_t numbers[3]; /* floats by their bits; of samples none */
} reading;

static int is_kind(const reading *r, const char *kind) { return strcmp(r->kind, kind) == 0; }

/* The end of the program, for a kind that no function takes. */
static void no_such_kind(const reading *r) {
    fprintf(stderr, "no such kind: %s\n", r->kind);
    exit(2);
}

/* `KIND NUMBERS..`, the next words of the line; what a kind has no number for stays. */
static void next_reading(reading *made) {
    const char *kind = next_word();
    snprintf(made->kind, sizeof made->kind, "%s", kind ? kind : "");
    int count = is_kind(made, "samples") ? 0 : is_kind(made, "xyz") ? 3 : 2;
    for (int i = 0; i < count; i++) made->numbers[i] = next_number(is_kind(made, "whole") ? 10 : 16);
}

/* The answer to a reading that is no list. */
static ck_answer answer_reading(const reading *r, const uint32_t *edges, size_t edge_count, uint32_t max_steps) {
    const uint32_t *n = r->numbers;
    float x = float_of(n[0]), y = float_of(n[1]), z = float_of(n[2]);
    if (is_kind(r, "uv")) return ck_read_uv(x, y, edges, edge_count, max_steps);
    if (is_kind(r, "uvp")) return ck_read_uvp(x, y, edges, edge_count, max_steps);
    if (is_kind(r, "xy")) return ck_read_xy(x, y, edges, edge_count, max_steps);
    if (is_kind(r, "xyz")) return ck_read_xyz(x, y, z, edges, edge_count, max_steps);
    if (!is_kind(r, "whole")) no_such_kind(r);
    return ck_read_micro(n[0], n[1], edges, edge_count, max_steps);
}

#endif
