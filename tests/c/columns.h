/* The eight columns of a list of records that the tests of the C functions hold from line to line of the vectors and lend to them. */
#ifndef COLUMNS_H
#define COLUMNS_H

#include "guarded.h"
#include "lines.h"

enum { U, V, PLACE, LOW, HIGH, DUV, STEPS, CLASS, COLUMNS };
static const char LETTERS[] = "uvplhdsc";
static const size_t WIDTHS[COLUMNS] = {4, 4, 2, 2, 2, 4, 1, 1}; /* in bytes */

enum { MOST_NUMBERS = 69136 }; /* the most that a line of the vectors asks for */

/* What is lent, and how many numbers each column has. */
typedef struct columns {
    const void *at[COLUMNS];
    size_t counts[COLUMNS];
} columns;

static region column_regions[COLUMNS];

static void make_each_region(region regions[COLUMNS]) {
    for (int k = 0; k < COLUMNS; k++) regions[k] = make_region(MOST_NUMBERS * WIDTHS[k]);
}

static void make_column_regions(void) { make_each_region(column_regions); }

static void put_number(void *at, size_t width, size_t i, uint32_t number) {
    if (width == 4) ((uint32_t *)at)[i] = number;
    else if (width == 2) ((uint16_t *)at)[i] = (uint16_t)number;
    else ((uint8_t *)at)[i] = (uint8_t)number;
}

/* Lends numbers as a column in one of some regions, in place of what was there. */
static void lend_in(const region regions[COLUMNS], columns *c, size_t k, const uint32_t *numbers, size_t count) {
    static uint32_t stored[MOST_NUMBERS];
    for (size_t i = 0; i < count; i++) put_number(stored, WIDTHS[k], i, numbers[i]);
    c->at[k] = lend_bytes(&regions[k], stored, count * WIDTHS[k]);
    c->counts[k] = count;
}

/* Lends numbers as a column, in place of what it was. */
static void lend_column(columns *c, size_t k, const uint32_t *numbers, size_t count) { lend_in(column_regions, c, k, numbers, count); }

/* `column u|v|p|l|h|d|s|c NUMBERS..`, the words after the first: the column is replaced; how many numbers it has is the answer shown. */
static void hold_column(columns *c, char *shown, const char *line) {
    static uint32_t numbers[MOST_NUMBERS];
    const char *letter = next_word(), *found = letter ? strchr(LETTERS, *letter) : NULL;
    if (!found) {
        fail("no such column", line);
        return;
    }
    size_t count = 0;
    for (const char *word; (word = next_word());) count = add_numbers(numbers, count, MOST_NUMBERS, word);
    lend_column(c, (size_t)(found - LETTERS), numbers, count);
    sprintf(shown, "%zu\n", count);
}

#endif
