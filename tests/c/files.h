/* The files that the tests of the C functions hold from line to line of the vectors and lend to them, and the targets that are written. */
#ifndef FILES_H
#define FILES_H

#include "guarded.h"
#include "lines.h"

enum { MOST_BYTES = 1310720 }; /* the most that a line of the vectors asks for */

/* What is lent of a file. */
typedef struct lent_file {
    const uint8_t *at;
    size_t length;
} lent_file;

static lent_file lend_file(const region *r, const uint8_t *from, size_t length) {
    lent_file lent = {(const uint8_t *)lend_bytes(r, from, length), length};
    return lent;
}

/* A byte of two hexadecimal digits. */
static uint8_t byte_of(const char *digits) {
    char both[3] = {digits[0], digits[1], '\0'};
    return (uint8_t)strtoul(both, NULL, 16);
}

/* Puts the bytes that digits write down so many times, one after the other. How many bytes that makes. */
static size_t put_repeated(uint8_t *to, const char *digits, size_t bytes, size_t times) {
    for (size_t i = 0; i < bytes * times; i++) to[i] = i < bytes ? byte_of(digits + 2 * i) : to[i - bytes];
    return bytes * times;
}

/* `file HEX..`, the words after the first: words of bytes, and `HEXxK` for K times such a word. How many bytes there are is the answer
 * shown. */
static lent_file hold_file(const region *r, char *shown) {
    static uint8_t made[MOST_BYTES];
    size_t count = 0;
    for (const char *word; (word = next_word());) {
        const char *mark = strchr(word, 'x');
        size_t bytes = (mark ? (size_t)(mark - word) : strlen(word)) / 2, times = mark ? strtoul(mark + 1, NULL, 10) : 1;
        if (bytes > 0 && times > (MOST_BYTES - count) / bytes) exit(2);
        count += put_repeated(made + count, word, bytes, times);
    }
    sprintf(shown, "%zu\n", count);
    return lend_file(r, made, count);
}

enum { BEFORE = 0xa5 }; /* every byte before a target */

/* The room of a target: so many bytes that end with its region. */
static void *target_room(const region *r, size_t size) {
    char *at = last_bytes(r, size);
    protect(r, PROT_READ | PROT_WRITE);
    memset(r->start, BEFORE, (size_t)(at - r->start));
    return at;
}

/* Each byte before a target is the next one's equal, and the first is what it was. */
static void check_before(const region *r, const void *target, const char *line) {
    size_t size = (size_t)((const char *)target - r->start);
    if (size > 0 && ((uint8_t)*r->start != BEFORE || memcmp(r->start, r->start + 1, size - 1) != 0)) fail("written before a target", line);
}

#endif
