/* The text program of document 01, with No. 10 of document 02, in plain C: standard input to standard output through two buffers
 * of 64 KiB. Written for the benchmark as a C programmer would write it for speed: no stdio, digits read and written by hand. */
#include "plain.h"

#include <stdlib.h>
#include <string.h>
#include <unistd.h>

enum { BLOCK = 65536, LONGEST_LINE = 32, LONGEST_REPLY = 64, UNREADABLE = 8, TWO_NUMBERS_STEPS = 6 };

static const uint32_t EDGES[] = {1600, 2500, 3500, 5000, 20001};

static char output[BLOCK];
static size_t output_used;

static void flush(void) {
    for (size_t at = 0; at < output_used;) {
        ssize_t n = write(1, output + at, output_used - at);
        if (n <= 0) exit(1);
        at += (size_t)n;
    }
    output_used = 0;
}

static char *put_number(char *to, uint32_t n) {
    char digits[10];
    int count = 0;
    do digits[count++] = (char)('0' + n % 10);
    while ((n /= 10) != 0);
    while (count > 0) *to++ = digits[--count];
    return to;
}

static char *put_spaced(char *to, uint32_t n) {
    *to++ = ' ';
    return put_number(to, n);
}

static char *put_answer(char *to, ck_whole a) {
    to = put_number(to, a.refusal);
    if (a.refusal) return to;
    to = put_spaced(put_spaced(put_spaced(to, a.place), a.low), a.high);
    *to++ = ' ';
    if (a.duv < 0) *to++ = '-';
    to = put_number(to, (uint32_t)abs(a.duv));
    to = put_spaced(to, a.steps);
    if (a.class_index != CK_NO_CLASS) return put_spaced(to, a.class_index);
    *to++ = ' ';
    *to++ = '-';
    return to;
}

/* A number of 1 to 7 digits at `from`; the byte after it, or NULL. */
static const char *read_number(const char *from, const char *end, uint32_t *number) {
    const char *at = from;
    uint32_t n = 0;
    while (at < end && (unsigned char)(*at - '0') < 10) {
        if (at - from == 7) return NULL;
        n = n * 10 + (uint32_t)(*at++ - '0');
    }
    *number = n;
    return at == from ? NULL : at;
}

static ck_whole answer_line(const char *line, const char *end) {
    const ck_whole unreadable = {.refusal = UNREADABLE};
    uint32_t u, v, max_steps = TWO_NUMBERS_STEPS;
    if (end - line > LONGEST_LINE) return unreadable;
    const char *at = read_number(line, end, &u);
    if (!at || at == end || *at != ' ') return unreadable;
    at = read_number(at + 1, end, &v);
    if (!at) return unreadable;
    if (at < end) {
        if (*at != ' ') return unreadable;
        at = read_number(at + 1, end, &max_steps);
        if (at != end) return unreadable;
    }
    return plain_whole(u, v, EDGES, sizeof EDGES / sizeof *EDGES, max_steps);
}

static void reply(const char *line, const char *end) {
    if (output_used + LONGEST_REPLY > BLOCK) flush();
    char *to = put_answer(output + output_used, answer_line(line, end));
    *to++ = '\n';
    output_used = (size_t)(to - output);
}

int main(void) {
    /* The start of a line whose end is still to come is kept before the block, cut where it is too long anyway. */
    static char buffer[LONGEST_LINE + 1 + BLOCK];
    char *const block = buffer + LONGEST_LINE + 1;
    size_t kept = 0;
    for (ssize_t n; (n = read(0, block, BLOCK)) > 0;) {
        const char *line = block - kept, *end = block + n, *newline, *from = block;
        while ((newline = memchr(from, '\n', (size_t)(end - from)))) {
            reply(line, newline);
            line = from = newline + 1;
        }
        kept = (size_t)(end - line);
        if (kept > LONGEST_LINE + 1) kept = LONGEST_LINE + 1;
        memmove(block - kept, line, kept);
    }
    if (kept > 0) reply(block - kept, block);
    flush();
    return 0;
}
