/* What the tests of the C functions share: failures, and memory before a page that cannot be read or written. */
#ifndef GUARDED_H
#define GUARDED_H

#include <stdint.h>
#include <stdio.h>
#include <stdlib.h>
#include <string.h>
#include <sys/mman.h>
#include <unistd.h>

#ifdef __cplusplus
#define SAME_LAYOUT(condition) static_assert(condition, #condition)
#else
#define SAME_LAYOUT(condition) _Static_assert(condition, #condition)
#endif

enum { LONGEST_LINE = 8194 };

static long failures;

static void fail(const char *what, const char *line) {
    if (failures++ < 10) fprintf(stderr, "FAILED: %s: %s\n", what, line);
}

/* A line of a file; the end of the program where the line is longer than its buffer. */
static int next_line(char line[LONGEST_LINE], FILE *file) {
    if (!fgets(line, LONGEST_LINE, file)) return 0;
    if (!strchr(line, '\n')) exit(2);
    return 1;
}

static FILE *open_lines(const char *path) {
    FILE *file = fopen(path, "r");
    if (file) return file;
    fprintf(stderr, "cannot read %s\n", path);
    exit(2);
}

/* Whole pages, and after them one that cannot be touched. */
typedef struct region {
    char *start;
    size_t size;
} region;

static region make_region(size_t least) {
    size_t page = (size_t)sysconf(_SC_PAGESIZE), size = (least + page - 1) / page * page;
    void *made = mmap(NULL, size + page, PROT_NONE, MAP_PRIVATE | MAP_ANONYMOUS, -1, 0);
    if (made == MAP_FAILED) exit(2);
    region whole = {(char *)made, size};
    return whole;
}

static void protect(const region *r, int how) {
    if (mprotect(r->start, r->size, how) != 0) exit(2);
}

/* Where so many bytes stand that end with the region. */
static char *last_bytes(const region *r, size_t count) {
    if (count > r->size) exit(2);
    return r->start + (r->size - count);
}

/* The bytes, copied so that the last one ends where nothing can be read, and that none can be written. */
static const void *lend_bytes(const region *r, const void *bytes, size_t count) {
    char *at = last_bytes(r, count);
    protect(r, PROT_READ | PROT_WRITE);
    memcpy(at, bytes, count);
    protect(r, PROT_READ);
    return at;
}

#endif
