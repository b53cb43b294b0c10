/* Requests No. 7 and No. 8 of document 02 in plain C, written for the benchmark as a C programmer would write them for speed: records whose
 * bytes are equal are passed over, also where only the width of Duv differs, there is a loop for each pair of record lengths, and where the
 * target has room for all that could differ nothing is counted beforehand. A machine whose numbers are little-endian is taken for granted. */
#include "plain_differences.h"
#include "plain_records.h"

#include <string.h>

enum { FIELDS = 8, BEFORE_DUV = 14, AFTER_DUV = 2 }; /* the last two in bytes of a record */

static ck_compared refused(uint8_t refusal, uint8_t file) { return (ck_compared){.count = 0, .refusal = refusal, .file = file}; }

INLINED int same_record(const uint8_t *a, size_t a_bytes, const uint8_t *b, size_t b_bytes) {
    if (a_bytes == b_bytes) return memcmp(a, b, a_bytes) == 0;
    return memcmp(a, b, BEFORE_DUV) == 0 && plain_record(a, a_bytes).duv == plain_record(b, b_bytes).duv &&
           memcmp(a + a_bytes - AFTER_DUV, b + b_bytes - AFTER_DUV, AFTER_DUV) == 0;
}

INLINED size_t count_fields(ck_record a, ck_record b) {
    return (size_t)(a.u != b.u) + (a.v != b.v) + (a.place != b.place) + (a.low != b.low) + (a.high != b.high) + (a.duv != b.duv) +
           (a.steps != b.steps) + (a.class_index != b.class_index);
}

INLINED size_t count_rows(const uint8_t *first, size_t first_bytes, const uint8_t *second, size_t second_bytes, size_t both) {
    size_t count = 0;
    for (size_t i = 0; i < both; i++, first += first_bytes, second += second_bytes)
        if (!same_record(first, first_bytes, second, second_bytes))
            count += count_fields(plain_record(first, first_bytes), plain_record(second, second_bytes));
    return count;
}

static int64_t *put(int64_t *to, size_t i, int64_t field, int64_t a, int64_t b) {
    to[0] = (int64_t)i;
    to[1] = field;
    to[2] = a;
    to[3] = b;
    return to + CK_DIFFERENCE_NUMBERS;
}

INLINED int64_t *put_fields(int64_t *to, size_t i, ck_record a, ck_record b) {
    if (a.u != b.u) to = put(to, i, CK_FIELD_U, a.u, b.u);
    if (a.v != b.v) to = put(to, i, CK_FIELD_V, a.v, b.v);
    if (a.place != b.place) to = put(to, i, CK_FIELD_PLACE, a.place, b.place);
    if (a.low != b.low) to = put(to, i, CK_FIELD_LOW, a.low, b.low);
    if (a.high != b.high) to = put(to, i, CK_FIELD_HIGH, a.high, b.high);
    if (a.duv != b.duv) to = put(to, i, CK_FIELD_DUV, a.duv, b.duv);
    if (a.steps != b.steps) to = put(to, i, CK_FIELD_STEPS, a.steps, b.steps);
    if (a.class_index != b.class_index) to = put(to, i, CK_FIELD_CLASS, a.class_index, b.class_index);
    return to;
}

INLINED int64_t *put_rows(int64_t *to, const uint8_t *first, size_t first_bytes, const uint8_t *second, size_t second_bytes, size_t both) {
    for (size_t i = 0; i < both; i++, first += first_bytes, second += second_bytes)
        if (!same_record(first, first_bytes, second, second_bytes))
            to = put_fields(to, i, plain_record(first, first_bytes), plain_record(second, second_bytes));
    return to;
}

enum { NOW = CK_RECORD_BYTES, EARLIER = CK_EARLIER_RECORD_BYTES };

static size_t count_records(const uint8_t *first, size_t first_bytes, const uint8_t *second, size_t second_bytes, size_t both) {
    if (first_bytes == NOW)
        return second_bytes == NOW ? count_rows(first, NOW, second, NOW, both) : count_rows(first, NOW, second, EARLIER, both);
    return second_bytes == NOW ? count_rows(first, EARLIER, second, NOW, both) : count_rows(first, EARLIER, second, EARLIER, both);
}

static int64_t *put_records(int64_t *to, const uint8_t *first, size_t first_bytes, const uint8_t *second, size_t second_bytes, size_t both) {
    if (first_bytes == NOW)
        return second_bytes == NOW ? put_rows(to, first, NOW, second, NOW, both) : put_rows(to, first, NOW, second, EARLIER, both);
    return second_bytes == NOW ? put_rows(to, first, EARLIER, second, NOW, both) : put_rows(to, first, EARLIER, second, EARLIER, both);
}

ck_compared plain_compare_files(const uint8_t *first, size_t first_length, const uint8_t *second, size_t second_length, int64_t *target,
                                size_t room) {
    file_form of_first = plain_check_file(first, first_length), of_second = plain_check_file(second, second_length);
    if (of_first.refusal != CK_ACCEPTED) return refused(of_first.refusal, 1);
    if (of_second.refusal != CK_ACCEPTED) return refused(of_second.refusal, 2);
    size_t m = of_first.count, n = of_second.count, both = m < n ? m : n, all = m < n ? n : m;
    if (room < CK_DIFFERENCE_NUMBERS * (FIELDS * both + all - both) &&
        room < CK_DIFFERENCE_NUMBERS *
                   (count_records(first, of_first.record_bytes, second, of_second.record_bytes, both) + all - both))
        return refused(CK_NO_ROOM, 0);
    int64_t *to = put_records(target, first, of_first.record_bytes, second, of_second.record_bytes, both);
    for (size_t i = both; i < all; i++) to = put(to, i, m < n ? CK_ONLY_SECOND : CK_ONLY_FIRST, 0, 0);
    return (ck_compared){.count = (size_t)(to - target) / CK_DIFFERENCE_NUMBERS, .refusal = CK_ACCEPTED};
}
