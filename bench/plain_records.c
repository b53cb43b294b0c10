/* Requests No. 4 and No. 8 of document 02 in plain C, written for the benchmark as a C programmer would write them for speed: one record
 * after the other, each number copied at once in the order of bytes that the file has, and a loop for each record length. */
#define _DEFAULT_SOURCE
#include "plain_records.h"

#include <endian.h>
#include <string.h>

static uint8_t *put_2(uint8_t *to, uint16_t number) {
    number = htole16(number);
    memcpy(to, &number, sizeof number);
    return to + sizeof number;
}

static uint8_t *put_4(uint8_t *to, uint32_t number) {
    number = htole32(number);
    memcpy(to, &number, sizeof number);
    return to + sizeof number;
}

static uint16_t get_2(const uint8_t *from) {
    uint16_t number;
    memcpy(&number, from, sizeof number);
    return le16toh(number);
}

static uint32_t get_4(const uint8_t *from) {
    uint32_t number;
    memcpy(&number, from, sizeof number);
    return le32toh(number);
}

static ck_done done(size_t count) { return (ck_done){.count = count, .refusal = CK_ACCEPTED}; }

static ck_done refused(uint8_t refusal) { return (ck_done){.count = 0, .refusal = refusal}; }

static size_t least(const size_t counts[8]) {
    size_t found = counts[0];
    for (size_t i = 1; i < 8; i++)
        if (counts[i] < found) found = counts[i];
    return found;
}

static size_t file_bytes(size_t record_bytes, size_t count) { return record_bytes * count + CK_TRAILER_BYTES; }

static uint8_t writing_refusal(size_t count, size_t room) {
    if (count > CK_MOST_WRITTEN) return CK_TOO_MANY_RECORDS;
    return room < file_bytes(CK_RECORD_BYTES, count) ? CK_NO_ROOM : CK_ACCEPTED;
}

void plain_put_trailer(uint8_t *to, size_t record_bytes, size_t count) {
    to = put_2(to, (uint16_t)record_bytes);
    to = put_2(to, (uint16_t)count);
    put_4(to, (uint32_t)(record_bytes * count));
}

static file_form refused_form(uint8_t refusal) { return (file_form){.refusal = refusal}; }

file_form plain_check_file(const uint8_t *file, size_t length) {
    if (length < CK_TRAILER_BYTES) return refused_form(CK_NO_TRAILER);
    const uint8_t *trailer = file + (length - CK_TRAILER_BYTES);
    size_t record_bytes = get_2(trailer), count = get_2(trailer + 2), back = record_bytes * count;
    if (record_bytes != CK_RECORD_BYTES && record_bytes != CK_EARLIER_RECORD_BYTES) return refused_form(CK_BAD_RECORD_LENGTH);
    if (get_4(trailer + 4) != back || length != file_bytes(record_bytes, count)) return refused_form(CK_BAD_TRAILER);
    if (count > (record_bytes == CK_RECORD_BYTES ? CK_MOST_WRITTEN : CK_MOST_RECORDS)) return refused_form(CK_TOO_MANY_RECORDS);
    return (file_form){.count = count, .record_bytes = record_bytes, .refusal = CK_ACCEPTED};
}

static file_form check_room(const uint8_t *file, size_t length, size_t room) {
    file_form found = plain_check_file(file, length);
    return found.refusal == CK_ACCEPTED && found.count > room ? refused_form(CK_NO_ROOM) : found;
}

ck_done plain_write_records(const uint32_t *u, size_t u_count, const uint32_t *v, size_t v_count, const uint16_t *place,
                            size_t place_count, const uint16_t *low, size_t low_count, const uint16_t *high,
                            size_t high_count, const int32_t *duv, size_t duv_count, const uint8_t *steps,
                            size_t steps_count, const uint8_t *class_index, size_t class_count, uint8_t *file, size_t room) {
    const size_t counts[8] = {u_count, v_count, place_count, low_count, high_count, duv_count, steps_count, class_count};
    size_t count = least(counts);
    uint8_t refusal = writing_refusal(count, room);
    if (refusal != CK_ACCEPTED) return refused(refusal);
    uint8_t *to = file;
    for (size_t i = 0; i < count; i++) {
        to = put_4(put_4(to, u[i]), v[i]);
        to = put_2(put_2(put_2(to, place[i]), low[i]), high[i]);
        to = put_4(to, (uint32_t)duv[i]);
        *to++ = steps[i];
        *to++ = class_index[i];
    }
    plain_put_trailer(to, CK_RECORD_BYTES, count);
    return done(file_bytes(CK_RECORD_BYTES, count));
}

typedef struct {
    uint32_t *u, *v;
    uint16_t *place, *low, *high;
    int32_t *duv;
    uint8_t *steps, *class_index;
} columns;

/* The record length is a constant wherever this is called, so that the compiler has a loop for each. */
static inline __attribute__((always_inline)) void read_rows(const uint8_t *from, size_t record_bytes, size_t count, columns to) {
    for (size_t i = 0; i < count; i++, from += record_bytes) {
        to.u[i] = get_4(from);
        to.v[i] = get_4(from + 4);
        to.place[i] = get_2(from + 8);
        to.low[i] = get_2(from + 10);
        to.high[i] = get_2(from + 12);
        to.duv[i] = record_bytes == CK_RECORD_BYTES ? (int32_t)get_4(from + 14) : (int16_t)get_2(from + 14);
        to.steps[i] = from[record_bytes - 2];
        to.class_index[i] = from[record_bytes - 1];
    }
}

ck_done plain_read_records(const uint8_t *file, size_t length, uint32_t *u, size_t u_count, uint32_t *v, size_t v_count,
                           uint16_t *place, size_t place_count, uint16_t *low, size_t low_count, uint16_t *high,
                           size_t high_count, int32_t *duv, size_t duv_count, uint8_t *steps, size_t steps_count,
                           uint8_t *class_index, size_t class_count) {
    const size_t counts[8] = {u_count, v_count, place_count, low_count, high_count, duv_count, steps_count, class_count};
    file_form found = check_room(file, length, least(counts));
    columns to = {u, v, place, low, high, duv, steps, class_index};
    if (found.refusal != CK_ACCEPTED) return refused(found.refusal);
    if (found.record_bytes == CK_RECORD_BYTES) read_rows(file, CK_RECORD_BYTES, found.count, to);
    else read_rows(file, CK_EARLIER_RECORD_BYTES, found.count, to);
    return done(found.count);
}

ck_done packed_write_records(const packed_record *records, size_t count, uint8_t *file, size_t room) {
    uint8_t refusal = writing_refusal(count, room);
    if (refusal != CK_ACCEPTED) return refused(refusal);
    memcpy(file, records, CK_RECORD_BYTES * count);
    plain_put_trailer(file + CK_RECORD_BYTES * count, CK_RECORD_BYTES, count);
    return done(file_bytes(CK_RECORD_BYTES, count));
}

ck_done packed_read_records(const uint8_t *file, size_t length, packed_record *records, size_t count) {
    file_form found = check_room(file, length, count);
    if (found.refusal == CK_ACCEPTED && found.record_bytes != CK_RECORD_BYTES) return refused(CK_BAD_RECORD_LENGTH);
    memcpy(records, file, CK_RECORD_BYTES * found.count);
    return found.refusal == CK_ACCEPTED ? done(found.count) : refused(found.refusal);
}

size_t earlier_write_records(const packed_record *records, size_t count, uint8_t *file) {
    uint8_t *to = file;
    for (size_t i = 0; i < count; i++, to += CK_EARLIER_RECORD_BYTES) {
        packed_record r = records[i];
        earlier_record earlier = {r.u, r.v, r.place, r.low, r.high, (int16_t)r.duv, r.steps, r.class_index};
        memcpy(to, &earlier, sizeof earlier);
    }
    plain_put_trailer(to, CK_EARLIER_RECORD_BYTES, count);
    return file_bytes(CK_EARLIER_RECORD_BYTES, count);
}
