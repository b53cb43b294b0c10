/* Record files in plain C: what the benchmark compares the proved library with. */
#ifndef PLAIN_RECORDS_H
#define PLAIN_RECORDS_H

#include "../include/cradlekeel.h"

/* The types of ck_write_records and ck_read_records too. */
typedef ck_done write_records(const uint32_t *u, size_t u_count, const uint32_t *v, size_t v_count, const uint16_t *place,
                              size_t place_count, const uint16_t *low, size_t low_count, const uint16_t *high,
                              size_t high_count, const int32_t *duv, size_t duv_count, const uint8_t *steps,
                              size_t steps_count, const uint8_t *class_index, size_t class_count, uint8_t *file, size_t room);
typedef ck_done read_records(const uint8_t *file, size_t length, uint32_t *u, size_t u_count, uint32_t *v, size_t v_count,
                             uint16_t *place, size_t place_count, uint16_t *low, size_t low_count, uint16_t *high,
                             size_t high_count, int32_t *duv, size_t duv_count, uint8_t *steps, size_t steps_count,
                             uint8_t *class_index, size_t class_count);
write_records plain_write_records;
read_records plain_read_records;

/* How many records the file has, and how long each is, where its form is right. */
typedef struct file_form {
    size_t count, record_bytes;
    uint8_t refusal;
} file_form;
file_form plain_check_file(const uint8_t *file, size_t length);

/* A record as it stands in a file that is written, and in one from before, on a machine whose numbers are little-endian. */
typedef struct __attribute__((packed, may_alias)) packed_record {
    uint32_t u, v;
    uint16_t place, low, high;
    int32_t duv;
    uint8_t steps, class_index;
} packed_record;

typedef struct __attribute__((packed, may_alias)) earlier_record {
    uint32_t u, v;
    uint16_t place, low, high;
    int16_t duv;
    uint8_t steps, class_index;
} earlier_record;

/* Record lengths are constants wherever a function that is inlined gets them, so that the compiler has a loop for each of them, and no
 * record goes through memory. */
#define INLINED static inline __attribute__((always_inline))

/* A record of a length, where it stands in a file. */
INLINED ck_record plain_record(const uint8_t *from, size_t record_bytes) {
    const packed_record *r = (const packed_record *)from;
    const earlier_record *e = (const earlier_record *)from;
    if (record_bytes == CK_RECORD_BYTES) return (ck_record){r->u, r->v, r->place, r->low, r->high, r->duv, r->steps, r->class_index};
    return (ck_record){e->u, e->v, e->place, e->low, e->high, e->duv, e->steps, e->class_index};
}

/* The trailer of a file of so many records. */
void plain_put_trailer(uint8_t *to, size_t record_bytes, size_t count);

/* The limit: records of 20 bytes that are in the file's own form already, and are copied whole. */
ck_done packed_write_records(const packed_record *records, size_t count, uint8_t *file, size_t room);
ck_done packed_read_records(const uint8_t *file, size_t length, packed_record *records, size_t count);

/* A file as it was written before, of records whose Duv is cut to 2 bytes; its length. The file has the room. */
size_t earlier_write_records(const packed_record *records, size_t count, uint8_t *file);

#endif
