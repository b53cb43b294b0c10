/* Request No. 9 of document 02 in plain C, written for the benchmark as a C programmer would write it for speed without notes on what he has
 * decided (docs/BENCHMARK.md tells what these would save): the edges are judged once, a record with more steps than an answer has is dropped
 * unseen, there is a loop for each record length, and where both targets have room for every record nothing is counted beforehand. A machine
 * whose numbers are little-endian is taken for granted. */
#include "plain_salvage.h"
#include "plain.h"
#include "plain_records.h"

enum { MOST_STEPS = 14, NOW = CK_RECORD_BYTES, EARLIER = CK_EARLIER_RECORD_BYTES };

typedef struct {
    const uint32_t *at;
    size_t count;
} edge_list;

static ck_salvaged refused(uint8_t refusal) { return (ck_salvaged){.refusal = refusal}; }

static size_t file_bytes(size_t kept) { return CK_RECORD_BYTES * kept + CK_TRAILER_BYTES; }

INLINED int is_kept(ck_record r, edge_list edges) {
    if (r.steps > MOST_STEPS) return 0;
    ck_whole a = plain_answer(r.u, r.v, edges.at, edges.count, r.steps);
    return a.refusal == CK_ACCEPTED && a.place == r.place && a.low == r.low && a.high == r.high && a.duv == r.duv &&
           a.class_index == r.class_index;
}

INLINED size_t count_rows(const uint8_t *from, size_t record_bytes, size_t whole, edge_list edges) {
    size_t kept = 0;
    for (size_t i = 0; i < whole; i++, from += record_bytes) kept += (size_t)is_kept(plain_record(from, record_bytes), edges);
    return kept;
}

/* Writes the kept ones to the file and the numbers of the others to the list; how many are kept. */
INLINED size_t put_rows(const uint8_t *from, size_t record_bytes, size_t whole, edge_list edges, uint8_t *file, uint64_t *dropped) {
    packed_record *to = (packed_record *)file;
    for (size_t i = 0; i < whole; i++, from += record_bytes) {
        ck_record r = plain_record(from, record_bytes);
        if (is_kept(r, edges)) *to++ = (packed_record){r.u, r.v, r.place, r.low, r.high, r.duv, r.steps, r.class_index};
        else *dropped++ = i;
    }
    return (size_t)(to - (packed_record *)file);
}

static size_t count_kept(const uint8_t *bytes, size_t record_bytes, size_t whole, edge_list edges) {
    return record_bytes == NOW ? count_rows(bytes, NOW, whole, edges) : count_rows(bytes, EARLIER, whole, edges);
}

static size_t put_all(const uint8_t *bytes, size_t record_bytes, size_t whole, edge_list edges, uint8_t *file, uint64_t *dropped) {
    return record_bytes == NOW ? put_rows(bytes, NOW, whole, edges, file, dropped) : put_rows(bytes, EARLIER, whole, edges, file, dropped);
}

ck_salvaged plain_salvage(const uint8_t *bytes, size_t length, size_t record_length, const uint32_t *edges, size_t edge_count, uint8_t *file,
                          size_t file_room, uint64_t *dropped, size_t dropped_room) {
    if (!plain_edges_valid(edges, edge_count)) return refused(CK_BAD_EDGES);
    if (record_length != NOW && record_length != EARLIER) return refused(CK_BAD_RECORD_LENGTH);
    size_t whole = length / record_length;
    edge_list lent = {edges, edge_count};
    if (whole > CK_MOST_WRITTEN || file_room < file_bytes(whole) || dropped_room < whole) {
        size_t kept = count_kept(bytes, record_length, whole, lent);
        if (kept > CK_MOST_WRITTEN) return refused(CK_TOO_MANY_RECORDS);
        if (file_room < file_bytes(kept) || dropped_room < whole - kept) return refused(CK_NO_ROOM);
    }
    size_t kept = put_all(bytes, record_length, whole, lent, file, dropped);
    plain_put_trailer(file + CK_RECORD_BYTES * kept, CK_RECORD_BYTES, kept);
    return (ck_salvaged){.kept = kept, .dropped = whole - kept, .leftover = length % record_length, .refusal = CK_ACCEPTED};
}
