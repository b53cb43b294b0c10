/* Cradlekeel: the correlated colour temperature, Duv and temperature class of one colour reading, a coarse temperature of it for a panel,
 * files of such answers, the differences of two such files, what can be salvaged of a broken one, and a board on which the answers are
 * assigned to jobs.
 *
 * Build the library with `make lib`, and again after `.ci/run`, which empties target/; link target/lib/libcradlekeel.a, or
 * target/lib/libcradlekeel.so with -Wl,-rpath,"$PWD/target/lib". From examples/lamp.c, a whole program:
 *
 *     ck_answer a = ck_read_xy(x, y, edges, 5, 14);
 *     if (a.whole.refusal != CK_ACCEPTED) {
 *         printf("refusal %d: %s\n", a.whole.refusal, reasons[a.whole.refusal]);
 *         return 1;
 *     }
 *
 * Promised of every function, for every value of its arguments, and proved of the code that the library is compiled from
 * (crates/cct_c and the crates below it):
 *   - it returns, and what it returns is the answer that the definitions give (README.md lists them in their order);
 *   - it writes nothing through a pointer to const;
 *   - a target (any other pointer: to a file to be written, columns to be read into, a list to be made) gets all that belongs there;
 *   - on a refusal a target gets nothing, and beyond what is written it always keeps what it held.
 * The functions keep nothing between calls and allocate nothing, so threads may call them at the same time.
 *
 * Owed by the caller of every function: `edges` points to `edge_count` numbers of 32 bits that can be read and that no
 * other thread writes during the call. With an `edge_count` of 0 nothing is read and `edges` may be NULL. The same is owed of
 * each other pointer with its count, in numbers of its own type; what is only read may overlap or be one. A target can be
 * written too, no other thread uses it during the call, and it overlaps nothing else that is handed over: no other target, no
 * list, no file. Floats round to nearest during the call, as they do unless the program has changed the rounding mode
 * (fesetround and the like).
 */
#ifndef CRADLEKEEL_H
#define CRADLEKEEL_H

#include <stddef.h>
#include <stdint.h>

#ifdef __cplusplus
extern "C" {
#endif

/* Why there is no answer: the value of `refusal`. They are tested in the order of this list, each over the whole reading, and
 * the first that applies is given. None depends on `max_steps`. */
enum {
    CK_ACCEPTED = 0,
    CK_BAD_EDGES = 1,         /* fewer than 2 edges or more than 32, or not strictly rising, or one not in 1600 .. 20001 K */
    CK_BAD_LENGTHS = 9,       /* spectral samples only: their four counts are not all equal, or are 0 or over 471 */
    CK_SAMPLE_TOO_LARGE = 10, /* spectral samples only: a sample over 16,777,215, or a number of a table over 4,000,000 */
    CK_NOT_FINITE = 2,        /* a float of the reading is infinite or not a number */
    CK_OUT_OF_RANGE = 3,      /* a coordinate not in -0.0000005 < x < 1, a tristimulus value not in -0.000005 < X < 4096, or
                                 a u or v in millionths over 4,000,000 */
    CK_TOO_DARK = 4,          /* tristimulus values: Y, rounded to 0.00001, is under 1; spectral samples: Y is 0 once X, Y and
                                 Z are divided as ck_read_samples says */
    CK_TOO_FAR = 5,           /* more than 0.05 in (u, v) from each of the 24 stored points of the blackbody locus */
    CK_TOO_HOT = 6,           /* beyond the locus's 20,000 K end */
    CK_TOO_COOL = 7           /* beyond the locus's 1600 K end */
};

/* Why a record file was not written or not read, two were not compared, or one was not salvaged: the value of `refusal` in ck_done,
 * ck_compared and ck_salvaged. Of this list too the first that applies is given; writing can meet the last two only, comparing goes
 * through the first four for each file, and salvaging can meet CK_BAD_EDGES, then the second and the last two. */
enum {
    CK_NO_TRAILER = 13,        /* the file has fewer than 8 bytes */
    CK_BAD_RECORD_LENGTH = 14, /* the record length in its trailer, or the one to salvage by, is neither 18 nor 20 */
    CK_BAD_TRAILER = 15,       /* the trailer's distance is not its record length for each record of its count, or the file has more
                                  or fewer bytes than these records and the trailer */
    CK_TOO_MANY_RECORDS = 11,  /* there are more than 3,200 records to write or to keep, or in a file whose records have 20 bytes, or
                                  more than 3,600 in one whose records have 18 */
    CK_NO_ROOM = 12            /* a target is too small; one that is just large enough is taken */
};

/* Why a board was not loaded, or a call on it was refused: the value of `refusal` in ck_told. Loading can meet the first only, a read
 * the second, an assignment the last three, of which the first that applies is given. */
enum {
    CK_TOO_MANY_LOTS = 16, /* there are more than 64 records to load, those of both houses together */
    CK_NO_SUCH_PLACE = 17, /* the board has no lot at that place, or it is the other house's */
    CK_STALE_STAMP = 18,   /* the stamp is not the lot's current one, which is told; also where the current one is 65,535 */
    CK_LAST_STAMP = 19     /* the stamp is the lot's current one and is 65,535: it cannot go up, so nothing more can be stored */
};

/* The value of `class_index` where no class is named. */
enum { CK_NO_CLASS = 255 };

/* The answer in whole numbers. */
typedef struct ck_whole {
    uint32_t place, low, high; /* position on the locus and its bracket, 25/2584 mired each: a place q is
                                  103,360,000 / q kelvin, so `low` is the bracket's hottest end and `high` its coolest. The
                                  bracket (README's range) says how far the search has narrowed; it is no uncertainty
                                  (docs/ACCURACY.md) */
    int32_t duv;               /* in millionths; negative where the reading's v is below the point's */
    uint8_t refusal;           /* 0 accepted; else the refusal's number, and every other field is zero */
    uint8_t steps;             /* the smaller of `max_steps` and 14 */
    uint8_t class_index;       /* 255: no class named */
} ck_whole;

/* The same with the temperature and Duv as doubles, each one correctly rounded division of whole numbers:
 * 103360000 / place and duv / 1000000; both +0.0 where the reading is refused. */
typedef struct ck_answer {
    double kelvin, duv;
    ck_whole whole;
} ck_answer;

/* `edges` are 2 to 32 class edges in kelvin, from 1600 to 20001, each above the one before. Class j holds the temperatures
 * from edges[j] up to but not including edges[j + 1]; it is named exactly when `low`, `high` and `place` all lie in it.
 *
 * `max_steps` bounds the golden-section steps that narrow the bracket; any number is taken, and over 14 is as 14. With
 * more steps the bracket lies within the one before, `place` is no farther from the reading, and a class once named stays.
 * `place` is the nearest point that the search came by; it can lie outside the bracket [low, high].
 *
 * A float is rounded to a whole number of millionths (tristimulus values: of 0.00001), from its exact value, halves up. One
 * that is below zero but in its range counts as 0, as -0.0f does; 0 is too far from the locus as a coordinate or an X and too
 * dark as a Y, and as a Z it may have an answer. -0.0000005f of coordinates and -0.000005f of tristimulus values are the lowest
 * floats that are taken: they lie just inside the range, and no float is its limit. */

/* CIE 1960 u, v, each -0.0000005 < x < 1.
 * Refusals: CK_BAD_EDGES, CK_NOT_FINITE, CK_OUT_OF_RANGE, CK_TOO_FAR, CK_TOO_HOT, CK_TOO_COOL. */
ck_answer ck_read_uv(float u, float v, const uint32_t *edges, size_t edge_count, uint32_t max_steps);

/* CIE 1976 u', v', each -0.0000005 < x < 1; answered at u = u', v = 2v'/3.
 * Refusals: CK_BAD_EDGES, CK_NOT_FINITE, CK_OUT_OF_RANGE, CK_TOO_FAR, CK_TOO_HOT, CK_TOO_COOL. */
ck_answer ck_read_uvp(float u_prime, float v_prime, const uint32_t *edges, size_t edge_count, uint32_t max_steps);

/* CIE 1931 x, y, each -0.0000005 < x < 1; answered at u = 4x / (3 - 2x + 12y), v = 6y / (3 - 2x + 12y).
 * Refusals: CK_BAD_EDGES, CK_NOT_FINITE, CK_OUT_OF_RANGE, CK_TOO_FAR, CK_TOO_HOT, CK_TOO_COOL. */
ck_answer ck_read_xy(float x, float y, const uint32_t *edges, size_t edge_count, uint32_t max_steps);

/* Tristimulus values, each -0.000005 < X < 4096; answered at u = 4X / (X + 15Y + 3Z), v = 6Y / (X + 15Y + 3Z).
 * Refusals: CK_BAD_EDGES, CK_NOT_FINITE, CK_OUT_OF_RANGE, CK_TOO_DARK, CK_TOO_FAR, CK_TOO_HOT, CK_TOO_COOL. */
ck_answer ck_read_xyz(float X, float Y, float Z, const uint32_t *edges, size_t edge_count, uint32_t max_steps);

/* CIE 1960 u, v as whole numbers of millionths, each 0 to 4,000,000.
 * Refusals: CK_BAD_EDGES, CK_OUT_OF_RANGE, CK_TOO_FAR, CK_TOO_HOT, CK_TOO_COOL. */
ck_answer ck_read_micro(uint32_t u, uint32_t v, const uint32_t *edges, size_t edge_count, uint32_t max_steps);

/* Spectral samples, each 0 to 16,777,215, with the three colour-matching functions at the same wavelengths in whole millionths,
 * each 0 to 4,000,000; 1 to 471 numbers in each of the four lists. data/ has CIE's tables of 1931. X, Y and Z are the sums of
 * sample times table number, so the wavelengths should be equally far apart; a meter's values are best multiplied so that the
 * largest is 16,777,215, as in examples/samples.c. All three are divided, rounding down, by the least power of two (1 included)
 * that leaves the largest under 2^32; answered at u = 4X / (X + 15Y + 3Z), v = 6Y / (X + 15Y + 3Z).
 * Refusals, in this order: CK_BAD_EDGES, CK_BAD_LENGTHS (of all four counts, before any number is looked at),
 * CK_SAMPLE_TOO_LARGE, CK_TOO_DARK, CK_TOO_FAR, CK_TOO_HOT, CK_TOO_COOL. */
ck_answer ck_read_samples(const uint32_t *samples, size_t sample_count, const uint32_t *x_bar, size_t x_count,
                          const uint32_t *y_bar, size_t y_count, const uint32_t *z_bar, size_t z_count, const uint32_t *edges,
                          size_t edge_count, uint32_t max_steps);

/* --- The coarse reader -----------------------------------------------------------------------------------------------------
 *
 * For a panel that shows a temperature and nothing else. The library has 1,565 points of the locus ready, at the places 5168, 5206, ..
 * 64600, which are 38 places or 25/68 mired apart, and answers the place of the ready point that is nearest to the reading; of equals, the
 * lowest. A place q is 103,360,000 / q kelvin, as in ck_whole. There are no class edges and no steps, and no bracket, Duv or class is
 * answered. What is accepted, and with which number the rest is refused, is as by the function that has `read` in place of `coarse`, with
 * any edges that are not refused and any `max_steps`: CK_TOO_FAR is about the 24 stored points here too, and not about the ready ones. Floats are rounded
 * as there. ck_coarse_micro divides nothing and uses no float. On x86_64 a call takes up to 13 KB of stack, 12,520 bytes of them for the
 * ready points: 3,130 numbers, which are put there in each call. The place need not be the ready one next to that of the search: take no
 * class from it.
 * examples/panel.c is a whole program. */

/* A coarse answer. */
typedef struct ck_coarse {
    uint32_t place;  /* a ready place; 0 where the reading is refused: look at `refusal` before you divide by it */
    uint8_t refusal; /* 0 accepted; else the refusal's number, from 2 to 7 */
} ck_coarse;

/* CIE 1960 u, v, each -0.0000005 < x < 1.
 * Refusals: CK_NOT_FINITE, CK_OUT_OF_RANGE, CK_TOO_FAR, CK_TOO_HOT, CK_TOO_COOL. */
ck_coarse ck_coarse_uv(float u, float v);

/* CIE 1976 u', v', each -0.0000005 < x < 1.
 * Refusals: CK_NOT_FINITE, CK_OUT_OF_RANGE, CK_TOO_FAR, CK_TOO_HOT, CK_TOO_COOL. */
ck_coarse ck_coarse_uvp(float u_prime, float v_prime);

/* CIE 1931 x, y, each -0.0000005 < x < 1.
 * Refusals: CK_NOT_FINITE, CK_OUT_OF_RANGE, CK_TOO_FAR, CK_TOO_HOT, CK_TOO_COOL. */
ck_coarse ck_coarse_xy(float x, float y);

/* Tristimulus values, each -0.000005 < X < 4096.
 * Refusals: CK_NOT_FINITE, CK_OUT_OF_RANGE, CK_TOO_DARK, CK_TOO_FAR, CK_TOO_HOT, CK_TOO_COOL. */
ck_coarse ck_coarse_xyz(float X, float Y, float Z);

/* CIE 1960 u, v as whole numbers of millionths, each 0 to 4,000,000.
 * Refusals: CK_OUT_OF_RANGE, CK_TOO_FAR, CK_TOO_HOT, CK_TOO_COOL. */
ck_coarse ck_coarse_micro(uint32_t u, uint32_t v);

/* --- Record files --------------------------------------------------------------------------------------------------------
 *
 * A record file keeps readings with their answers: 20 bytes for each record, its fields in the order of ck_record, and then a
 * trailer of 8 bytes: the record length (16 bits), the count of records (16 bits), and the distance (32 bits), which is how many
 * bytes before the trailer the first record begins. All numbers are little-endian; docs/FILES.md shows a file byte by byte.
 * Files from before, with records of 18 bytes, have Duv in 2 bytes instead of 4. They are no longer written, and every function that
 * is given a file takes both: its trailer tells which it is. While records had 18 bytes Duv had 16 bits here too: a program from then
 * must have int32_t where it has int16_t (a C compiler may only warn) and be compiled anew, or it reads and writes wrong numbers.
 * A record may hold any number that fits its field: these functions check the form of a file, not what its records say. They
 * work on memory and do no input or output: a `file` here is the bytes of one, which the caller reads and writes.
 * examples/records.c is a whole program. */

enum {
    CK_RECORD_BYTES = 20,         /* of each record that is written */
    CK_EARLIER_RECORD_BYTES = 18, /* of each record in a file from before */
    CK_TRAILER_BYTES = 8,
    CK_MOST_WRITTEN = 3200, /* records in a file that is written, and in one that is read with records of 20 bytes */
    CK_MOST_RECORDS = 3600, /* records in any file that is read; so many have 18 bytes each */
    CK_LARGEST_FILE = CK_MOST_RECORDS * CK_EARLIER_RECORD_BYTES + CK_TRAILER_BYTES /* bytes of any file that is read: 64,808 */
};

/* One record; in the file it has no padding, as this struct may. */
typedef struct ck_record {
    uint32_t u, v;             /* the reading, in millionths */
    uint16_t place, low, high; /* these and the rest as in ck_whole */
    int32_t duv;
    uint8_t steps, class_index;
} ck_record;

/* What a function on files has done; `count` is 0 where it refused. */
typedef struct ck_done {
    size_t count;
    uint8_t refusal; /* 0 done; else the refusal's number */
} ck_done;

/* Writes records to `file`. Field by field they stand in eight columns, and there are as many as the shortest column has numbers.
 * `count` is how many bytes were written: 20 for each record, and 8. What `file` holds beyond them, up to `room`, stays.
 * Refusals, in this order: CK_TOO_MANY_RECORDS, CK_NO_ROOM (`room` is less than the bytes to write). */
ck_done ck_write_records(const uint32_t *u, size_t u_count, const uint32_t *v, size_t v_count, const uint16_t *place,
                         size_t place_count, const uint16_t *low, size_t low_count, const uint16_t *high, size_t high_count,
                         const int32_t *duv, size_t duv_count, const uint8_t *steps, size_t steps_count,
                         const uint8_t *class_index, size_t class_count, uint8_t *file, size_t room);

/* Reads the records of `file`, of either length, into eight columns, which have room for as many as the shortest of them has numbers.
 * `count` is how many were read. What a column holds beyond them stays.
 * Refusals, in this order: CK_NO_TRAILER, CK_BAD_RECORD_LENGTH, CK_BAD_TRAILER, CK_TOO_MANY_RECORDS, CK_NO_ROOM (a column has
 * fewer numbers than the file has records). */
ck_done ck_read_records(const uint8_t *file, size_t length, uint32_t *u, size_t u_count, uint32_t *v, size_t v_count,
                        uint16_t *place, size_t place_count, uint16_t *low, size_t low_count, uint16_t *high,
                        size_t high_count, int32_t *duv, size_t duv_count, uint8_t *steps, size_t steps_count,
                        uint8_t *class_index, size_t class_count);

/* Whether the bytes are a record file, and `count`, how many records it has.
 * Refusals, in this order: CK_NO_TRAILER, CK_BAD_RECORD_LENGTH, CK_BAD_TRAILER, CK_TOO_MANY_RECORDS. */
ck_done ck_check_file(const uint8_t *file, size_t length);

/* The record `index`, counted from 0, of a file, by the file's own record length. All zeros where ck_check_file refuses the file, and
 * for an `index` of its count or more; a record may be all zeros too, so it is the count that tells. */
ck_record ck_record_at(const uint8_t *file, size_t length, size_t index);

/* A record where `kept` is 1; all zeros where it is 0. */
typedef struct ck_kept {
    ck_record record;
    uint8_t kept;
} ck_kept;

/* The record of a reading u, v in millionths and its answer, the member `whole` where that is a ck_answer. `kept` is 0 where the
 * answer is a refusal, or has a place, low or high over 65,535, which no answer of this library has. */
ck_kept ck_record_of(uint32_t u, uint32_t v, ck_whole answer);

/* --- The differences of two record files -----------------------------------------------------------------------------------
 *
 * Record 0 of one file is compared with record 0 of the other and so on, field by field, by the numbers that they hold, whichever record
 * length each file has. A difference is four numbers: the record's, counted from 0, the field's, what the first file has there, and what
 * the second has. Differences come in the order of records, and of fields within a record; after all of them comes one for each record
 * that only one file has: the record's number, CK_ONLY_FIRST or CK_ONLY_SECOND, and two zeros. Each is listed once, and nothing else is:
 * where none is listed both files have the same records. examples/compare.c is a whole program. */

/* The second number of a difference: a field, in the order of ck_record, or the file that has the record. */
enum {
    CK_FIELD_U = 0,
    CK_FIELD_V = 1,
    CK_FIELD_PLACE = 2,
    CK_FIELD_LOW = 3,
    CK_FIELD_HIGH = 4,
    CK_FIELD_DUV = 5, /* signed, as in ck_record */
    CK_FIELD_STEPS = 6,
    CK_FIELD_CLASS = 7, /* 255 for none, as in ck_record */
    CK_ONLY_FIRST = 8,
    CK_ONLY_SECOND = 9
};

/* How many numbers are always room enough: for files of m and n records, which ck_check_file tells, 4 * (8 * min(m, n) + |m - n|), since
 * records that both have differ in 8 fields at the most; and for any two files CK_MOST_DIFFERENCE_NUMBERS, which is 115,200, in 921,600
 * bytes. */
enum {
    CK_DIFFERENCE_NUMBERS = 4,
    CK_MOST_DIFFERENCES = 8 * CK_MOST_RECORDS,
    CK_MOST_DIFFERENCE_NUMBERS = CK_DIFFERENCE_NUMBERS * CK_MOST_DIFFERENCES
};

/* What a comparison came to. */
typedef struct ck_compared {
    size_t count;    /* differences listed; 0 where it was refused */
    uint8_t refusal; /* 0 compared; else the refusal's number */
    uint8_t file;    /* 1 or 2 where the refusal is about the first or the second file, which cannot be read; 0 otherwise */
} ck_compared;

/* Lists the differences of two files in `target`, which has room for `room` numbers, four to a difference. Exactly so many suffice, none
 * where nothing differs, and what `target` holds beyond them, up to `room`, stays. `first` and `second` may be one file.
 * Refusals, in this order: CK_NO_TRAILER, CK_BAD_RECORD_LENGTH, CK_BAD_TRAILER, CK_TOO_MANY_RECORDS of the first file; the same of the
 * second; CK_NO_ROOM (`room` is less than the numbers to write), which is of neither file. */
ck_compared ck_compare_files(const uint8_t *first, size_t first_length, const uint8_t *second, size_t second_length, int64_t *target,
                             size_t room);

/* --- Salvage of a broken file ----------------------------------------------------------------------------------------------
 *
 * A file that was left without its trailer, as by a full disk, cannot be read. Its records may still be there: from the first byte on the
 * bytes are taken as records of one length, as many as are whole. A record is kept exactly when it is what this library answers now:
 * ck_read_micro accepts its u and v with these edges and as many steps as the record says, and the answer's place, low, high, Duv, steps
 * and class are the record's. So a record with over 14 steps is never kept, nor is one that was made with edges that give it another
 * class, or by a Cradlekeel whose answers were others. Every other record is dropped, and its number is listed. Whoever does not know the
 * record length calls with 20 and with 18 and takes the one that keeps more; CK_TOO_MANY_RECORDS counts as more than any. docs/FILES.md
 * tells what to do with dropped records, and examples/salvage.c is a whole program. */

/* What a salvage came to. `kept` + `dropped` is how many whole records there are. */
typedef struct ck_salvaged {
    size_t kept;     /* records in the new file */
    size_t dropped;  /* numbers in the list */
    size_t leftover; /* bytes after the last whole record; of a file that is not broken, by its own record length, the 8 of its trailer */
    uint8_t refusal; /* 0 salvaged; else the refusal's number, and the counts are 0 */
} ck_salvaged;

/* Takes `length` bytes, which may be more than any record file has, as records of `record_length` bytes, 18 or 20. Writes the kept ones to
 * `file`: a whole record file with records of 20 bytes, in their order, and a trailer, 20 * `kept` + 8 bytes. Lists the numbers of the
 * dropped ones in `dropped`: counted from 0 among the whole records, rising. What both targets hold beyond that, up to their rooms, stays.
 *
 * `file_room` counts bytes and `dropped_room` numbers. Where `bytes` has n whole records, `length` / `record_length`, 20 * n + 8 bytes and n
 * numbers always suffice, and CK_LARGEST_FILE bytes do for any n. Exactly what is written suffices too: 8 bytes where nothing is kept.
 * Refusals, in this order: CK_BAD_EDGES; CK_BAD_RECORD_LENGTH (`record_length` is neither 18 nor 20); CK_TOO_MANY_RECORDS (over 3,200
 * would be kept); CK_NO_ROOM (for the file or for the list). Then neither target has changed. */
ck_salvaged ck_salvage(const uint8_t *bytes, size_t length, size_t record_length, const uint32_t *edges, size_t edge_count, uint8_t *file,
                       size_t file_room, uint64_t *dropped, size_t dropped_room);

/* --- The board -----------------------------------------------------------------------------------------------------------
 *
 * A board has up to 64 lots, at places counted from 0. A lot is a record, the job that it is assigned to, and a stamp, which begins at
 * 0 and goes up by one each time a job is stored. Whoever assigns a lot names the stamp that he saw; where somebody else was faster,
 * the stamp is no longer current, nothing is stored, and he is told. From examples/board.c, a whole program in which Ann and Ben both
 * want the lot at place 0 (docs/BOARD.md tells the same to dispatchers):
 *
 *     ck_lot seen_by_ann = ck_board_read(board, CK_OURS, 0).told.lot;
 *     ck_lot seen_by_ben = ck_board_read(board, CK_OURS, 0).told.lot;
 *     ck_board_answer ann = ck_board_assign(board, CK_OURS, 0, seen_by_ann.stamp, 4711);
 *     board = ann.board;
 *     ck_board_answer ben = ck_board_assign(board, CK_OURS, 0, seen_by_ben.stamp, 4712);
 *     board = ben.board;
 *
 * ann.told.refusal is then CK_ACCEPTED, ben.told.refusal is CK_STALE_STAMP, ben.told.stamp is 1, and the board has Ann's job.
 *
 * Two houses may share a board: the first places are ours, and those behind them the partner's. A call is made in the name of a house, and
 * a place of the other house is to it as a place without a lot: CK_NO_SUCH_PLACE, and nothing of the lot is told. From a load on, what a
 * house is told and the lots that it has turn on its own load, the place of its first lot and its own calls alone; docs/BOARD.md says what
 * that does not cover. The struct has the lots of both: hand a house what its calls are told, and not the board.
 *
 * A board is a value, as a number is: a function gets a copy and hands a board back, and no board that the caller has changes. To store
 * is to go on with the board that came back, so calls come one after the other, each on the newest board; where several threads or
 * programs share one, that is the caller's to see to. A board comes from ck_board_load, or is all zeros, which is the board of no lots;
 * of the calls on a board only ck_board_assign hands back one that differs, where the job is stored. Given any other bytes the functions
 * answer too: a place then has a lot where it is under `count` and under 64, which is ours where it is under `ours` and otherwise the
 * partner's, and nothing outside the board is read or written. Boards are compared field by field, since the structs have padding whose
 * bytes may be anything. While a board was one house's it had no `ours`, and the functions took no party: a program that was compiled
 * then still links and runs, with wrong answers, and is to be changed and compiled anew. */

enum { CK_MOST_LOTS = 64, CK_HIGHEST_STAMP = 65535 };

/* The house in whose name a call is made. No place is that of any other number from 2 to 255; C cuts a wider one to 8 bits. */
enum { CK_OURS = 0, CK_PARTNER = 1 };

/* A lot of the board. */
typedef struct ck_lot {
    ck_record record;
    uint32_t job;   /* 0 for none, as at loading; any other number is the caller's */
    uint16_t stamp; /* how often a job was stored, 0 at loading */
} ck_lot;

/* The lots in the order of their places: ours, then the partner's, and from `count` on all zeros. */
typedef struct ck_board {
    size_t ours;  /* how many of the lots are ours */
    size_t count; /* how many there are */
    ck_lot lots[CK_MOST_LOTS];
} ck_board;

/* What a call on the board is told. */
typedef struct ck_told {
    ck_lot lot;      /* of a read that is not refused; all zeros otherwise */
    uint16_t stamp;  /* with CK_STALE_STAMP the lot's current stamp; 0 otherwise */
    uint8_t refusal; /* 0 loaded, read or stored; else the refusal's number */
} ck_told;

/* The board after a call, and what the call is told. */
typedef struct ck_board_answer {
    ck_board board;
    ck_told told;
} ck_board_answer;

/* A board of two lists of records, each in its order: ours at the places from 0 on and, in the columns with a 2, the partner's at those
 * behind them, all with job 0 and stamp 0. Field by field the records of a list stand in eight columns, as for ck_write_records, and there
 * are as many as its shortest column has numbers: eight of NULL and 0 are no records, and a board with none of the partner's is ours alone.
 * Refusal: CK_TOO_MANY_LOTS, and the board handed back is the one of no lots. */
ck_board_answer ck_board_load(const uint32_t *u, size_t u_count, const uint32_t *v, size_t v_count, const uint16_t *place,
                              size_t place_count, const uint16_t *low, size_t low_count, const uint16_t *high, size_t high_count,
                              const int32_t *duv, size_t duv_count, const uint8_t *steps, size_t steps_count,
                              const uint8_t *class_index, size_t class_count, const uint32_t *u2, size_t u2_count, const uint32_t *v2,
                              size_t v2_count, const uint16_t *place2, size_t place2_count, const uint16_t *low2, size_t low2_count,
                              const uint16_t *high2, size_t high2_count, const int32_t *duv2, size_t duv2_count, const uint8_t *steps2,
                              size_t steps2_count, const uint8_t *class_index2, size_t class2_count);

/* The lot at a place of the party's. The board handed back is the one that was handed over.
 * Refusal: CK_NO_SUCH_PLACE. */
ck_board_answer ck_board_read(ck_board board, uint8_t party, size_t place);

/* Assigns the lot at a place of the party's to a job, any number: 0 takes the lot from its job. `stamp` is the lot's stamp as the caller
 * saw it. Where that is current the job is stored and the lot's stamp goes up by one; nothing else of the board changes, and no stamp is
 * told.
 * Refusals, in this order: CK_NO_SUCH_PLACE, CK_STALE_STAMP, CK_LAST_STAMP; the board handed back is then the one that was handed
 * over. */
ck_board_answer ck_board_assign(ck_board board, uint8_t party, size_t place, uint16_t stamp, uint32_t job);

#ifdef __cplusplus
}
#endif

#endif
