"""Document 01's own cases, typed in from the document and never from our program's output: the listing, the (P) cases and the
"Also run" list; and cases of document 02's No. 1 to 4, 6 to 10 and 12, worked out apart from the reference. `check()` holds it to them
all."""

from fractions import Fraction
from itertools import product

import board_table
import file_differences
import record_files
import reference as ref
import salvages
from floats import NEGATIVE_INFINITY, QUIET_NAN, nearest_f32

# Lines 3 and 4 look between entries: their Duv, -2331 and -2061, are those of document 02's No. 3, by Lagrange's form. Lines 6 to 8
# are about the limit of its No. 8.
LISTING = (
    ("255910 349510 0", "0 36176 33592 38760 0 0 1"),
    ("219300 327100 0", "0 23256 20672 25840 -2347 0 -"),
    ("219300 327100 2", "0 23112 21892 23866 -2331 2 2"),
    ("341150 360520 0", "0 62626 59432 64600 -2061 0 0"),
    ("345070 330530 0", "0 64600 62016 64600 -30000 0 0"),
    ("345070 330529 0", "0 64600 62016 64600 -30001 0 0"),
    ("345070 310530 0", "0 64600 62016 64600 -50000 0 0"),
    ("345070 310529 0", "5"),
    ("183000 276000", "6"),
    ("346000 360540", "7"),
    ("0 0", "5"),
    ("12 x", "8"),
)

# The line of two numbers that the listing gains by No. 10: six steps about entry 8, by Lagrange's form, to a range of 2·F(12) = 288
# places, from 4451 to 4507 K.
TWO_NUMBERS = ("219300 327100", "0 23112 22934 23222 -2331 6 2")

# Decimal coordinates of the document are exact in binary here, so their nearest f32 is the value itself.
CONVERSIONS = (
    ("uv", ("1/128", "0"), (7813, 0)),
    ("xyz", ("100", "100", "100"), (210526, 315789)),
    ("xy", ("1/4", "1/4"), (181818, 272727)),
    ("uvp", ("1/4", "1/2"), (250000, 333333)),
    ("uv", ("1/2097152", "0"), (0, 0)),
    ("uv", ("1/1048576", "0"), (1, 0)),
)

GOOD_EDGES = (1600, 20001)
LARGEST_U32 = 2**32 - 1

REFUSALS = (
    ("uv", ("1", "0"), GOOD_EDGES, 3),
    ("uv", ("2", "nan"), GOOD_EDGES, 2),
    ("xyz", ("4096", "1", "1"), GOOD_EDGES, 3),
    ("xyz", ("1", "0", "1"), GOOD_EDGES, 4),
    ("uv", ("1/4", "1/4"), (5000,), 1),
    ("uv", ("1/4", "1/4"), (5000, 5000), 1),
)

# Readings at the limit of No. 8 and beside it: entry m with the distance, or the number of refusal 5 or 6. 50,000 is the long side of
# triangles with 14,000 and 48,000 and with 17,600 and 46,800; each offset is from the entry named.
LIMITS = (
    ((241_910, 397_510), (13, 2_500_000_000)),  # -14,000 and 48,000 from entry 13; entries 12 and 14 are farther
    ((241_910, 397_511), 5),
    ((241_909, 397_510), 5),
    ((241_910, 397_509), (13, 2_499_904_001)),
    ((269_910, 301_510), (13, 2_500_000_000)),  # 14,000 and -48,000
    ((269_910, 301_509), 5),
    ((269_911, 301_510), 5),
    ((345_069, 310_530), 5),  # -1 and -50,000 from entry 24: one over
    ((345_071, 310_530), 5),
    ((345_070, 310_531), (24, 2_499_900_001)),
    ((231_870, 263_150), (1, 2_500_000_000)),  # 48,000 and -14,000 from entry 1; the dot is 26,120,000
    ((231_871, 263_150), 5),
    ((230_670, 259_550), 6),  # 46,800 and -17,600; the dot is -5,896,000
    ((230_671, 259_550), 5),  # 5 comes before 6
)

# Half the unit is 1/2,000,000 for coordinates, between 2^-21 and 2^-20, and 1/200,000 for tristimulus values, between 2^-18 and
# 2^-17.
BELOW_ZERO = (
    ("uv", ("-1/2097152", "1/4"), (0, 250000)),
    ("uv", ("1/4", "-1/2097152"), (250000, 0)),
    ("uv", ("-1/1048576", "1/4"), 3),
    ("uvp", ("1/4", "-1/2097152"), (250000, 0)),
    ("uvp", ("1/4", "-1/1048576"), 3),
    ("xy", ("-1/2097152", "1/4"), (0, 250000)),  # n is 6,000,000
    ("xyz", ("1", "1", "-1/262144"), (250000, 375000)),  # Z counts as 0, so that n is 1,600,000
    ("xyz", ("1", "1", "-1/131072"), 3),
    ("xyz", ("1", "-1/262144", "1"), 4),  # Y counts as 0
    ("xyz", ("1", "-1/131072", "1"), 3),
    ("xy", ("-inf", "-1/2097152"), 2),
)

# A place, and u and v there as fractions and in whole micro. With a, b, c, d for the four entries, the middle of b and c is
# (9b + 9c - a - d)/16, and a quarter of the way (105b + 35c - 7a - 5d)/128; the middle of the first piece is
# (5a + 15b - 5c + d)/16, and that of the last (a - 5b + 15c + 5d)/16.
CURVE = (
    (6460, ("185210.625", "281065"), (185211, 281065)),  # the middle of the first piece
    (10982, ("191320.625", "295352.5"), (191321, 295353)),  # a quarter of the way from entry 3 to entry 4
    (32300, ("243987.5", "344882.5"), (243988, 344883)),  # the middle of entries 11 and 12
    (63308, ("341161.25", "360532.5"), (341161, 360533)),  # the middle of the last piece, where v is above both its ends
)

# k, and the place, u and v of ready point k, by Lagrange's form with k mod 68 of 68 parts of a piece; 2584 is 68·38, so that entry i is
# ready point 68·(i - 1), and all places of CURVE are ready places.
READY_POINTS = (
    (0, (5168, 183_870, 277_150)), (1, (5206, 183_907, 277_263)), (34, (6460, 185_211, 281_065)), (67, (7714, 186_683, 284_970)),
    (68, (7752, 186_730, 285_090)), (69, (7790, 186_777, 285_210)), (153, (10_982, 191_321, 295_353)),
    (714, (32_300, 243_988, 344_883)), (816, (36_176, 255_910, 349_510)), (1530, (63_308, 341_161, 360_533)),
    (1563, (64_562, 344_955, 360_530)), (1564, (64_600, 345_070, 360_530)),
)

# A reading of a kind, and the coarse reader's refusal and place: each place by the distances to all 1,565 points of Lagrange's form.
COARSE = (
    ("whole", (183_870, 277_150), (0, 5168)),
    ("whole", (345_070, 360_530), (0, 64_600)),
    ("whole", (255_910, 349_510), (0, 36_176)),
    ("whole", (219_300, 327_100), (0, 23_142)),
    ("whole", (341_150, 360_520), (0, 63_308)),  # equally far from entries 23 and 24, and 290 from the ready point midway
    ("whole", (184_037, 277_660), (0, 5320)),  # the middle of (184018, 277603) and (184056, 277717): the lower of places 5320 and 5358
    ("whole", (184_038, 277_660), (0, 5358)),
    ("whole", (184_036, 277_660), (0, 5320)),
    ("whole", (344_554, 360_532), (0, 64_410)),  # the middle of (344497, 360532) and (344611, 360532)
    ("whole", (344_555, 360_532), (0, 64_448)),
    ("whole", (341_795, 347_251), (0, 63_460)),  # 176,441,453 from ready points 1534, 1535 and 1536
    ("whole", (341_795, 347_252), (0, 63_498)),  # as far from 1535 as from 1536
    ("whole", (340_296, 400_609), (0, 63_004)),  # 1,606,329,605 from 1522, 1523 and 1525; 1524 is farther
    ("whole", (340_296, 400_610), (0, 63_118)),
    ("whole", (256_906, 298_744), (0, 28_842)),  # 2,219,173,645 from 623 and 628; the four between are farther
    ("whole", (256_907, 298_744), (0, 29_032)),
    ("whole", (345_070, 310_530), (0, 64_600)),
    ("whole", (345_070, 310_529), (5, 0)),
    ("whole", (241_910, 397_510), (0, 36_670)),  # 2,500,000,000 from entry 13
    ("whole", (241_910, 397_511), (5, 0)),  # 2,496,791,700 from ready point 829, and 2,500,096,001 from entry 13
    ("whole", (231_870, 263_150), (0, 5852)),
    ("whole", (230_670, 259_550), (6, 0)),
    ("whole", (183_000, 276_000), (6, 0)),
    ("whole", (346_000, 360_540), (7, 0)),
    ("whole", (0, 0), (5, 0)),
    ("whole", (4_000_000, 4_000_000), (5, 0)),
    ("whole", (4_000_001, 0), (3, 0)),
    ("whole", (0, 4_000_001), (3, 0)),
    ("uv", ("1/4", "3/8"), (0, 36_822)),
    ("uvp", ("1/4", "1/2"), (0, 32_566)),
    ("xy", ("1/4", "1/4"), (6, 0)),  # 181818 272727, whose dot is -40,987,340
    ("xyz", ("100", "100", "100"), (0, 18_962)),
    ("xyz", ("1", "1", "-1/262144"), (0, 36_822)),  # 250000 375000, as by uv
    ("xyz", ("1", "1", "-1/131072"), (3, 0)),
    ("uv", ("1", "0"), (3, 0)),
    ("uv", ("2", "nan"), (2, 0)),
    ("xyz", ("4096", "1", "1"), (3, 0)),
    ("xyz", ("4096", "0", "1"), (3, 0)),
    ("xyz", ("1", "0", "1"), (4, 0)),
)

# samples, x_bar, y_bar, z_bar; then u and v, or the refusal's number.
SPECTRA = (
    (((1,), (1,), (1,), (1,)), (210526, 315789)),  # X = Y = Z, the ratios of XYZ (100, 100, 100)
    (((16_777_215,) * 471, (4_000_000,) * 471, (4_000_000,) * 471, (4_000_000,) * 471), (210526, 315789)),
    (((2, 3), (1, 0), (0, 1), (1, 1)), (129032, 290323)),  # X, Y, Z are 2, 3, 5 and n is 62
    (((1_048_576, 1), (4095, 1_048_575), (0, 1), (0, 0)), (4_000_000, 0)),  # X = 2^32 - 1 is not divided, and Y stays 1
    (((1_048_576, 1), (4096, 0), (0, 2), (0, 0)), (4_000_000, 0)),  # X = 2^32 is halved, and Y becomes 1
    (((1_048_576, 1), (4096, 0), (0, 1), (0, 0)), 4),  # X = 2^32 is halved, and Y becomes 0
    (((0,), (1,), (1,), (1,)), 4),
    (((), (), (), ()), 9),
    (((1,) * 472, (1,) * 472, (1,) * 472, (1,) * 472), 9),
    (((1,), (1,), (1, 1), (1,)), 9),
    (((16_777_216,), (1,), (1, 1), (1,)), 9),
    (((16_777_216,), (0,), (0,), (0,)), 10),
    (((1,), (1,), (1,), (4_000_001,)), 10),
)

# Lists of records, their files byte by byte, and their files of records of 18 bytes where their Duv fit those: a record of bytes that
# all differ, the answers to lines 1 and 2 of the listing, the answer to its line 7, and the largest and the least Duv.
EMPTY_FILE, EARLIER_EMPTY_FILE = "14 00 00 00 00 00 00 00", "12 00 00 00 00 00 00 00"
RECORD_FILES = (
    ((), EMPTY_FILE, EARLIER_EMPTY_FILE),
    (((0x01020304, 0x05060708, 0x090A, 0x0B0C, 0x0D0F, -2, 14, 255),),
     "04 03 02 01 08 07 06 05 0a 09 0c 0b 0f 0d fe ff ff ff 0e ff 14 00 01 00 14 00 00 00",
     "04 03 02 01 08 07 06 05 0a 09 0c 0b 0f 0d fe ff 0e ff 12 00 01 00 12 00 00 00"),
    (((255910, 349510, 36176, 33592, 38760, 0, 0, 1), (219300, 327100, 23256, 20672, 25840, -2347, 0, 255)),
     "a6 e7 03 00 46 55 05 00 50 8d 38 83 68 97 00 00 00 00 00 01 a4 58 03 00 bc fd 04 00 d8 5a c0 50 f0 64 d5 f6 ff ff 00 ff "
     "14 00 02 00 28 00 00 00",
     "a6 e7 03 00 46 55 05 00 50 8d 38 83 68 97 00 00 00 01 a4 58 03 00 bc fd 04 00 d8 5a c0 50 f0 64 d5 f6 00 ff "
     "12 00 02 00 24 00 00 00"),
    (((345070, 310530, 64600, 62016, 64600, -50000, 0, 0),),
     "ee 43 05 00 02 bd 04 00 58 fc 40 f2 58 fc b0 3c ff ff 00 00 14 00 01 00 14 00 00 00", None),
    (((0, 0, 0, 0, 0, 2_147_483_647, 0, 0), (0, 0, 0, 0, 0, -2_147_483_648, 0, 0)),
     "00 " * 14 + "ff ff ff 7f 00 00 " + "00 " * 14 + "00 00 00 80 00 00 14 00 02 00 28 00 00 00", None),
    (((0, 0, 0, 0, 0, 32_767, 0, 0), (0, 0, 0, 0, 0, -32_768, 0, 0)),
     "00 " * 14 + "ff 7f 00 00 00 00 " + "00 " * 14 + "00 80 ff ff 00 00 14 00 02 00 28 00 00 00",
     "00 " * 14 + "ff 7f 00 00 " + "00 " * 14 + "00 80 00 00 12 00 02 00 24 00 00 00"),
)

# A file, the room for records, and the refusal's number, 0 where it is read; most of those that are refused break a later rule too.
UNREADABLE_FILES = (
    (EMPTY_FILE, 0, 0),
    (EARLIER_EMPTY_FILE, 0, 0),
    ("00 00 00 00 00 00 00", 0, 13),
    ("13 00 11 0e 00 00 00 00", 0, 14),  # 19 for 18 or 20, and 3,601 records
    ("12 00 11 0e 00 00 00 00", 0, 15),  # the distance is 0
    ("14 00 81 0c 00 00 00 00", 0, 15),
    ("12 00 11 0e 32 fd 00 00", 0, 15),  # the distance, 64,818, is that of 3,601 records of 18, and there are none
    ("14 00 81 0c 14 fa 00 00", 0, 15),  # the distance, 64,020, is that of 3,201 records of 20, and there are none
    ("00 " * 18 + "12 00 00 00 00 00 00 00", 1, 15),  # the trailer has no records, and the file has one
    ("00 " * 20 + "14 00 00 00 00 00 00 00", 1, 15),
    ("00 " * 18 + "12 00 01 00 1a 00 00 00", 1, 15),  # the distance to the end of the file
    ("00 " * 20 + "14 00 01 00 1c 00 00 00", 1, 15),
    ("00 " * 20 + "12 00 01 00 14 00 00 00", 1, 15),  # the distance and the bytes of a record of the other length
    ("00 " * 18 + "14 00 01 00 12 00 00 00", 1, 15),
    ("00 " * 180 + "12 00 0a 00 b4 00 00 00", 10, 0),  # 180 bytes are ten records of 18 and nine of 20
    ("00 " * 180 + "14 00 09 00 b4 00 00 00", 9, 0),
    ("00 " * 180 + "12 00 09 00 b4 00 00 00", 10, 15),
    ("00 " * 180 + "14 00 0a 00 b4 00 00 00", 10, 15),
    ("00 " * 64_818 + "12 00 11 0e 32 fd 00 00", 0, 11),
    ("00 " * 64_800 + "12 00 10 0e 20 fd 00 00", 3600, 0),
    ("00 " * 64_800 + "12 00 10 0e 20 fd 00 00", 3599, 12),
    ("00 " * 57_618 + "12 00 81 0c 12 e1 00 00", 3201, 0),  # 3,201 records of 18
    ("00 " * 64_020 + "14 00 81 0c 14 fa 00 00", 3201, 11),
    ("00 " * 72_000 + "14 00 10 0e 40 19 01 00", 3600, 11),  # 3,600 records of 20
    ("00 " * 64_000 + "14 00 80 0c 00 fa 00 00", 3200, 0),
    ("00 " * 64_000 + "14 00 80 0c 00 fa 00 00", 3199, 12),
)

# How many records, the target's room in bytes, and the refusal's number, 0 where they are written.
UNWRITTEN_FILES = ((0, 8, 0), (0, 7, 12), (3200, 64_008, 0), (3200, 64_007, 12), (3201, 64_028, 11), (3201, 0, 11), (3600, 72_008, 11),
                   (65_536, 8, 11))

# The file of lines 1 and 2 of the listing as the bench keeps it, with another Duv and class in record 1 and a record of zeros more.
BENCH_FILE = ("a6 e7 03 00 46 55 05 00 50 8d 38 83 68 97 00 00 00 00 00 01 a4 58 03 00 bc fd 04 00 d8 5a c0 50 f0 64 2b 09 00 00 00 03 " +
              "00 " * 20 + "14 00 03 00 3c 00 00 00")
EARLIER_BENCH_FILE = ("a6 e7 03 00 46 55 05 00 50 8d 38 83 68 97 00 00 00 01 a4 58 03 00 bc fd 04 00 d8 5a c0 50 f0 64 2b 09 00 03 " +
                      "00 " * 18 + "12 00 03 00 36 00 00 00")
_, DESK_FILE, EARLIER_DESK_FILE = RECORD_FILES[2]

# The answer to line 7 of the listing in a record of 18 bytes, where its Duv has lost its upper half.
CUT_FILE = "ee 43 05 00 02 bd 04 00 58 fc 40 f2 58 fc b0 3c 00 00 12 00 01 00 12 00 00 00"

# Two files, and all entries of comparing them.
BENCH_ENTRIES = ((1, 5, -2347, 2347), (1, 7, 255, 3), (2, 9, 0, 0))
COMPARED_FILES = (
    (EMPTY_FILE, EMPTY_FILE, ()),
    (EMPTY_FILE, EARLIER_EMPTY_FILE, ()),
    (BENCH_FILE, BENCH_FILE, ()),
    (BENCH_FILE, EARLIER_BENCH_FILE, ()),
    (EARLIER_DESK_FILE, DESK_FILE, ()),
    *((desk, bench, BENCH_ENTRIES) for desk in (DESK_FILE, EARLIER_DESK_FILE) for bench in (BENCH_FILE, EARLIER_BENCH_FILE)),
    (BENCH_FILE, DESK_FILE, ((1, 5, 2347, -2347), (1, 7, 3, 255), (2, 8, 0, 0))),
    (EARLIER_BENCH_FILE, DESK_FILE, ((1, 5, 2347, -2347), (1, 7, 3, 255), (2, 8, 0, 0))),
    (RECORD_FILES[1][1], DESK_FILE,
     ((0, 0, 16_909_060, 255_910), (0, 1, 84_281_096, 349_510), (0, 2, 2314, 36_176), (0, 3, 2828, 33_592), (0, 4, 3343, 38_760),
      (0, 5, -2, 0), (0, 6, 14, 0), (0, 7, 255, 1), (1, 9, 0, 0))),
    (BENCH_FILE, EARLIER_EMPTY_FILE, ((0, 8, 0, 0), (1, 8, 0, 0), (2, 8, 0, 0))),
    (RECORD_FILES[3][1], CUT_FILE, ((0, 5, -50_000, 15_536),)),
    (RECORD_FILES[4][1], RECORD_FILES[5][2], ((0, 5, 2_147_483_647, 32_767), (1, 5, -2_147_483_648, -32_768))),
)

# Two files, the room in numbers, which file is refused, and the refusal's number.
UNCOMPARED_FILES = (
    ("", "", 0, (1, 13)),
    ("00 00 00 00 00 00 00", "13 00 00 00 00 00 00 00", 4, (1, 13)),
    ("13 00 00 00 00 00 00 00", "", 4, (1, 14)),
    ("12 00 01 00 12 00 00 00", EMPTY_FILE, 4, (1, 15)),
    (EMPTY_FILE, "13 00 00 00 00 00 00 00", 0, (2, 14)),
    (BENCH_FILE, "14 00 01 00 14 00 00 00", 0, (2, 15)),
    (EMPTY_FILE, "00 " * 64_818 + "12 00 11 0e 32 fd 00 00", 0, (2, 11)),
    (EARLIER_EMPTY_FILE, "00 " * 64_020 + "14 00 81 0c 14 fa 00 00", 0, (2, 11)),
    (DESK_FILE, BENCH_FILE, 11, (0, 12)),
    (EARLIER_DESK_FILE, BENCH_FILE, 11, (0, 12)),
    (BENCH_FILE, EMPTY_FILE, 0, (0, 12)),
)

# Records of 20 bytes: lines 1 to 3 of the listing; line 8, which is refused, with the fields of line 7 and its own distance; lines 9
# and 10, which are refused too, with fields of zeros.
LAMP, TINTED = DESK_FILE[:60], DESK_FILE[60:120]
STEPPED = "a4 58 03 00 bc fd 04 00 48 5a 84 55 3a 5d e5 f6 ff ff 02 02 "
FAR = "ee 43 05 00 01 bd 04 00 58 fc 40 f2 58 fc af 3c ff ff 00 00 "
HOT, COOL = "d8 ca 02 00 20 36 04 00 " + "00 " * 12, "90 47 05 00 5c 80 05 00 " + "00 " * 12
LAMP_FILE, TWO_STEPS_FILE = LAMP + "14 00 01 00 14 00 00 00", LAMP + STEPPED + "14 00 02 00 28 00 00 00"

# Bytes, their record length, the edges, the new file, the numbers of the dropped records, and how many bytes are left over. Under the
# edges 1600 and 20001 alone no class of lines 1 to 3 is that of the listing: all of them are 0.
SALVAGED_FILES = (
    ("", 20, ref.TEXT_EDGES, EMPTY_FILE, (), 0),
    ("", 18, GOOD_EDGES, EMPTY_FILE, (), 0),
    (DESK_FILE, 20, ref.TEXT_EDGES, DESK_FILE, (), 8),
    (EARLIER_DESK_FILE, 18, ref.TEXT_EDGES, DESK_FILE, (), 8),
    (DESK_FILE[:39 * 3], 20, ref.TEXT_EDGES, LAMP_FILE, (), 19),
    (EARLIER_DESK_FILE[:35 * 3], 18, ref.TEXT_EDGES, LAMP_FILE, (), 17),
    (DESK_FILE, 20, GOOD_EDGES, EMPTY_FILE, (0, 1), 8),
    (LAMP[:19 * 3] + "00", 20, GOOD_EDGES, LAMP[:19 * 3] + "00 " + LAMP_FILE[60:], (), 0),
    (BENCH_FILE, 20, ref.TEXT_EDGES, LAMP_FILE, (1, 2), 8),
    (EARLIER_BENCH_FILE, 18, ref.TEXT_EDGES, LAMP_FILE, (1, 2), 8),
    (RECORD_FILES[3][1], 20, ref.TEXT_EDGES, RECORD_FILES[3][1], (), 8),
    (CUT_FILE, 18, ref.TEXT_EDGES, EMPTY_FILE, (0,), 8),
    (LAMP + STEPPED, 20, ref.TEXT_EDGES, TWO_STEPS_FILE, (), 0),
    (STEPPED[:18 * 3] + "0e 02 " + LAMP + STEPPED, 20, ref.TEXT_EDGES, TWO_STEPS_FILE, (0,), 0),
    (LAMP + TINTED[:18 * 3] + "0f ff " + FAR + HOT + STEPPED + COOL + "00 " * 19, 20, ref.TEXT_EDGES, TWO_STEPS_FILE, (1, 2, 3, 5), 19),
    (DESK_FILE, 18, ref.TEXT_EDGES, EMPTY_FILE, (0, 1), 12),
    (EARLIER_DESK_FILE, 20, ref.TEXT_EDGES, EMPTY_FILE, (0, 1), 4),
)

# Bytes, a record length, edges, the rooms of both targets, and the refusal's number, 0 where they are salvaged.
UNSALVAGED_FILES = (
    (DESK_FILE, 19, (5000,), 0, 0, 1),
    (DESK_FILE, 20, (5000, 5000), 48, 0, 1),
    (DESK_FILE, 19, ref.TEXT_EDGES, 48, 0, 14),
    ("", 0, ref.TEXT_EDGES, 8, 0, 14),
    (LAMP * 3201, 19, ref.TEXT_EDGES, 0, 0, 14),
    (LAMP * 3201, 20, (), 0, 0, 1),
    (LAMP * 3201, 20, ref.TEXT_EDGES, 0, 0, 11),
    (LAMP * 3201, 20, ref.TEXT_EDGES, 64_028, 9, 11),
    (LAMP * 3200 + HOT, 20, ref.TEXT_EDGES, 64_008, 1, 0),
    (LAMP * 3200 + HOT, 20, ref.TEXT_EDGES, 64_007, 1, 12),
    (LAMP * 3200 + HOT, 20, ref.TEXT_EDGES, 64_008, 0, 12),
    (HOT * 3601, 20, ref.TEXT_EDGES, 8, 3601, 0),
    (HOT * 3601, 20, ref.TEXT_EDGES, 8, 3600, 12),
    ("", 20, ref.TEXT_EDGES, 7, 0, 12),
)

# How many records are ours and how many the partner's, and the refusal's number, 0 where a board of all of them is loaded.
LOADS = ((0, 0, 0), (1, 0, 0), (63, 0, 0), (64, 0, 0), (65, 0, 16), (3600, 0, 16), (0, 64, 0), (0, 65, 16), (63, 1, 0), (1, 63, 0),
         (64, 1, 16), (1, 64, 16), (32, 32, 0), (32, 33, 16), (64, 64, 16))

# A morning of two dispatchers on a board of two lots: each call, and what it is told: refusal, stamp, and a lot's job and stamp.
MORNING = (
    (("read", 0), (0, 0, (0, 0))), (("read", 1), (0, 0, (0, 0))), (("read", 2), (17, 0, None)), (("read", 64), (17, 0, None)),
    (("assign", 0, 0, 4711), (0, 0, None)),  # both saw stamp 0: the first is stored,
    (("assign", 0, 0, 4712), (18, 1, None)),  # and the second is told the stamp that is now current
    (("read", 0), (0, 0, (4711, 1))), (("read", 1), (0, 0, (0, 0))),
    (("assign", 0, 1, 4712), (0, 0, None)), (("read", 0), (0, 0, (4712, 2))),
    (("assign", 1, 1, 4713), (18, 0, None)), (("assign", 1, 65_535, 4713), (18, 0, None)), (("read", 1), (0, 0, (0, 0))),
    (("assign", 2, 0, 4713), (17, 0, None)), (("assign", 2, 9, 4713), (17, 0, None)), (("assign", 2**64 - 1, 0, 4713), (17, 0, None)),
    (("assign", 0, 2, 0), (0, 0, None)), (("read", 0), (0, 0, (0, 3))),  # a job is taken off: the stamp goes up all the same
    (("assign", 0, 2, 4714), (18, 3, None)),
)

# A morning of both houses, one lot ours and then one the partner's: whose call, the call, and what it is told, as above.
HOUSES = (
    (0, ("read", 0), (0, 0, (0, 0))), (0, ("read", 1), (17, 0, None)), (1, ("read", 1), (0, 0, (0, 0))), (1, ("read", 0), (17, 0, None)),
    (0, ("read", 2), (17, 0, None)), (1, ("read", 2), (17, 0, None)),
    (0, ("assign", 1, 0, 4711), (17, 0, None)), (0, ("assign", 1, 9, 4711), (17, 0, None)),  # with the current stamp, and with another
    (1, ("assign", 1, 0, 88), (0, 0, None)), (0, ("assign", 1, 0, 4711), (17, 0, None)), (1, ("read", 1), (0, 0, (88, 1))),
    (1, ("assign", 0, 0, 88), (17, 0, None)), (1, ("assign", 1, 0, 89), (18, 1, None)), (0, ("assign", 0, 0, 4711), (0, 0, None)),
    (0, ("read", 0), (0, 0, (4711, 1))), (1, ("read", 0), (17, 0, None)),
)

# What an assignment with a stamp is told where a lot's stamp is at its end, and the lot's job, 5 before, and stamp afterwards.
LAST_STAMPS = (
    (65_534, 65_533, (18, 65_534), (5, 65_534)), (65_534, 65_534, (0, 0), (7, 65_535)), (65_534, 65_535, (18, 65_534), (5, 65_534)),
    (65_535, 65_534, (18, 65_535), (5, 65_535)), (65_535, 0, (18, 65_535), (5, 65_535)), (65_535, 65_535, (19, 0), (5, 65_535)),
)


def bits(text):
    """The f32 bits of a fraction written as text, of a NaN or of minus infinity."""
    return {"nan": QUIET_NAN, "-inf": NEGATIVE_INFINITY}.get(text) or nearest_f32(Fraction(text))


def check_conversions():
    for kind, args, expected in CONVERSIONS:
        found = ref.CONVERSIONS[kind](*map(bits, args))
        assert found == expected, (kind, args, expected, found)
    assert ref.whole_number(bits("1/64"), 100_000) == 1563


def check_listing():
    for line, expected in (*LISTING, TWO_NUMBERS):
        found = ref.answer_line(line.encode()).decode()
        assert found == expected, (line, expected, found)


def check_refusals():
    for kind, args, edges, expected in REFUSALS:
        found = ref.answer(kind, tuple(map(bits, args)), edges, 14)
        assert found == ref.Answer(expected), (kind, args, edges, expected, found)


def check_limits():
    for reading, expected in LIMITS:
        try:
            m = ref.admit(reading)
            found = m, ref.squared_distance(reading, ref.entry_point(m))
        except ref.Refused as refused:
            found = refused.number
        assert found == expected, (reading, expected, found)


def check_below_zero():
    for kind, args, expected in BELOW_ZERO:
        found = ref.converted(kind, map(bits, args))
        assert found == expected, (kind, args, expected, found)


def check_spectra():
    for lists, expected in SPECTRA:
        found = ref.converted("samples", lists)
        assert found == expected, (lists, expected, found)


def check_allowances():
    """Allowances 13, 14, 15 and the largest: no search takes more than 14 steps."""
    given = [ref.answer("whole", (219300, 327100), GOOD_EDGES, n) for n in (13, 14, 15, LARGEST_U32)]
    assert [a.steps for a in given] == [13, 14, 14, 14]
    assert [a.p - a.o for a in given] == [2 * 5, 2 * 3, 2 * 3, 2 * 3]
    assert given[1] == given[2] == given[3]


def check_stored_locus():
    """What the document says of places, temperatures and F, against the mired values that the reference goes by."""
    assert all(ref.STORED[i][0] == 25 * (i + 1) and ref.entry_place(i) == 2584 * (i + 1) for i in ref.ENTRIES)
    assert (ref.entry_place(1), ref.entry_place(24)) == (ref.FIRST_PLACE, ref.LAST_PLACE)
    assert (ref.kelvin_at(ref.FIRST_PLACE), ref.kelvin_at(ref.LAST_PLACE)) == (20000, 1600)
    assert all(ref.kelvin_at(place) == Fraction(103_360_000, place) for place in range(ref.FIRST_PLACE, ref.LAST_PLACE + 1, 101))
    assert ref.F(1) == ref.F(2) == 1 and ref.F(18) == 2584
    assert all(ref.locus_point(ref.entry_place(i)) == ref.entry_point(i) for i in ref.ENTRIES)


def check_curve():
    for place, exact, whole in CURVE:
        found = ref.exact_point(place), ref.locus_point(place)
        assert found == ([Fraction(text) for text in exact], whole), (place, exact, whole, found)


def check_cubics():
    """What makes a curve the cubic through four entries: it meets each of them, and one fourth difference in each piece is zero."""
    assert [ref.entries_of(piece)[0] for piece in ref.ENTRIES[:-1]] == [1, *range(1, 22), 21]
    for piece, coordinate in product(ref.ENTRIES[:-1], (0, 1)):
        entries = ref.entries_of(piece)
        curve = lambda place: ref.on_curve(entries, coordinate, ref.mired_at(place))
        assert all(curve(ref.entry_place(i)) == ref.entry_point(i)[coordinate] for i in entries), piece
        spaced = [curve(ref.entry_place(piece) + 646 * k) for k in range(5)]
        assert sum(weight * value for weight, value in zip((1, -4, 6, -4, 1), spaced)) == 0, piece


def check_ready_points():
    """Every 38th place from the first to the last, 1,565 of them, the entries among them."""
    places = [place for place, _, _ in ref.ready_points()]
    assert len(places) == 1565 == 23 * 68 + 1 and places == list(range(5168, 64_601, 38))
    for k, point in (*READY_POINTS, *((68 * i - 68, (2584 * (i + 1), *ref.entry_point(i))) for i in ref.ENTRIES)):
        assert ref.ready_point(k) == ref.ready_points()[k] == point, (k, point, ref.ready_point(k))


def check_coarse():
    for kind, args, expected in COARSE:
        found = ref.coarse(kind, args if kind == "whole" else tuple(map(bits, args)))
        assert found == expected, (kind, args, expected, found)


def check_record_files():
    assert {length: record.size for length, record in record_files.RECORDS.items()} == {18: 18, 20: 20}
    for records, text, earlier in RECORD_FILES:
        file = bytes.fromhex(text)
        assert record_files.write(list(records), len(file)) == (0, file), (records, text)
        for each in filter(None, (text, earlier)):
            assert record_files.read(bytes.fromhex(each), len(records)) == (0, list(records)), (records, each)
            found = [record_files.file_record(bytes.fromhex(each), index) for index in range(len(records) + 1)]
            assert found == [*records, (0,) * 8], (records, each)
    for text, room, expected in UNREADABLE_FILES:
        found, _ = record_files.read(bytes.fromhex(text), room)
        assert found == expected, (text[-23:], room, expected, found)
    for count, room, expected in UNWRITTEN_FILES:
        found, _ = record_files.write([(0,) * 8] * count, room)
        assert found == expected, (count, room, expected, found)


def check_targets():
    """Beyond what is written or read a target keeps what it held, and after a refusal all of it."""
    records, *texts = RECORD_FILES[1]
    (file, earlier), columns = map(bytes.fromhex, texts), list(zip(*records))
    assert record_files.write_into(b"." * 30, columns) == (0, 28, file + b"..")
    assert record_files.write_into(b"." * 27, columns) == (12, 0, b"." * 27)
    for each in (file, earlier):
        assert record_files.read_into([(7, 8)] * 8, each) == (0, 1, [(number, 8) for number in records[0]])
        assert record_files.read_into([(7, 8)] * 7 + [()], each) == (12, 0, [(7, 8)] * 7 + [()])


def check_comparisons():
    for one, other, entries in COMPARED_FILES:
        first, second, numbers = bytes.fromhex(one), bytes.fromhex(other), sum(entries, ())
        for more in ((), (7,), (7, 8, 9, 10, 11)):
            found = file_differences.compare_into((7,) * len(numbers) + more, first, second)
            assert found == (0, 0, len(entries), numbers + more), (one, other, found)
    for one, other, room, (which, refusal) in UNCOMPARED_FILES:
        found = file_differences.compare_into((7,) * room, bytes.fromhex(one), bytes.fromhex(other))
        assert found == (which, refusal, 0, (7,) * room), (one[-23:], other[-23:], found)


def check_salvages():
    for text, length, edges, file, dropped, leftover in SALVAGED_FILES:
        data, new = bytes.fromhex(text), bytes.fromhex(file)
        for more in (0, 1, 30):
            found = salvages.salvage_into(b"." * (len(new) + more), (7,) * (len(dropped) + more), data, length, edges)
            counts = 0, len(new) // 20, len(dropped), leftover
            assert found == (counts, new + b"." * more, dropped + (7,) * more), (text, length, found)
    for text, length, edges, file_room, list_room, refusal in UNSALVAGED_FILES:
        targets = b"." * file_room, (7,) * list_room
        (found, *_), *after = salvages.salvage_into(*targets, bytes.fromhex(text), length, edges)
        assert found == refusal and (found == 0 or tuple(after) == targets), (text[-23:], length, file_room, list_room, found)


def check_board():
    for ours, theirs, refusal in LOADS:
        board, told = board_table.load([(1,) * 8] * ours, [(2,) * 8] * theirs)
        assert told == (refusal, 0, None) and len(board) == (0 if refusal else ours + theirs), (ours, theirs, told)
    for records in (RECORD_FILES[2][0], RECORD_FILES[4][0]):
        first, second = records
        check_morning(records, board_table.load([first, second], []), [(board_table.OURS, *case) for case in MORNING])
        check_morning(records, board_table.load([], [first, second]), [(board_table.PARTNER, *case) for case in MORNING])
        check_morning(records, board_table.load([first], [second]), HOUSES)


def check_morning(records, loaded, cases):
    board, _ = loaded
    for party, (name, *numbers), (refusal, stamp, lot) in cases:
        board, told = getattr(board_table, name)(board, party, *numbers)
        assert told == (refusal, stamp, lot and (records[numbers[0]], *lot)), (party, name, numbers, told)


def check_last_stamps():
    for current, stamp, (refusal, carried), lot in LAST_STAMPS:
        for party in board_table.PARTIES:
            before = {0: board_table.Owned(party, board_table.Lot((1,) * 8, 5, current))}
            board, told = board_table.assign(before, party, 0, stamp, 7)
            assert told == (refusal, carried, None) and board == {0: (party, ((1,) * 8, *lot))}, (current, stamp, told, board)


def check():
    check_conversions()
    check_listing()
    check_refusals()
    check_limits()
    check_below_zero()
    check_spectra()
    check_allowances()
    check_stored_locus()
    check_curve()
    check_cubics()
    check_ready_points()
    check_coarse()
    check_record_files()
    check_targets()
    check_comparisons()
    check_salvages()
    check_board()
    check_last_stamps()
