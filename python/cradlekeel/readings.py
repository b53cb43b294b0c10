"""The readings that the library answers, what it answers and why it refuses."""

from dataclasses import dataclass

from ._library import c_function, call, u32

EDGES = (1600, 2500, 3500, 5000, 20001)
"""The class edges in kelvin of a call that gives none."""

STEPS = 14
"""The golden-section steps of a call that gives no number: all that there are. The text program gives a line of two numbers 6."""

REASONS = {
    1: "the class edges must be 2 to 32 whole kelvins from 1600 to 20001, strictly rising",
    2: "a number of the reading is an infinity or a NaN",
    3: "a number of the reading is outside its range",
    4: "the tristimulus value Y is too small: under 1, or 0 where it comes from spectral samples",
    5: "the reading is more than 0.05 from every stored point of the blackbody locus",
    6: "the reading lies beyond the 20,000 K end of the blackbody locus",
    7: "the reading lies beyond the 1600 K end of the blackbody locus",
    9: "the samples, x_bar, y_bar and z_bar must be equally long, from 1 to 471 numbers each",
    10: "a sample is over 16,777,215, or a number of x_bar, y_bar or z_bar is over 4,000,000",
    11: "there are more than 3,200 records to write, to keep or in a file, or more than 3,600 in one from before, with records of 18 bytes",
    12: "the room is too small for the file, its records, the differences or the dropped numbers",
    13: "the file is too short to be a record file: it has fewer than 8 bytes",
    14: "the record length, in the last 8 bytes of the file or to salvage by, is neither 18 nor 20: a file without one is no record file, or was cut short or added to",
    15: "the file was cut short, damaged or joined to another: its length, or the distance in its last 8 bytes, does not fit the count and length of its records",
    16: "there are more than 64 records, the most that a board has places for",
    17: "the caller's house has no lot at that place of the board; ours are counted from 0, and the partner's follow ours",
    18: "the stamp is not the lot's current one, so nothing is stored: read the lot again, and then decide",
    19: "the lot's stamp is 65,535, the last one, so nothing more is stored there until the board is loaded anew",
}
"""What each refusal means. Of a reading, 9 and 10 are tested between 1 and 2, the others in the order of their numbers; a coarse reading
can meet 2 to 7 only. 11 to 15 are about record files: writing tests 11 and 12, reading 13, 14, 15, 11 and 12, in this order; comparing
tests as reading does, of the first file and then of the second, and 12 last; salvaging tests 1, 14, 11 and 12. 16 to 19 are about boards:
loading tests 16, a read 17, an assignment 17, 18 and 19; they are told and not raised."""

KELVIN_PLACES = 103_360_000  # the temperature at a place is this over the place, in kelvin
NO_CLASS = 255


class Refusal(ValueError):
    """A reading without an answer, or records or a file that are not taken; `number` is the refusal's number and `reason` says it
    in words.

    >>> try:
    ...     read_micro(183000, 276000)
    ... except Refusal as refusal:
    ...     print(refusal)
    refusal 6: the reading lies beyond the 20,000 K end of the blackbody locus
    >>> read_micro(0, 0)
    Traceback (most recent call last):
        ...
    cradlekeel.Refusal: refusal 5: the reading is more than 0.05 from every stored point of the blackbody locus
    """

    def __init__(self, number):
        super().__init__(number)
        self.number = number
        self.reason = REASONS[number]

    def __str__(self):
        return f"refusal {self.number}: {self.reason}"


@dataclass(frozen=True)
class Answer:
    """What an accepted reading comes to.

    >>> print(read_xy(0.3127, 0.3290))
    6509.6 K, Duv +0.003191, range 6508.8 to 6511.3 K, class 3
    """

    kelvin: float
    """The correlated colour temperature: that of the nearest point seen, which can lie just outside `kelvin_range`."""
    duv: float
    """The signed distance from the locus in CIE 1960 (u, v), in steps of 0.000001."""
    kelvin_range: tuple[float, float]
    """The lowest and the highest temperature of the bracket: how far the search has narrowed it, not an uncertainty."""
    class_index: int | None
    """The class, counted from 0, that holds the bracket and the temperature; None where none holds them all."""
    steps: int
    """The golden-section steps that were taken."""
    place: int
    """The position on the locus, in units of 25/2584 mired."""
    low: int
    """The bracket's hottest end, as a position."""
    high: int
    """The bracket's coolest end, as a position."""

    def __str__(self):
        low, high = self.kelvin_range
        named = "no class" if self.class_index is None else f"class {self.class_index}"
        return f"{self.kelvin:.1f} K, Duv {self.duv:+.6f}, range {low:.1f} to {high:.1f} K, {named}"


def read_uv(u, v, edges=EDGES, steps=STEPS):
    """The answer to CIE 1960 u and v, each -0.0000005 < x < 1; one below zero in that range counts as 0.

    >>> answer = read_uv(0.2193, 0.3271, steps=2)
    >>> answer.place, answer.low, answer.high, answer.duv, answer.class_index
    (23112, 21892, 23866, -0.002331, 2)
    """
    return _read("ck_read_uv", (u, v), edges, steps)


def read_uv_prime(u_prime, v_prime, edges=EDGES, steps=STEPS):
    """The answer to CIE 1976 u' and v', each -0.0000005 < x < 1; one below zero in that range counts as 0.

    >>> answer = read_uv_prime(0.25, 0.5)
    >>> answer.place, answer.low, answer.high, answer.duv, answer.class_index
    (32600, 32598, 32604, -0.012992, 1)
    """
    return _read("ck_read_uvp", (u_prime, v_prime), edges, steps)


def read_xy(x, y, edges=EDGES, steps=STEPS):
    """The answer to CIE 1931 x and y, each -0.0000005 < x < 1; one below zero in that range counts as 0.

    >>> read_xy(0.3127, 0.3290, edges=(5000, 6000, 7000), steps=6).class_index
    1
    >>> read_xy(0.3127, float("nan"))
    Traceback (most recent call last):
        ...
    cradlekeel.Refusal: refusal 2: a number of the reading is an infinity or a NaN
    """
    return _read("ck_read_xy", (x, y), edges, steps)


def read_xyz(x, y, z, edges=EDGES, steps=STEPS):
    """The answer to tristimulus values X, Y and Z, each -0.000005 < X < 4096; one below zero in that range counts as 0. Y,
    rounded to 0.00001, is at least 1.

    >>> round(read_xyz(100, 100, 100).kelvin)
    5454
    >>> read_xyz(100, 100, -0.000001) == read_xyz(100, 100, 0)
    True
    """
    return _read("ck_read_xyz", (x, y, z), edges, steps)


def read_micro(u, v, edges=EDGES, steps=STEPS):
    """The answer to CIE 1960 u and v as whole numbers of millionths, each 0 to 4,000,000. With `steps=6`, and no edges given, it
    is what the text program answers to a line of two numbers.

    >>> answer = read_micro(219300, 327100, steps=0)
    >>> answer.kelvin_range, answer.class_index
    ((4000.0, 5000.0), None)
    >>> read_micro(255910, 349510, steps=0)
    ... # doctest: +NORMALIZE_WHITESPACE
    Answer(kelvin=2857.1428571428573, duv=0.0, kelvin_range=(2666.6666666666665, 3076.923076923077), class_index=1,
           steps=0, place=36176, low=33592, high=38760)
    """
    return _read("ck_read_micro", (u32("u", u), u32("v", v)), edges, steps)


def read_samples(samples, x_bar, y_bar, z_bar, edges=EDGES, steps=STEPS):
    """The answer to spectral samples: 1 to 471 whole numbers, each 0 to 16,777,215, with the three colour-matching functions at
    the same wavelengths as whole numbers of millionths, each 0 to 4,000,000.

    X, Y and Z are plain sums of products, so the wavelengths must be equally far apart; any unit of the samples will do, but
    they are whole numbers: let the largest come near 16,777,215.
    `cie_1931` has the tables of CIE's standard observer, and `read_spectrum` takes values that are not whole.

    >>> from cradlekeel import cie_1931
    >>> equal_energy = 471 * [1000]
    >>> print(read_samples(equal_energy, *cie_1931(360, 830, 1)))
    5454.4 K, Duv -0.004452, range 5453.2 to 5454.9 K, class 3
    >>> read_samples([1000], [1], [1], [1, 1])
    Traceback (most recent call last):
        ...
    cradlekeel.Refusal: refusal 9: the samples, x_bar, y_bar and z_bar must be equally long, from 1 to 471 numbers each
    """
    lists = {"samples": samples, "x_bar": x_bar, "y_bar": y_bar, "z_bar": z_bar}
    reading = [[u32(name, number, i) for i, number in enumerate(numbers)] for name, numbers in lists.items()]
    return _read("ck_read_samples", reading, edges, steps)


def _read(name, reading, edges, steps):
    found = call(name, reading, edges, u32("steps", steps))
    whole = found.whole
    if whole.refusal:
        raise Refusal(whole.refusal)
    return Answer(
        kelvin=found.kelvin, duv=found.duv, kelvin_range=(KELVIN_PLACES / whole.high, KELVIN_PLACES / whole.low),
        class_index=None if whole.class_index == NO_CLASS else whole.class_index, steps=whole.steps,
        place=whole.place, low=whole.low, high=whole.high)


def coarse_uv(u, v):
    """The nearest ready place to CIE 1960 u and v, each -0.0000005 < x < 1; one below zero in that range counts as 0.

    A ready place is one of the 1,565 places 5168, 5206, .. 64600 whose points of the locus the library has in a table. They are 25/68 mired
    apart; the temperature at a place is 103,360,000 / place in kelvin. Of places that are equally near it is the lowest. A coarse reading
    has no class edges and no steps. It gives an `int`, or raises `Refusal` for the same readings and with the same numbers as `read_uv` with
    any good edges; floats are rounded as there.

    >>> coarse_uv(0.2193, 0.3271)
    23142
    >>> round(103_360_000 / coarse_uv(0.2193, 0.3271))
    4466
    """
    return _coarse("ck_coarse_uv", (u, v))


def coarse_uv_prime(u_prime, v_prime):
    """The nearest ready place to CIE 1976 u' and v', each -0.0000005 < x < 1; one below zero in that range counts as 0. `coarse_uv` says
    what a ready place is.

    >>> coarse_uv_prime(0.25, 0.5)
    32566
    """
    return _coarse("ck_coarse_uvp", (u_prime, v_prime))


def coarse_xy(x, y):
    """The nearest ready place to CIE 1931 x and y, each -0.0000005 < x < 1; one below zero in that range counts as 0. `coarse_uv` says what
    a ready place is.

    >>> round(103_360_000 / coarse_xy(0.3127, 0.3290))
    6507
    >>> coarse_xy(0.3127, float("nan"))
    Traceback (most recent call last):
        ...
    cradlekeel.Refusal: refusal 2: a number of the reading is an infinity or a NaN
    """
    return _coarse("ck_coarse_xy", (x, y))


def coarse_xyz(x, y, z):
    """The nearest ready place to tristimulus values X, Y and Z, each -0.000005 < X < 4096; one below zero in that range counts as 0. Y,
    rounded to 0.00001, is at least 1. `coarse_uv` says what a ready place is.

    >>> coarse_xyz(100, 100, 100)
    18962
    """
    return _coarse("ck_coarse_xyz", (x, y, z))


def coarse_micro(u, v):
    """The nearest ready place to CIE 1960 u and v as whole numbers of millionths, each 0 to 4,000,000. `coarse_uv` says what a ready place
    is.

    >>> coarse_micro(219300, 327100)
    23142
    >>> coarse_micro(0, 0)
    Traceback (most recent call last):
        ...
    cradlekeel.Refusal: refusal 5: the reading is more than 0.05 from every stored point of the blackbody locus
    """
    return _coarse("ck_coarse_micro", (u32("u", u), u32("v", v)))


def _coarse(name, reading):
    found = c_function(name)(*reading)
    if found.refusal:
        raise Refusal(found.refusal)
    return found.place
