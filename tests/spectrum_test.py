"""The samples and spectra of python/cradlekeel: tables, scaling, faults, and answers against the second program. abi_test.py runs it."""

from decimal import Decimal
from fractions import Fraction
from math import exp, inf, nan
from pathlib import Path
from unittest import mock

import cradlekeel
from dice import Dice
from reference import SAMPLE_LIMIT
from worded import lists_of, spectrum_answer, table

EXAMPLE = Path(__file__).resolve().parent.parent / "examples/incandescent.csv"
WAVELENGTHS = range(380, 781, 5)


# --- Without the library ----------------------------------------------------------------------------------------------


def fault_of(kind, call):
    """The error of a kind that a call raises before the library is asked."""
    try:
        call()
    except (cradlekeel.Refusal, cradlekeel.LibraryMissing) as error:
        raise AssertionError("the library was asked") from error
    except kind as error:
        return error
    raise AssertionError("taken")


def check_tables():
    """Every list of numbers is a column of the file, and wavelengths that are not in it are named."""
    for first, last, step in ((360, 830, 1), (380, 780, 5), (381, 783, 5), (555, 555, 1), (360, 830, 470), (361, 830, 470)):
        rows = [table()[wavelength] for wavelength in range(first, last + 1, step)]
        assert list(zip(*cradlekeel.cie_1931(first, last, step))) == rows, (first, last, step)
    assert cradlekeel.cie_1931() == cradlekeel.cie_1931(360, 830, 1)
    for given, words in (((359, 830, 1), "359 to 830"), ((360, 831, 1), "360 to 831"), ((360, 830, 0), "a step of 0"),
                         ((360, 830, -5), "a step of -5"), ((500, 499, 1), "500 to 499")):
        fault = fault_of(ValueError, lambda: cradlekeel.cie_1931(*given))
        assert words in str(fault), fault


def check_samples_that_do_not_fit():
    """A number that is not whole, or does not fit 32 bits, is named by its list and index."""
    for k, name in enumerate(("samples", "x_bar", "y_bar", "z_bar")):
        for bad, kind in ((2**32, ValueError), (-1, ValueError), (0.5, TypeError), ("1", TypeError)):
            lists = [[1, 2, 3, 4] for _ in range(4)]
            lists[k][2] = bad
            fault = fault_of(kind, lambda: cradlekeel.read_samples(*lists))
            assert str(fault).startswith(f"{name}[2] is {bad!r}, which"), fault


# wavelengths, values, the index at fault and what the message says
NO_SPECTRA = (
    ((500, 505, 515), (1, 1, 1), 2, "515 nm follows 505 nm after a step of 5 nm; the steps must be equal"),
    ((500, 500), (1, 1), 1, "500 nm follows 500 nm; wavelengths must rise"),
    ((505, 500), (1, 1), 1, "500 nm follows 505 nm; wavelengths must rise"),
    ((100, 200, 250, 500), (1, 1, 1, 1), 2, "250 nm follows 200 nm after a step of 100 nm; the steps must be equal"),
    ((500.5, 501.5), (1, 1), 0, "500.5 is not a wavelength in whole nm"),
    ((500, nan), (1, 1), 1, "nan is not a wavelength in whole nm"),
    ((500, inf), (1, 1), 1, "inf is not a wavelength in whole nm"),
    ((500, "501"), (1, 1), 1, "'501' is not a wavelength in whole nm"),
    ((500, 501), (1, -1e-300), 1, "the value at 501 nm is -1e-300, which is below zero"),
    ((500, 501), (Decimal("-0.10"), 1), 0, "the value at 500 nm is -0.10, which is below zero"),
    ((500, 501), (1, inf), 1, "the value at 501 nm is inf, which is not finite"),
    ((500, 501), (-inf, 1), 0, "the value at 500 nm is -inf, which is not finite"),
    ((500, 501), (1, nan), 1, "the value at 501 nm is nan, which is not finite"),
    ((500, 501), (Decimal("NaN"), 1), 0, "the value at 500 nm is NaN, which is not finite"),
    ((500, 501), (1,), None, "there are 2 wavelengths and 1 values"),
    ((), (), None, "no wavelength is from 360 to 830 nm, where CIE's table is"),
    ((100, 200, 300), (1, 1, 1), None, "no wavelength is from 360 to 830 nm, where CIE's table is"),
)


def check_faults():
    for wavelengths, values, index, words in NO_SPECTRA:
        fault = fault_of(cradlekeel.BadSpectrum, lambda: cradlekeel.read_spectrum(wavelengths, values))
        assert (str(fault), fault.index) == (words, index), fault
        assert isinstance(fault, cradlekeel.BelowZero) == ("below zero" in words), fault
    fault = fault_of(TypeError, lambda: cradlekeel.read_spectrum((500, 501), (1, "1")))
    assert str(fault) == "the value at 501 nm is '1', which is not a number", fault


def halves():
    """Values that come to a half and to just under it; the last would be a half in floats."""
    return [2 * SAMPLE_LIMIT, 1, 2, 3, 2 * SAMPLE_LIMIT - 1, 1 - Fraction(1, 10**30), 1 - 2.0**-53]


class Narrow(int):
    """A whole number of 16 bits, as of an array of counts: what it is multiplied with is cut to 16 bits too."""

    def __mul__(self, other):
        return Narrow(int(self) * int(other) % 2**16)

    __rmul__ = __mul__
    numerator = property(lambda self: self)
    denominator = property(lambda self: Narrow(1))


def plain(values):
    """The values as the second program takes them."""
    return [int(value) if isinstance(value, Narrow) else value for value in values]


def random_values(dice, count):
    """Floats of one size or of all sizes, with zeros among them."""
    sizes = dice.pick(((0, 1), (-1070, 1023)))
    return [dice.below(2**53) / 2**53 * 2.0 ** dice.between(*sizes) if dice.below(9) else 0.0 for _ in range(count)]


def spectra():
    """Wavelengths and values of every kind that is taken."""
    yield range(500, 507), halves()
    yield [380.0, 400.0, Decimal("420.0"), Fraction(440)], [0.1, Decimal("0.1"), Fraction(1, 10), 1]
    yield [555], [7]
    yield range(500, 503), [Narrow(137), Narrow(251), Narrow(397)]
    yield range(360, 831), [0] * 471
    yield range(345, 900, 5), [-1, -1, nan, *random_values(Dice("left out"), 95), -1, *[inf] * 12]
    yield WAVELENGTHS, [float(wavelength) ** 5 for wavelength in WAVELENGTHS]
    for step in (1, 2, 5, 7, 10, 20, 470, 471):
        dice = Dice(f"step {step}")
        wavelengths = range(dice.between(340, 380), dice.between(800, 850), step)
        yield wavelengths, [*random_values(dice, len(wavelengths) - 1), 1.5]


def check_scaling():
    """The samples and tables that the library is handed, number for number."""
    count = 0
    for wavelengths, values in spectra():
        with mock.patch("cradlekeel.spectra.read_samples") as library:
            cradlekeel.read_spectrum(wavelengths, values)
        assert tuple(map(tuple, library.call_args.args)) == lists_of(wavelengths, plain(values)), (wavelengths, values)
        count += 1
    return count


def check_incandescent():
    """examples/incandescent.csv holds CIE's formula for illuminant A, to three decimals."""
    rows = [line.split(",") for line in EXAMPLE.read_text().splitlines()[2:]]
    assert [int(wavelength) for wavelength, _ in rows] == list(WAVELENGTHS)
    for wavelength, power in rows:
        nm = int(wavelength)
        formula = 100 * (560 / nm) ** 5 * (exp(1.435e7 / (2848 * 560)) - 1) / (exp(1.435e7 / (2848 * nm)) - 1)
        assert power == f"{formula:.3f}", (wavelength, power, formula)


def self_test():
    """What needs no library; the number of spectra that were scaled."""
    check_tables()
    check_samples_that_do_not_fit()
    check_faults()
    check_incandescent()
    return check_scaling()


# --- With the library -------------------------------------------------------------------------------------------------


def answered(wavelengths, values, **options):
    """An answer in the second program's order of fields, or a refusal's number alone."""
    try:
        a = cradlekeel.read_spectrum(wavelengths, values, **options)
    except cradlekeel.Refusal as refusal:
        return (refusal.number, 0, 0, 0, 0, 0, 0)
    return (0, a.place, a.low, a.high, round(a.duv * 1e6), a.steps, 255 if a.class_index is None else a.class_index)


def run():
    """Each spectrum with different edges and steps against the second program; how many there were."""
    count, refusals = 0, set()
    for wavelengths, values in spectra():
        for options in ({}, {"steps": 3}, {"edges": (2000, 3000, 6000)}, {"edges": (3000,)}):
            expected = spectrum_answer(wavelengths, plain(values), **options)
            assert answered(wavelengths, values, **options) == expected, (wavelengths, values, options)
            count, refusals = count + 1, refusals | {expected.refusal}
    assert refusals >= {0, 1, 4, 5}, f"the spectra have only the refusals {refusals}"
    return count
