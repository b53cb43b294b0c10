"""Spectra as a meter gives them: CIE's colour-matching functions, and whole-number samples of any values.

The scaling to whole numbers is tested and not proved; what the library makes of the samples is proved."""

import functools
from fractions import Fraction
from math import floor
from numbers import Rational

from ._library import ROOT
from .readings import EDGES, STEPS, read_samples

FIRST, LAST = 360, 830  # the wavelengths, in nm, at which CIE's table begins and ends
LARGEST_SAMPLE = 16_777_215
_TABLE = ROOT / "data/cie1931_2deg_1nm_millionths.csv"


class BadSpectrum(ValueError):
    """Wavelengths and values that are no spectrum; `index` is that of the wavelength at fault, None where it is not one alone."""

    def __init__(self, message, index=None):
        super().__init__(message)
        self.index = index


class BelowZero(BadSpectrum):
    """A value below zero."""


def cie_1931(first=FIRST, last=LAST, step=1):
    """x_bar, y_bar and z_bar of the CIE 1931 2-degree standard observer: three lists of whole millionths, at the wavelengths
    `first`, `first + step`, .. nm up to `last`, which is among them where a step reaches it.

    >>> x_bar, y_bar, z_bar = cie_1931(550, 560, 5)
    >>> y_bar
    [994950, 1000000, 995000]
    >>> cie_1931(380, 900, 5)
    Traceback (most recent call last):
        ...
    ValueError: 380 to 900 nm is not within 360 to 830 nm, where CIE's table is
    """
    if step < 1:
        raise ValueError(f"a step of {step} nm: it must be 1 nm or more")
    if first > last:
        raise ValueError(f"{first} to {last} nm: the first wavelength must not be over the last")
    if first < FIRST or last > LAST:
        raise ValueError(f"{first} to {last} nm is not within {FIRST} to {LAST} nm, where CIE's table is")
    rows = [_table()[wavelength] for wavelength in range(first, last + 1, step)]
    return tuple(map(list, zip(*rows)))


@functools.lru_cache(maxsize=None)
def _table():
    """The three numbers at each wavelength."""
    rows = (tuple(map(int, row.split(","))) for row in _TABLE.read_text(encoding="ascii").splitlines())
    return {wavelength: numbers for wavelength, *numbers in rows}


def read_spectrum(wavelengths, values, edges=EDGES, steps=STEPS):
    """The answer to values measured at wavelengths of whole nm, for the CIE 1931 2-degree standard observer.

    The wavelengths rise by one equal step, since the sums behind the answer weigh all samples alike; those outside 360 to 830 nm
    are left out, since CIE's table ends there. The values are whole numbers, floats, decimals or fractions of any unit, none below
    zero. Each is multiplied so that the largest becomes 16,777,215 and rounded to the nearest whole number, halves up, with no
    other rounding; `read_samples` answers these. That scaling is tested and not proved.

    >>> wavelengths = range(380, 785, 5)
    >>> print(read_spectrum(wavelengths, [wavelength / 555 for wavelength in wavelengths]))
    4444.1 K, Duv -0.005066, range 4443.7 to 4444.8 K, class 2
    >>> read_spectrum([500, 510, 530], [0.5, 0.75, 1])
    Traceback (most recent call last):
        ...
    cradlekeel.BadSpectrum: 530 nm follows 510 nm after a step of 10 nm; the steps must be equal
    """
    wavelengths, values = [_whole_nm(wavelength, i) for i, wavelength in enumerate(wavelengths)], list(values)
    if len(wavelengths) != len(values):
        raise BadSpectrum(f"there are {len(wavelengths)} wavelengths and {len(values)} values")
    step = _equal_step(wavelengths)
    inside = [i for i, wavelength in enumerate(wavelengths) if FIRST <= wavelength <= LAST]
    if not inside:
        raise BadSpectrum(f"no wavelength is from {FIRST} to {LAST} nm, where CIE's table is")
    samples = _scaled([_not_negative(values[i], wavelengths[i], i) for i in inside])
    tables = cie_1931(wavelengths[inside[0]], wavelengths[inside[-1]], step)
    return read_samples(samples, *tables, edges=edges, steps=steps)


def _exact(number):
    """Exactly what a finite number says, in Python's own whole numbers, which no product makes too large."""
    numerator, denominator = (number.numerator, number.denominator) if isinstance(number, Rational) else number.as_integer_ratio()
    return Fraction(int(numerator), int(denominator))


def _whole_nm(wavelength, index):
    try:
        exact = _exact(wavelength)
    except (AttributeError, OverflowError, ValueError):
        exact = None
    if exact is None or exact.denominator != 1:
        raise BadSpectrum(f"{wavelength!r} is not a wavelength in whole nm", index)
    return exact.numerator


def _equal_step(wavelengths):
    """The step from each wavelength to the next; 1 where there is no next one."""
    steps = [after - before for before, after in zip(wavelengths, wavelengths[1:])]
    for i, step in enumerate(steps, 1):
        if step < 1:
            raise BadSpectrum(f"{wavelengths[i]} nm follows {wavelengths[i - 1]} nm; wavelengths must rise", i)
        if step != steps[0]:
            raise BadSpectrum(
                f"{wavelengths[i]} nm follows {wavelengths[i - 1]} nm after a step of {steps[0]} nm; the steps must be equal", i)
    return steps[0] if steps else 1


def _not_negative(value, wavelength, index):
    try:
        exact = _exact(value)
    except AttributeError:
        raise TypeError(f"the value at {wavelength} nm is {value!r}, which is not a number") from None
    except (OverflowError, ValueError):
        raise BadSpectrum(f"the value at {wavelength} nm is {value}, which is not finite", index) from None
    if exact < 0:
        raise BelowZero(f"the value at {wavelength} nm is {value}, which is below zero", index)
    return exact


def _scaled(values):
    """Whole numbers in the proportions of the values, the largest 16,777,215; zeros where all are zero."""
    scale = LARGEST_SAMPLE / (max(values) or Fraction(1))
    return [floor(value * scale + Fraction(1, 2)) for value in values]
