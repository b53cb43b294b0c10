"""Spectra for the tests: the colour-matching functions of data/, and the light of blackbodies and lines at their wavelengths.

Planck's law is worked out in decimal arithmetic, whose digits are the same on every machine."""

from decimal import Context, Decimal, localcontext
from fractions import Fraction
from functools import lru_cache
from pathlib import Path
from typing import NamedTuple

import reference as ref

TABLE = Path(__file__).resolve().parent.parent / "data" / "cie1931_2deg_1nm_millionths.csv"
TABLE_SUMS = [106_865_475, 106_856_921, 106_892_257]
DIGITS = Context(prec=30)
C1 = Decimal("3.7417749e20")  # W nm^4 / m^2
C2 = Decimal("1.4388e7")  # nm K
PICO = 10**12


class Observer(NamedTuple):
    wavelengths: tuple  # in nm
    tables: tuple  # x_bar, y_bar and z_bar at each of them, in millionths


@lru_cache(maxsize=None)
def observer(step, first=360, last=830):
    """CIE's 1931 observer from one wavelength to another, both taken."""
    rows = (tuple(map(int, line.split(","))) for line in TABLE.read_text().splitlines())
    wavelengths, *tables = zip(*(row for row in rows if row[0] in range(first, last + 1, step)))
    return Observer(wavelengths, tuple(tables))


@lru_cache(maxsize=None)
def blackbody(wavelengths, kelvin):
    """Planck's law at each wavelength, in whole picowatts to the square metre and nanometre."""
    with localcontext(DIGITS):
        return tuple(int(PICO * C1 / (Decimal(nm) ** 5 * ((C2 / (nm * kelvin)).exp() - 1))) for nm in wavelengths)


def in_watts(light):
    """Samples as a meter in absolute units would report them."""
    return tuple(power // PICO for power in light)


def scaled(light, peak):
    """Samples to the nearest whole number, the largest of them `peak`."""
    top = max(light)
    return tuple((2 * peak * power + top) // (2 * top) for power in light)


def lines_at(wavelengths, powers):
    """Light at the wavelengths that `powers` names, and none at the others."""
    return tuple(powers.get(nm, 0) for nm in wavelengths)


def check_table():
    """The table is whole, adds up as data/README.md says, and from 380 to 780 nm gives all 24 stored points by Planck's law."""
    assert observer(1).wavelengths == tuple(range(360, 831)) and list(map(sum, observer(1).tables)) == TABLE_SUMS
    wavelengths, tables = observer(1, 380, 780)
    for i, (mired, *stored) in ref.STORED.items():
        light = blackbody(wavelengths, Decimal(1_000_000) / mired)
        x, y, z = (ref.sum_of_products(light, table) for table in tables)
        n = x + 15 * y + 3 * z
        assert [ref.rounded(Fraction(400_000 * x, n)), ref.rounded(Fraction(600_000 * y, n))] == stored, i
