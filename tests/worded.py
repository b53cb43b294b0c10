"""The words in which examples/ and `cradlekeel spectrum` give an answer, made from the second program's own."""

from fractions import Fraction
from functools import lru_cache

import reference
import spectra
from sample_lists import Lists


def worded(given):
    """The line of an answer; of a refusal, as much as its number says."""
    if given.refusal:
        return f"refusal {given.refusal}: "
    kelvin, low, high = (float(reference.kelvin_at(place)) for place in (given.place, given.p, given.o))
    shown = "no class" if given.cls == reference.NO_CLASS else f"class {given.cls}"
    return f"{kelvin:.1f} K, Duv {given.duv / reference.MICRO:+.6f}, range {low:.1f} to {high:.1f} K, {shown}"


@lru_cache(maxsize=None)
def table():
    """x_bar, y_bar and z_bar by wavelength."""
    wavelengths, tables = spectra.observer(1)
    return dict(zip(wavelengths, zip(*tables)))


def lists_of(wavelengths, values):
    """The samples and the tables of a spectrum; wavelengths outside the tables do not count."""
    inside = {wavelength: Fraction(value) for wavelength, value in zip(wavelengths, values) if wavelength in table()}
    light = tuple(inside.values())
    return Lists(spectra.scaled(light, reference.SAMPLE_LIMIT) if any(light) else light, *zip(*map(table().get, inside)))


def spectrum_answer(wavelengths, values, edges=reference.TEXT_EDGES, steps=reference.MOST_STEPS):
    return reference.answer("samples", lists_of(wavelengths, values), edges, steps)
