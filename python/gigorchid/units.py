"""Figures in the field's units and words in the library's: one factor for each ending of a column, and the rounding."""

from __future__ import annotations

from fractions import Fraction
from functools import lru_cache

from .sizes import GREATEST_WORD

FLOW = ("vph", "units")
SPEED = ("kmh", "mph", "units")
DENSITY = ("vpkm", "veh", "units")
COUNT = ("veh", "units")
SPLIT = ("pct", "units")
LENGTH = ("m",)

PER_LINK = ("kmh", "mph", "vpkm")
"""The endings that need the length of a link."""

SYMBOLS = {
    "vph": "veh/h",
    "kmh": "km/h",
    "mph": "mph",
    "m": "m",
    "veh": "veh",
    "vpkm": "veh/km",
    "pct": "%",
    "units": "units",
}

UNITS_PER_VEHICLE = 64
ONE = 65_536
"""A section per step, and the whole of a flow."""
KILOMETRES_PER_MILE = Fraction("1.609344")


@lru_cache(maxsize=4096)
def factor(ending: str, step: Fraction, length: Fraction | None = None) -> Fraction:
    """How many words one of this unit is, with a step of so many seconds on a link of so many metres."""
    if ending in PER_LINK:
        if length is None:
            raise ValueError(f"{ending} needs the length of a link")
        return _factor_on_link(ending, step, length)
    match ending:
        case "vph":
            return step * UNITS_PER_VEHICLE / 3600
        case "veh":
            return Fraction(UNITS_PER_VEHICLE)
        case "pct":
            return Fraction(ONE, 100)
        case "units":
            return Fraction(1)
    raise ValueError(f"{ending} is no unit of a word")


def _factor_on_link(ending: str, step: Fraction, length: Fraction) -> Fraction:
    if ending == "vpkm":
        return length * UNITS_PER_VEHICLE / 1000
    kilometres_per_hour = Fraction(1000, 3600) * step * ONE / length
    return kilometres_per_hour if ending == "kmh" else KILOMETRES_PER_MILE * kilometres_per_hour


def nearest(value: Fraction) -> int:
    """The nearest whole number, halves up."""
    return (2 * value.numerator + value.denominator) // (2 * value.denominator)


def fits_word(value: int) -> bool:
    """Whether 32 bits hold it."""
    return 0 <= value <= GREATEST_WORD


def decimal(value: Fraction | int, places: int) -> str:
    """A figure for people: rounded to so many decimals, with separators of thousands."""
    scaled = nearest(Fraction(value) * 10**places)
    whole, rest = divmod(scaled, 10**places)
    return f"{whole:,}" + (f".{rest:0{places}d}" if places else "")


@lru_cache(maxsize=65_536)
def shown(word: int, scale: Fraction) -> str:
    """A word in the unit of which one is so many words, to one decimal, for a table."""
    return plain(word / scale, 1)


def plain(value: Fraction | int, places: int = 6) -> str:
    """A figure for a table: no separators, and no more decimals than it has, up to so many."""
    text = decimal(value, places).replace(",", "")
    return text.rstrip("0").rstrip(".") if "." in text else text


def told_apart(one: Fraction | int, other: Fraction | int, places: int = 1) -> tuple[str, str]:
    """Both figures with just as many decimals as show which is the greater, and no trailing zeros."""
    while one != other and decimal(one, places) == decimal(other, places) and places < 6:
        places += 1
    return tidy(decimal(one, places)), tidy(decimal(other, places))


def tidy(text: str) -> str:
    """Without zeros at the end of its decimals."""
    return text.rstrip("0").rstrip(".") if "." in text else text
