"""What stands on the axes of a map: times of day, kilometres, and the names of ramps, moved apart so that none overlaps."""

from __future__ import annotations

import warnings
from collections.abc import Iterator, Sequence
from contextlib import contextmanager
from fractions import Fraction
from functools import lru_cache
from typing import Any, NamedTuple

from matplotlib import rcParams
from matplotlib.font_manager import FontProperties
from matplotlib.textpath import text_to_path

from .times import Clock, format_time

INTERVALS = [1, 2, 5, 10, 15, 30, 60, 120, 300, 600, 900, 1800, 3600, 7200, 10800, 14400, 21600, 43200, 86400]
"""Seconds between the times on an axis."""

LONGEST_NAME = 22
NAME_DISTANCE = 12
"""From the axis to the names, in points."""
NAME_GAP = 1.22
"""The least distance of two names, in sizes of the font."""

SIGN_WIDTH = 0.62
"""How wide a sign is, in sizes of the font."""

POINTS_PER_INCH = 72


class Name(NamedTuple):
    """A name beside an axis: where it belongs, what it says, and how it stands out."""

    at: float
    text: str
    ramp: bool
    over: bool


def times(first: Fraction, last: Fraction, width: float) -> list[tuple[Fraction, str]]:
    """Round times of day for an axis from one time to another that is as wide as so many signs, without seconds where all have none."""
    # A time has five signs or, with seconds, eight, and needs air.
    room = {each: width / (6.5 if each % 60 == 0 else 10) for each in INTERVALS}
    interval = next((each for each in INTERVALS if (last - first) / each <= room[each]), INTERVALS[-1])
    start = -(-first // interval)
    found = [Fraction(at * interval) for at in range(int(start), int(last // interval) + 1)]
    short = interval % 60 == 0
    return [(time, format_time(time)[:-3] if short else format_time(time)) for time in found]


def spread(wanted: Sequence[float], gap: float, low: float, high: float) -> list[float]:
    """Places from low to high, in order and at least a gap apart, as near to the wanted ones as the sum of squares tells."""
    blocks: list[list[float]] = []
    for at, place in enumerate(wanted):
        blocks.append([place - at * gap, 1.0])
        while len(blocks) > 1 and blocks[-2][0] > blocks[-1][0]:
            value, count = blocks.pop()
            mean, before = blocks[-1]
            blocks[-1] = [(mean * before + value * count) / (before + count), before + count]
    most = high - (len(wanted) - 1) * gap
    flat = [min(max(value, low), most) for value, count in blocks for _ in range(int(count))]
    return [value + at * gap for at, value in enumerate(flat)]


def fitting(names: Sequence[Name], room: int) -> list[Name]:
    """The names that there is room for: those of over-full ramps first, then of other ramps, then others; of too many some, evenly."""
    kept: list[Name] = []
    for rank in (2, 1, 0):
        each = [name for name in names if name.ramp + name.over == rank]
        left = room - len(kept)
        kept += each if len(each) <= left else [each[at * len(each) // left] for at in range(left)]
    return sorted(kept)


def size_in_points(ax: Any) -> tuple[float, float]:
    """Width and height of axes."""
    place, (width, height) = ax.get_position(), ax.figure.get_size_inches()
    return place.width * width * POINTS_PER_INCH, place.height * height * POINTS_PER_INCH


def label_times(ax: Any, clock: Clock, first: int, last: int, size: float) -> None:
    """Puts times of day on the axis of the states from one to another, and the limits of that axis."""
    start, end = (clock.start + state * clock.step for state in (first, last + 1))
    ax.set_xlim(float(start), float(end))
    width, _ = size_in_points(ax)
    found = times(start, end, width / (SIGN_WIDTH * size))
    ax.set_xticks([float(time) for time, _ in found], [text for _, text in found])
    ax.tick_params(axis="both", labelsize=size, length=3, pad=2)


def name_text(name: Name, longest: int) -> str:
    """A name as it stands beside an axis."""
    text = name.text if len(name.text) <= longest else name.text[: longest - 1] + "…"
    return f"▲ {text}" if name.over else text


def width_of(names: Sequence[Name], size: float, longest: int) -> float:
    """How wide the widest of the names is, in points."""
    return max((text_width(name_text(name, longest), size, name.over) for name in names), default=0.0)


@lru_cache(maxsize=4096)
def text_width(text: str, size: float, bold: bool = False) -> float:
    """How wide a text is, in points."""
    font = FontProperties(family="DejaVu Sans", weight="bold" if bold else "normal", size=size)
    with quiet():
        return float(text_to_path.get_text_width_height_descent(text, font, ismath=False)[0])


@contextmanager
def quiet() -> Iterator[None]:
    """Says nothing of letters that the font lacks, which are drawn as boxes; a page has all names as text too."""
    with warnings.catch_warnings():
        warnings.filterwarnings("ignore", "Glyph .* missing from current font")
        yield


def fitted(text: str, size: float, width: float, bold: bool = False) -> str:
    """A text that is no wider than so many points: as much of it as fits."""
    if text_width(text, size, bold) <= width:
        return text
    kept = next((at for at in range(len(text), 0, -1) if text_width(f"{text[:at]}…", size, bold) <= width), 0)
    return f"{text[:kept]}…"


def wrapped(text: str, size: float, width: float, bold: bool = False) -> list[str]:
    """A text in lines that are no wider than so many points, but for a word that is."""
    lines: list[str] = []
    for word in text.split(" "):
        longer = f"{lines[-1]} {word}" if lines else word
        if lines and text_width(longer, size, bold) <= width:
            lines[-1] = longer
        else:
            lines.append(word)
    return lines


def label_names(ax: Any, names: Sequence[Name], size: float, longest: int) -> None:
    """Puts names at the right, each with a line to its place."""
    low, high = ax.get_ylim()
    _, height = size_in_points(ax)
    scale, gap = height / (high - low), NAME_GAP * size
    shown = fitting(names, int(height / gap) + 1)
    wanted = [(name.at - low) * scale for name in shown]
    for name, place, at in zip(shown, spread(wanted, gap, -0.2 * gap, height + 0.2 * gap), wanted):
        ax.annotate(
            name_text(name, longest),
            xy=(1, name.at),
            xycoords=("axes fraction", "data"),
            xytext=(NAME_DISTANCE, place - at),
            textcoords="offset points",
            va="center",
            fontsize=size,
            fontweight="bold" if name.over else "normal",
            color=rcParams["text.color"] if name.ramp else "0.5",
            annotation_clip=False,
            parse_math=False,
            arrowprops={
                "arrowstyle": "-",
                "linewidth": 0.5,
                "color": "0.5",
                "shrinkA": 0,
                "shrinkB": 0,
                "relpos": (0, 0.5),
            },
        )
