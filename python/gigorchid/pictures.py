"""Pictures of one plan or of two: the maps of their records in rows, with the verdict above and the signs below; as SVG or PNG, the same bytes each time."""

from __future__ import annotations

import io
from collections.abc import Sequence
from typing import Any, NamedTuple

from . import __version__, drawing, maps, marks
from .figures import MARK, NOT_PROVED
from .maps import QUANTITIES, QUEUE, Map
from .axis_labels import LONGEST_NAME, POINTS_PER_INCH, quiet, text_width, wrapped
from .drawing import Origin, Parts
from .subjects import Column, Subject

import matplotlib
from matplotlib.figure import Figure
from matplotlib.lines import Line2D
from matplotlib.patches import Patch

DOTS_PER_INCH = 150

WIDTH = 8.27
"""Of an A4 page, so that a picture prints with its text in the size that it has."""
LEFT, BETWEEN = 0.62, 0.4
EDGE, ABOVE, HEADING, BELOW = 0.25, 0.36, 0.2, 0.3
LOWEST, HIGHEST, PER_NAME = 1.75, 9.5, 0.145
"""Inches: the margins, what a map has above and below it, and how high it is for the names at its side."""
TITLE_SIZE, WORD_SIZE, VERDICT_SIZE = 10.5, 9.0, 8.5
FEW_STATES = 500
"""Of fewer states than this the last one is seen, in which nothing flows."""
IN_A_LINE = 3
"""Of the signs below the maps."""

STYLE = {
    "font.family": "DejaVu Sans",
    "text.parse_math": False,
    "svg.hashsalt": "gigorchid",
    "svg.fonttype": "path",
    "hatch.linewidth": 0.5,
    "axes.linewidth": 0.6,
}


class Layout(NamedTuple):
    """How wide a picture is, what it has at its left, the size of its text, and the most signs of a name."""

    width: float = WIDTH
    left: float = LEFT
    size: float = drawing.TEXT_SIZE
    longest: int = LONGEST_NAME


WIDE, NARROW = Layout(), Layout(3.9, 0.46, 7, 16)
"""For a page on a screen or on paper, and for one on a phone."""


def style() -> Any:
    """A context in which figures are drawn as here, whatever somebody has set for their own."""
    defaults = {key: value for key, value in matplotlib.rcParamsDefault.items() if key not in ("backend", "toolbar")}
    return matplotlib.rc_context({**defaults, **STYLE})


def picture(shown: Subject, quantities: Sequence[str] = QUANTITIES) -> Figure:
    """The maps of each quantity, a row for each, with a column for the plan, or for A, B and B less A."""
    with style():
        return _picture(shown, quantities)


def _picture(shown: Subject, quantities: Sequence[str]) -> Figure:
    columns = shown.columns
    rows = [[column.map(quantity) for column in columns] for quantity in quantities]
    heights = [map_height(row) for row in rows]
    titles, signs = _titles(shown), sign_names(rows, columns)
    width = (WIDTH - 2 * EDGE) * POINTS_PER_INCH
    lines = [line for said in _said(shown) for line in wrapped(_kept_together(said), VERDICT_SIZE, width)]
    above = ABOVE + (HEADING if len(columns) > 1 else 0)
    head, foot = 0.2 + 0.19 * len(titles) + 0.15 * len(lines), 0.25 + 0.17 * -(-len(signs) // IN_A_LINE)
    height = head + foot + sum(each + above + BELOW for each in heights)
    figure = Figure(figsize=(WIDTH, height))
    right = names_width(rows, columns, _look(shown))
    _write_heading(figure, titles, lines, shown)
    bottom = height - head
    for row, tall in zip(rows, heights):
        bottom -= above + tall
        if len(columns) > 1:
            _write(figure, LEFT, bottom + tall + ABOVE, drawing.title_of(row[0]), 9.5, fontweight="bold")
        _draw_row(figure, shown, row, (bottom, tall), right)
        bottom -= BELOW
    _write_signs(figure, signs, all(each.proved for row in rows for each in row))
    return figure


def _said(shown: Subject) -> list[str]:
    """The verdict, what belongs to it, and which part is shown."""
    cut = shown.cut()
    return [
        str(shown.verdict),
        *shown.not_valid(),
        *shown.rewritten(),
        *([f"shown: only {cut}; the verdict is on the whole"] if cut else []),
    ]


def _titles(shown: Subject) -> list[str]:
    """The road and the plans, beside the verdict's word; in one line where they fit."""
    width = (WIDTH - 2 * EDGE) * POINTS_PER_INCH - text_width(shown.badge, WORD_SIZE, True) - 20
    if text_width(shown.title, TITLE_SIZE, True) <= width:
        return [shown.title]
    return [line for text in (shown.road, shown.plans) for line in wrapped(text, TITLE_SIZE, width, True)]


def map_height(row: Sequence[Map]) -> float:
    """How high the maps of a row are, so that the names fit beside them."""
    names = max(len(each.nodes) + (each.quantity != QUEUE) for each in row)
    return min(max(PER_NAME * names, LOWEST), HIGHEST)


def _look(shown: Subject) -> Layout:
    """Where each of two maps has its own names, these are shorter."""
    return WIDE if shown.one_road else WIDE._replace(longest=NARROW.longest)


def names_width(rows: Sequence[Sequence[Map]], columns: Sequence[Column], look: Layout) -> float:
    """What the names take at the right of maps, in inches."""
    pairs = [(shown, column) for row in rows for shown, column in zip(row, columns)]
    return max(drawing.names_width(shown, _of(column), look.size, look.longest) for shown, column in pairs)


def _draw_row(figure: Figure, shown: Subject, row: Sequence[Map], place: tuple[float, float], right: float) -> None:
    """Draws the maps of a quantity side by side, from a bottom and so high, in inches."""
    width, height = figure.get_size_inches()
    own, last = not shown.one_road, len(shown.columns) - 1
    for at, (left, wide) in enumerate(_places(shown, right)):
        column = shown.columns[at]
        axes = figure.add_axes([left / width, place[0] / height, wide / width, place[1] / height])
        title = _column_title(column, row, at) if last else None
        parts = Parts(own or at == 0, own or at == last, title, _look(shown).longest)
        draw_column(axes, shown.columns, at, row, parts, drawing.TEXT_SIZE)


def _places(shown: Subject, right: float) -> list[tuple[float, float]]:
    """Where each column begins, and how wide it is. Columns on one road share its names; others have their own."""
    count = len(shown.columns)
    beside = BETWEEN if shown.one_road else LEFT + right
    each = (WIDTH - LEFT - right - beside * (count - 1)) / count
    return [(LEFT + at * (each + beside), each) for at in range(count)]


def draw_column(axes: Any, columns: Sequence[Column], at: int, row: Sequence[Map], parts: Parts, size: float) -> None:
    """Draws the map of one column, in colours that mean the same for A and for B where they are in one unit."""
    same = [each for each in row if (each.difference, each.unit) == (row[at].difference, row[at].unit)]
    drawing.draw(row[at], _of(columns[at]), axes, drawing.scale_of(same), parts, size)


def _of(column: Column) -> Origin:
    """What a column's maps are of."""
    side, less = column.side, None if column.less is None else column.less.record
    return Origin(side.record, side.plan, less, column.window)


class MapPicture(NamedTuple):
    """A map by itself, for a page: its picture, and where on it the map is, from the left and the top, as shares of the picture."""

    svg: bytes
    left: float
    top: float
    width: float
    height: float


def map_picture(columns: Sequence[Column], at: int, row: Sequence[Map], look: Layout, right: float) -> MapPicture:
    """The map of one column by itself, with so many inches for the names."""
    tall = map_height(row)
    height = ABOVE + tall + BELOW
    with style():
        figure = Figure(figsize=(look.width, height))
        wide = look.width - look.left - right
        axes = figure.add_axes([look.left / look.width, BELOW / height, wide / look.width, tall / height])
        title = _column_title(columns[at], row, at) if len(columns) > 1 else ""
        draw_column(axes, columns, at, row, Parts(True, True, title, look.longest), look.size)
        content = saved(figure, "svg")
    return MapPicture(content, look.left / look.width, ABOVE / height, wide / look.width, tall / height)


def _column_title(column: Column, row: Sequence[Map], at: int) -> str:
    """What is above a map that has others beside it, with its unit where that is not the one of the first: the queues of A and B are in percent, and
    what one has more in vehicles."""
    unit = "" if row[at].unit == row[0].unit else f", {row[at].unit}"
    return f"{column.key}{unit}, {column.name}" if column.less is None else f"{column.key}{unit} {MARK}"


def _kept_together(text: str) -> str:
    """The number of a refusal stays in one line with its word."""
    return text.replace("[refusal ", "[refusal\u00a0")


def _write(figure: Figure, left: float, bottom: float, text: str, size: float, **settings: Any) -> None:
    """Writes a text at a place in inches from the left and from below."""
    width, height = figure.get_size_inches()
    figure.text(left / width, bottom / height, text, fontsize=size, va="baseline", **settings)


def _write_heading(figure: Figure, titles: Sequence[str], lines: Sequence[str], shown: Subject) -> None:
    """The title, the verdict's word in a box, dark where it is one to stop at, and all of the verdict."""
    width, height = figure.get_size_inches()
    dark = shown.stopping
    colours = {"facecolor": "black" if dark else "white", "edgecolor": "black", "pad": 3.5}
    for at, title in enumerate(titles):
        _write(figure, EDGE, height - 0.28 - 0.19 * at, title, TITLE_SIZE, fontweight="bold")
    look = {"ha": "right", "fontweight": "bold", "color": "white" if dark else "black", "bbox": colours}
    _write(figure, width - EDGE, height - 0.28, shown.badge, WORD_SIZE, **look)
    for at, line in enumerate(lines):
        _write(figure, EDGE, height - 0.29 - 0.19 * len(titles) - 0.15 * at, line, VERDICT_SIZE)


def sign_names(rows: Sequence[Sequence[Map]], columns: Sequence[Column]) -> list[str]:
    """The marks that are on these maps."""
    found: set[str] = set()
    for row in rows:
        for shown, column in zip(row, columns):
            if column.less is None:
                found |= _signs_on(shown, column)
            else:
                found |= {"few"} if marks.few(shown) else set()
                found |= {"empty"} if drawing.missing(shown) else set()
    return [name for name in SIGNS if name in found]


def _signs_on(shown: Map, column: Column) -> set[str]:
    """The marks on a map of one plan."""
    plan, record = column.side.plan, column.side.record
    if shown.quantity == QUEUE:
        over = maps.over_limit(record, shown.nodes, shown.states).any()
        found = {"over": over, "metered": marks.metered(shown, plan).any(), "unlimited": drawing.missing(shown)}
    else:
        held = marks.held(shown, plan)
        found = {"held_often" if marks.many(held) else "held": held.any(), "empty": drawing.missing(shown)}
        states = column.window.last + 1 - column.window.first
        found |= {"ended": len(shown.states) < states <= FEW_STATES}
    return {name for name, there in found.items() if there}


SIGNS: dict[str, dict[str, Any]] = {
    "held": {"facecolor": "white", "edgecolor": "black", "hatch": "//////", "label": "limit posted below full speed"},
    "held_often": {"facecolor": "black", "edgecolor": "white", "label": "line: limit posted below full speed"},
    "metered": {"facecolor": "black", "edgecolor": "white", "label": "line: metered below the ramp's capacity"},
    "over": {"facecolor": marks.OVER, "edgecolor": "black", "hatch": "xxxxxx", "label": "▲ queue above its limit"},
    "few": {"linestyle": "", **marks.RING, "label": "ring: a place that differs"},
    "unlimited": {"facecolor": drawing.NOTHING, "edgecolor": "0.6", "label": "no limit, so no share of it"},
    "ended": {"facecolor": drawing.NOTHING, "edgecolor": "0.6", "label": "no step begins in the last state"},
    "empty": {"facecolor": drawing.NOTHING, "edgecolor": "0.6", "label": "less than one vehicle, so no speed"},
}
"""How each mark looks, and what it means."""


def _write_signs(figure: Figure, signs: Sequence[str], proved: bool) -> None:
    width, height = figure.get_size_inches()
    if signs:
        figure.legend(
            handles=[(Line2D([], [], **SIGNS[name]) if name == "few" else Patch(**SIGNS[name])) for name in signs],
            loc="lower left",
            bbox_to_anchor=(EDGE / width, 0.22 / height),
            ncol=IN_A_LINE,
            fontsize=7.5,
            frameon=False,
            borderpad=0,
            borderaxespad=0,
            columnspacing=1.4,
            handlelength=1.8,
        )
    if not proved:
        _write(figure, EDGE, 0.08, NOT_PROVED, 7.5)


def saved(figure: Figure, ending: str) -> bytes:
    """The bytes of a picture, the same for the same picture."""
    out = io.BytesIO()
    told = f"gigorchid {__version__}"
    metadata = {"Date": None, "Creator": told} if ending == "svg" else {"Software": told}
    with style(), quiet():
        figure.savefig(out, format=ending, dpi=DOTS_PER_INCH, metadata=metadata)
    return out.getvalue()
