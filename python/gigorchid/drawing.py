"""How a map is drawn on axes: its colours and their scale, what stands on the axes, and the title."""

from __future__ import annotations

import logging
from collections.abc import Iterable
from typing import Any, NamedTuple

import numpy as np

# Told at the first start alone, that the fonts are being looked through; a command has nothing to say of it.
logging.getLogger("matplotlib").setLevel(logging.ERROR)

import matplotlib

from . import layout
from .axis_labels import (
    LONGEST_NAME,
    NAME_DISTANCE,
    POINTS_PER_INCH,
    SIGN_WIDTH,
    Name,
    fitted,
    label_names,
    label_times,
    size_in_points,
    text_width,
    width_of,
)
from .corridor import NO_LIMIT
from .figures import MARK
from .maps import FLOW, QUEUE, SPEED, VEHICLES, Map, has_ramp, over_limit
from .marks import Edges, Frame, mark, mark_differences
from .plans import Plan
from .records import Record
from .tell import vehicles
from .units import decimal, tidy
from .windows import Window, kilometres

TITLES = {VEHICLES: "Vehicles", SPEED: "Speed", FLOW: "Flow", QUEUE: "Queues"}
COLOURS = {VEHICLES: "YlGnBu", SPEED: "YlGnBu_r", FLOW: "YlGnBu", QUEUE: "YlGnBu"}
"""Dark where there are many vehicles, or slow ones; the lightness alone tells which, also on a grey print."""
DIFFERENCE_COLOURS = "PuOr_r"
NOTHING = "0.8"
"""The grey of what has no figure: no speed without a vehicle, no share of a limit where there is none."""
TEXT_SIZE = 8.0
TITLE_GAP = 14
"""From the title to the scale of colours, in points, with half a figure of the scale."""


class Scale(NamedTuple):
    """What the ends of the colours stand for."""

    low: float
    high: float


class Parts(NamedTuple):
    """Which parts of a map are drawn: kilometres or limits at the left, names at the right, and the title, its own where none is told."""

    left: bool = True
    names: bool = True
    title: str | None = None
    longest: int = LONGEST_NAME
    """The most signs of a name."""


class Origin(NamedTuple):
    """What a map is of: a record, its plan where its marks are drawn, the record that was taken off, and the window."""

    record: Record
    plan: Plan | None
    less: Record | None
    window: Window


def rounded_up(value: float) -> float:
    """A round figure that is not below a value, for the end of a scale."""
    if not value > 0:
        return 1.0
    power = 10.0 ** np.floor(np.log10(value))
    return float(next(step * power for step in (1, 1.2, 1.5, 2, 2.5, 3, 4, 5, 6, 8, 10) if step * power >= value))


def scale_of(maps: Iterable[Map]) -> Scale:
    """One scale for maps of one quantity; of differences, as far below nothing as above."""
    shown = list(maps)
    most = max(each.most for each in shown)
    return Scale(-rounded_up(most), rounded_up(most)) if shown[0].difference else Scale(0, most or 1.0)


def draw(shown: Map, of: Origin, axes: Any, scale: Scale, parts: Parts = Parts(), size: float = TEXT_SIZE) -> Any:
    """Draws a map on axes, and returns them."""
    frame = Frame(axes, shown, edges_of(shown, of.record), of.record.clock, size)
    mesh = _mesh(frame, scale)
    axes.set_ylim(*_ends(frame.edges))
    label_times(axes, of.record.clock, of.window.first, of.window.last, size)
    _label_road(frame, of, parts)
    if shown.difference:
        mark_differences(frame)
    else:
        mark(frame, of.record, of.plan)
    # The scale takes at least three tenths of the room above a map.
    room = 0.7 * size_in_points(axes)[0] - TITLE_GAP
    title = fitted(title_of(shown) if parts.title is None else parts.title, size + 0.5, room, True)
    _write_title(axes, title, size)
    _write_scale(frame, mesh, title)
    return axes


def edges_of(shown: Map, record: Record) -> Edges:
    """From where to where each row goes: of links in kilometres or, where a length is missing, in links; of ramps in rows."""
    if shown.quantity == QUEUE:
        return [(float(at), float(at + 1)) for at in range(len(shown.nodes))]
    places = kilometres(record.corridor)
    if places is None:
        return [(float(node - 1), float(node)) for node in shown.nodes]
    return [(float(places[node - 1]), float(places[node])) for node in shown.nodes]


def _ends(edges: Edges) -> tuple[float, float]:
    return (edges[0][0], edges[-1][1]) if edges else (0.0, 1.0)


def _mesh(frame: Frame, scale: Scale) -> Any:
    """The colours; what is infinitely far above the scale is as what is just above it."""
    shown, edges = frame.shown, frame.edges
    colours = matplotlib.colormaps[DIFFERENCE_COLOURS if shown.difference else COLOURS[shown.quantity]].copy()
    colours.set_bad(NOTHING if edges else "white")
    frame.axes.set_facecolor(NOTHING)
    times = [frame.time(column) for column in range(len(shown.states) + 1)]
    rows = [low for low, _ in edges] + [_ends(edges)[1]] if edges else [0.0, 1.0]
    values = np.where(np.isposinf(shown.values), scale.high, shown.values)
    if not edges:
        values = np.full((1, len(shown.states)), np.nan)
    return frame.axes.pcolormesh(times, rows, values, cmap=colours, vmin=scale.low, vmax=scale.high, rasterized=True)


def names_of(shown: Map, of: Origin) -> list[Name]:
    """The names beside a map: of its ramps, or of all nodes at the ends of its links."""
    record, edges = of.record, edges_of(shown, of.record)
    states = range(of.window.first, of.window.last + 1)
    over = {node for each in (record, of.less) if each is not None for node in _over_full(each, states)}
    if shown.quantity == QUEUE:
        nodes, places = shown.nodes, [(low + high) / 2 for low, high in edges]
    else:
        nodes, places = list(of.window.nodes), [edges[0][0]] + [high for _, high in edges]
    known = [has_ramp(record, node) or (of.less is not None and has_ramp(of.less, node)) for node in nodes]
    return [Name(at, _called(record, node), ramp, node in over) for at, node, ramp in zip(places, nodes, known)]


def names_width(shown: Map, of: Origin, size: float = TEXT_SIZE, longest: int = LONGEST_NAME) -> float:
    """What the names take at the right of a map, in inches."""
    return (NAME_DISTANCE + width_of(names_of(shown, of), size, longest) + 8) / POINTS_PER_INCH


def _called(record: Record, node: int) -> str:
    """The name of a node, or its identifier."""
    known = record.corridor.nodes[node]
    return known.name or str(known.identifier)


def _over_full(record: Record, states: range) -> list[int]:
    """The ramps whose queue passes its limit in a state that is shown."""
    nodes = list(range(record.corridor.links))
    found = over_limit(record, nodes, states).any(axis=1)
    return [node for node in nodes if found[node]]


def _label_road(frame: Frame, of: Origin, parts: Parts) -> None:
    """Kilometres, or the limits of queues, at the left; names at the right."""
    if frame.shown.quantity == QUEUE:
        thin = min(1.2, 0.12 * frame.points()[1])
        for low, _ in frame.edges[1:]:
            frame.axes.axhline(low, color="white", linewidth=thin)
        _label_limits(frame, of.record)
    else:
        _label_kilometres(frame, of.record)
    if not parts.left:
        frame.axes.set_ylabel("")
        frame.axes.tick_params(axis="y", labelleft=False)
    if parts.names:
        label_names(frame.axes, names_of(frame.shown, of), frame.size, parts.longest)


def _label_kilometres(frame: Frame, record: Record) -> None:
    long = kilometres(record.corridor) is not None
    frame.axes.set_ylabel("km, travel ↑" if long else "links, lengths unknown", fontsize=frame.size, labelpad=2)
    frame.axes.yaxis.set_major_locator(matplotlib.ticker.MaxNLocator(6, steps=[1, 2, 5, 10], integer=not long))


def _label_limits(frame: Frame, record: Record) -> None:
    """The limit of each queue, as far as there is room."""
    _, height = size_in_points(frame.axes)
    room = max(int(height / (1.15 * frame.size)), 1)
    every = max(-(-len(frame.edges) // room), 1)
    middles = [(low + high) / 2 for low, high in frame.edges]
    texts = [_limit_text(record, node) for node in frame.shown.nodes]
    frame.axes.set_yticks(middles[::every], texts[::every])
    frame.axes.set_ylabel("limit, veh", fontsize=frame.size, labelpad=2)


def _limit_text(record: Record, node: int) -> str:
    limit = record.corridor.word(node, layout.QUEUE_LIMIT)
    return "none" if limit == NO_LIMIT else tidy(decimal(vehicles(limit), 1))


def title_of(shown: Map) -> str:
    """What a map shows, in which unit, and whether it is proved."""
    less = ", B less A" if shown.difference else ""
    return f"{TITLES[shown.quantity]}{less}, {shown.unit}{'' if shown.proved else f' {MARK}'}"


def missing(shown: Map) -> bool:
    """Whether a map has places without a figure."""
    return bool(np.isnan(shown.values).any())


def _write_title(axes: Any, title: str, size: float) -> None:
    """The title above the map at the left."""
    placed = {"xycoords": "axes fraction", "textcoords": "offset points"}
    axes.annotate(title, (0, 1), (0, 5), fontsize=size + 0.5, fontweight="bold", parse_math=False, **placed)


def _write_scale(frame: Frame, mesh: Any, title: str) -> None:
    """The scale of colours above the map at the right, as long as the title leaves room for, within reason."""
    width, height = size_in_points(frame.axes)
    left = width - text_width(title, frame.size + 0.5, True) - TITLE_GAP
    long = max(min(0.5 * width, 150, left), 0.3 * width)
    box = frame.axes.inset_axes([1 - long / width, 1 + 6 / height, long / width, 6 / height])
    beyond = not frame.shown.difference and bool((frame.shown.values > 1.005 * frame.shown.most).any())
    bar = frame.axes.figure.colorbar(mesh, cax=box, orientation="horizontal", extend="max" if beyond else "neither")
    box.xaxis.set_ticks_position("top")
    low, high = mesh.get_clim()
    ticks = _ticks(low, high, long / (SIGN_WIDTH * (frame.size - 1)))
    bar.set_ticks(ticks, labels=[_figure(tick) for tick in ticks])
    box.tick_params(labelsize=frame.size - 1, length=2, pad=1)
    bar.outline.set_linewidth(0.5)


def _figure(value: float) -> str:
    """A figure of a scale, with a true minus sign."""
    text = f"{value:,.0f}" if abs(value) >= 1000 or value == round(value) else f"{value:.4g}"
    return text.replace("-", "\N{MINUS SIGN}")


def _ticks(low: float, high: float, room: float) -> list[float]:
    """Figures at even distances for a scale that is as long as so many signs, its ends among them: as many as fit, and have few digits."""
    for parts in (4, 2):
        found = [low + (high - low) * at / parts for at in range(parts + 1)]
        wide = sum(len(_figure(each)) + 1.5 for each in found)
        if all(round(each, 1) == round(each, 6) for each in found) and wide <= room + len(_figure(high)):
            return found
    return [low, 0.0, high] if low < 0 else [low, high]
