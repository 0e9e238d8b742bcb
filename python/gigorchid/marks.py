"""What is marked on a map beside its colours: held links, metered ramps, queues above their limits, and places that differ."""

from __future__ import annotations

from typing import Any, NamedTuple

import numpy as np
import numpy.typing as npt
from matplotlib.collections import PolyCollection

from . import layout
from .axis_labels import SIGN_WIDTH, size_in_points
from .corridor import NO_LIMIT
from .figures import MARK
from .maps import QUEUE, Map, over_limit
from .plans import Plan
from .records import Record
from .tell import vehicles
from .times import Clock
from .units import decimal

OVER = "#d55e00"
LINE_POINTS = 2.2
"""How thick the line is that tells when a ramp is metered."""
MOST_RINGS = 40
RING = {"marker": "o", "markersize": 6, "markerfacecolor": "none", "markeredgecolor": "black", "markeredgewidth": 1}
"""How many places are ringed at most, and how."""
MOST_OUTLINES = 60
"""More held runs than this are underlined, and not outlined."""
MOST_SHAPES = 400
"""More shapes than this are drawn as points of a picture, so that a file stays small."""

Mask = npt.NDArray[np.bool_]
Edges = list[tuple[float, float]]


class Frame(NamedTuple):
    """Axes with the map that is drawn on them, from where to where each of its rows goes, its clock, and the size of its text."""

    axes: Any
    shown: Map
    edges: Edges
    clock: Clock
    size: float

    def time(self, column: int) -> float:
        """When a column begins, in seconds after midnight."""
        return float(self.clock.start + (self.shown.first + column) * self.clock.step)

    def points(self) -> tuple[float, float]:
        """How many points a second is wide, and one of the unit of the other axis high."""
        width, height = size_in_points(self.axes)
        (left, right), (low, high) = self.axes.get_xlim(), self.axes.get_ylim()
        return width / (right - left), height / (high - low)


def held(shown: Map, plan: Plan) -> Mask:
    """Where a plan posts a limit below full speed on the links of a map, by row and step."""
    return _below(shown, plan.limits, [plan.corridor.word(node, layout.FULL_SPEED) for node in shown.nodes])


def metered(shown: Map, plan: Plan) -> Mask:
    """Where a plan meters the ramps of a map below their capacity, by row and step."""
    return _below(shown, plan.rates, [plan.corridor.word(node, layout.RAMP_CAPACITY) for node in shown.nodes])


def _below(shown: Map, words: layout.Words, most: list[int]) -> Mask:
    """Where the words of a plan, by step and node, are below the most that a row can have."""
    return words[shown.first : shown.states.stop].T[shown.nodes] < np.array(most, dtype=np.int64).reshape(-1, 1)


def differing(shown: Map) -> Mask:
    """The places of a map of differences that differ; where there is no figure, in the word."""
    return np.where(np.isnan(shown.values), shown.words != 0, shown.values != 0)


def many(flags: Mask) -> bool:
    """Whether so many runs of steps are held that outlines would hide the map: they are underlined then."""
    return sum(len(_runs(row)) for row in flags) > MOST_OUTLINES


def few(shown: Map) -> bool:
    """Whether so few places of a map of differences differ that each is ringed, since one alone may be finer than a point of the picture."""
    return 0 < np.count_nonzero(differing(shown)) <= MOST_RINGS


def mark(frame: Frame, record: Record, plan: Plan | None) -> None:
    """Marks the map of one record, and of the plan that it is of where it is told."""
    if not frame.edges:
        _write(frame, 0.5, 0.5, "no ramp here", transform=frame.axes.transAxes)
    elif frame.shown.quantity == QUEUE:
        _mark_over(frame, record)
        _tell_unlimited(frame, record)
        if plan is not None:
            _underline(frame, metered(frame.shown, plan))
    elif plan is not None:
        _mark_held(frame, plan)


def mark_differences(frame: Frame) -> None:
    """Says where nothing differs, and rings what differs in few places."""
    flags = differing(frame.shown)
    if not frame.edges:
        _write(frame, 0.5, 0.5, "no ramp here", transform=frame.axes.transAxes)
    elif not flags.any():
        _write(frame, 0.5, 0.5, "no difference here", transform=frame.axes.transAxes)
    if few(frame.shown):
        places = np.argwhere(flags).tolist()
        times = [(frame.time(column) + frame.time(column + 1)) / 2 for _, column in places]
        frame.axes.plot(times, [sum(frame.edges[row]) / 2 for row, _ in places], linestyle="", **RING)


def _runs(flags: Mask) -> list[tuple[int, int]]:
    """From where until where a row of flags is set."""
    changes = np.flatnonzero(np.diff(np.concatenate([[False], flags, [False]]).astype(np.int8)))
    return [(int(start), int(end)) for start, end in zip(changes[::2], changes[1::2])]


def _boxes(frame: Frame, flags: Mask, edges: Edges) -> list[Any]:
    """A rectangle for each run of flags in each row, from one level to another."""
    found = []
    for row, (low, high) in enumerate(edges):
        for start, end in _runs(flags[row]):
            left, right = frame.time(start), frame.time(end)
            found.append([(left, low), (left, high), (right, high), (right, low)])
    return found


def _outline(frame: Frame, boxes: list[Any], **settings: Any) -> None:
    if boxes:
        shapes = PolyCollection(boxes, rasterized=len(boxes) > MOST_SHAPES, **settings)
        frame.axes.add_collection(shapes, autolim=False)


def _write(frame: Frame, x: float, y: float, text: str, **settings: Any) -> None:
    frame.axes.text(x, y, text, fontsize=frame.size - 1, ha="center", va="center", color="black", **settings)


def _mark_over(frame: Frame, record: Record) -> None:
    """Fills the queues that are above their limits."""
    flags = over_limit(record, frame.shown.nodes, frame.shown.states)
    _outline(
        frame, _boxes(frame, flags, frame.edges), facecolors=OVER, edgecolors="black", linewidths=0.8, hatch="xxxx"
    )


def _tell_unlimited(frame: Frame, record: Record) -> None:
    """The greatest queue of each ramp that has no limit to set it against."""
    if frame.points()[1] < frame.size:
        return
    for row, node in enumerate(frame.shown.nodes):
        if record.corridor.word(node, layout.QUEUE_LIMIT) == NO_LIMIT:
            most = decimal(vehicles(int(frame.shown.words[row].max())), 1)
            middle = sum(frame.axes.get_xlim()) / 2
            _write(frame, middle, sum(frame.edges[row]) / 2, f"no limit; longest {most} veh {MARK}")


def _underline(frame: Frame, flags: Mask) -> None:
    """A line along the foot of each row where flags are set."""
    thick = LINE_POINTS / frame.points()[1]
    lines = [(low, low + min(thick, 0.3 * (high - low))) for low, high in frame.edges]
    _outline(frame, _boxes(frame, flags, lines), facecolors="black", linewidths=0)


def _mark_held(frame: Frame, plan: Plan) -> None:
    """Outlines that are seen on light and on dark, with the limit where there is room for it."""
    flags = held(frame.shown, plan)
    if many(flags):
        _underline(frame, flags)
        return
    boxes = _boxes(frame, flags, frame.edges)
    _outline(frame, boxes, facecolors="none", edgecolors="white", linewidths=2.2)
    _outline(frame, boxes, facecolors="none", edgecolors="black", linewidths=1.0, hatch="///")
    for row in range(len(frame.edges)):
        for run in _runs(flags[row]):
            _tell_limit(frame, plan, row, run)


def _tell_limit(frame: Frame, plan: Plan, row: int, run: tuple[int, int]) -> None:
    """The limits that are posted on a link in a run of steps, where there is room."""
    node, (low, high) = frame.shown.nodes[row], frame.edges[row]
    words = plan.limits[frame.shown.first + run[0] : frame.shown.first + run[1], node]
    ends = [plan.corridor.speed_text(int(word), node, plan.clock.step) for word in (words.min(), words.max())]
    text = ends[0] if ends[0] == ends[1] else f"{ends[0].split()[0]} to {ends[1]}"
    left, right = (frame.time(column) for column in run)
    across, up = frame.points()
    if (right - left) * across > SIGN_WIDTH * frame.size * (len(text) + 3) and (high - low) * up > frame.size - 1:
        box = {"facecolor": "white", "edgecolor": "none", "pad": 1}
        _write(frame, (left + right) / 2, (low + high) / 2, text, bbox=box)
