"""Space-time maps as axes of matplotlib: vehicles, speed, flow and queues of a record, or what one record has more than another.

Each function takes a record and returns the axes, so that a notebook can go on from them. Time runs to the right and the road upwards, links
are drawn to their length, and nothing depends on red against green: the colours run from light to dark blue, of differences from purple to orange.

With `plan`, the record's own, links with a limit below full speed are outlined and the times at which a ramp is metered are underlined. With
`less`, the record of another plan on the same road, the map shows what the record has more than that one. `window` cuts times and links.
"""

from __future__ import annotations

from typing import Any

from .drawing import NOTHING, Origin, draw, names_width, scale_of
from .maps import FLOW, QUEUE, SPEED, VEHICLES, map_of
from .marks import OVER
from .plans import Plan
from .records import Record
from .windows import Window

__all__ = ["NOTHING", "OVER", "Window", "flow", "queue", "speed", "vehicles"]

FIGURE = (8.27, 3.2)
"""Inches, of a figure that is made here."""


def vehicles(
    record: Record,
    *,
    plan: Plan | None = None,
    less: Record | None = None,
    window: Window | None = None,
    ax: Any = None,
) -> Any:
    """The map of vehicles, per kilometre."""
    return _drawn(VEHICLES, record, plan, less, window, ax)


def speed(
    record: Record,
    *,
    plan: Plan | None = None,
    less: Record | None = None,
    window: Window | None = None,
    ax: Any = None,
) -> Any:
    """The map of mean speeds, flow over vehicles; the tool works them out, and they are not proved."""
    return _drawn(SPEED, record, plan, less, window, ax)


def flow(
    record: Record,
    *,
    plan: Plan | None = None,
    less: Record | None = None,
    window: Window | None = None,
    ax: Any = None,
) -> Any:
    """The map of what leaves each link, per hour."""
    return _drawn(FLOW, record, plan, less, window, ax)


def queue(
    record: Record,
    *,
    plan: Plan | None = None,
    less: Record | None = None,
    window: Window | None = None,
    ax: Any = None,
) -> Any:
    """The queues of the ramps against their limits, a row for each; with `less`, in vehicles."""
    return _drawn(QUEUE, record, plan, less, window, ax)


def _drawn(
    quantity: str, record: Record, plan: Plan | None, less: Record | None, window: Window | None, axes: Any
) -> Any:
    """Draws a map on axes, or on those of a new figure."""
    if plan is not None and (plan.corridor.links, plan.clock) != (record.corridor.links, record.clock):
        raise ValueError("the plan has not the links and steps of the record: expected the plan that the record is of")
    shown = map_of(record, quantity, window, less)
    of = Origin(record, plan, less, Window.whole(record) if window is None else window)
    return draw(shown, of, _new_axes(names_width(shown, of)) if axes is None else axes, scale_of([shown]))


def _new_axes(right: float) -> Any:
    """The axes of a new figure, with so many inches at their right for names."""
    from matplotlib import pyplot

    figure, axes = pyplot.subplots(figsize=FIGURE)
    figure.subplots_adjust(left=0.08, right=1 - right / FIGURE[0], bottom=0.1, top=0.82)
    return axes
