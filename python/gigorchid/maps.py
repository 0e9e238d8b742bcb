"""The numbers behind the maps: vehicles, speed, flow and queue of a record by link or ramp and by state, with the words that they come from."""

from __future__ import annotations

from fractions import Fraction
from typing import NamedTuple

import numpy as np
import numpy.typing as npt

from . import layout
from .corridor import NO_LIMIT
from .records import Record
from .units import ONE, SYMBOLS, UNITS_PER_VEHICLE, factor
from .windows import Window

VEHICLES, SPEED, FLOW, QUEUE = QUANTITIES = ("vehicles", "speed", "flow", "queue")
PLACES = {VEHICLES: layout.VEHICLES, SPEED: layout.FLOW, FLOW: layout.FLOW, QUEUE: layout.QUEUE}
"""Which word of a node in a record a map shows; speed is that of the flow over the vehicles."""

SHARE, SHARE_OF_SPEED = "% of their limits", "% of full speed"

Values = npt.NDArray[np.float64]


class Map(NamedTuple):
    """A map: a row for each of `nodes`, upstream first, and a column for each state from `first` on.

    Of links the node is the one at which the link ends, of queues the ramp's. `values` is in `unit`, and nan where there is no such figure: no
    speed without a vehicle, no share of a limit where there is none. `words` are the record's own, in units; of B less A they are B's less A's.
    """

    quantity: str
    nodes: list[int]
    first: int
    values: Values
    words: npt.NDArray[np.int64]
    unit: str
    most: float
    """What the end of the colours stands for: of speed and flow the greatest full speed and capacity of the corridor, of queues the limit, and of
    vehicles half the greatest jam density, or the most that there are."""
    proved: bool
    """Whether the figures are the record's words in another unit, and nothing that this package works out."""
    difference: bool
    """Whether it is of what one record has more than another."""

    @property
    def states(self) -> range:
        """The states of the columns."""
        return range(self.first, self.first + self.values.shape[1])


def has_ramp(record: Record, node: int) -> bool:
    """Whether a node has an on-ramp, or vehicles that wait at it."""
    return node < record.corridor.links and bool(
        record.corridor.word(node, layout.RAMP_CAPACITY) or record.queues[:, node].any()
    )


def ramps(window: Window, *records: Record) -> list[int]:
    """The ramps at the nodes of a window, in any of the records."""
    return [node for node in window.nodes if any(has_ramp(record, node) for record in records)]


def map_of(record: Record, quantity: str, window: Window | None = None, less: Record | None = None) -> Map:
    """The map of a quantity; with `less`, a record of the same road, of what this one has more than that one, with lengths and units as this one
    has them."""
    shown = Window.whole(record) if window is None else window
    _test(quantity, shown, record, less)
    records = (record,) if less is None else (record, Record(less.words, record.corridor, record.clock))
    nodes = ramps(shown, *records) if quantity == QUEUE else list(range(shown.first_link, shown.last_link + 1))
    # What flows does so in a step, and the last state begins none.
    last = shown.last if quantity in (VEHICLES, QUEUE) else min(shown.last, record.clock.steps - 1)
    states = slice(shown.first, last + 1)
    words = [each.states[states, :, PLACES[quantity]].T[nodes].astype(np.int64) for each in records]
    shares = quantity == QUEUE and less is None
    values = [_figures(each, quantity, nodes, states, own, shares) for each, own in zip(records, words)]
    unit, proved = _unit(record, quantity, shares), quantity in (VEHICLES, FLOW) and less is None
    if less is None:
        most = _most(record, quantity)
        most = max(most / 2, float(values[0].max(initial=0))) if quantity == VEHICLES else most
        return Map(quantity, nodes, shown.first, values[0], words[0], unit, most, proved, False)
    more = values[0] - values[1]
    greatest = float(np.nanmax(np.abs(more), initial=0)) if more.size else 0.0
    return Map(quantity, nodes, shown.first, more, words[0] - words[1], unit, greatest, proved, True)


def _test(quantity: str, window: Window, record: Record, less: Record | None) -> None:
    """Faults what no map can be of."""
    whole = Window.whole(record)
    if quantity not in QUANTITIES:
        raise ValueError(f"{quantity}: expected one of {', '.join(QUANTITIES)}")
    if not (
        0 <= window.first <= window.last <= whole.last and 1 <= window.first_link <= window.last_link <= whole.last_link
    ):
        raise ValueError(
            f"{window} is no part of a record with states 0 to {whole.last} and links 1 to {whole.last_link}"
        )
    if less is not None and (less.corridor.links, less.clock) != (record.corridor.links, record.clock):
        raise ValueError("the records have not the same links and steps: expected two of one road")


def _most(record: Record, quantity: str) -> float:
    """The greatest figure that a link of the corridor can have, to three digits, so that the capacity of a table is met again."""
    return float(f"{_greatest(record, quantity):.3g}")


def _greatest(record: Record, quantity: str) -> float:
    """The same with all digits."""
    corridor, step, links = record.corridor, record.clock.step, range(1, record.corridor.links + 1)
    long = to_length(record)
    if quantity == QUEUE or (quantity == SPEED and not long):
        return 100.0
    if quantity == FLOW:
        return max(float(corridor.word(link, layout.CAPACITY) / factor("vph", step)) for link in links)
    if quantity == SPEED:
        return max(float(corridor.speed(corridor.word(link, layout.FULL_SPEED), link, step) or 0) for link in links)
    lengths = _lengths(record, list(links))
    return max(
        corridor.word(link, layout.JAM) / float(UNITS_PER_VEHICLE * length) for link, length in zip(links, lengths)
    )


def over_limit(record: Record, nodes: list[int], states: range) -> npt.NDArray[np.bool_]:
    """Where the queue of a ramp is above its limit, by ramp and state."""
    limits = np.array([[record.corridor.word(node, layout.QUEUE_LIMIT)] for node in nodes], dtype=np.int64)
    queues = record.queues[states.start : states.stop].T[nodes].astype(np.int64)
    return queues > limits.reshape(-1, 1)


def to_length(record: Record) -> bool:
    """Whether the lengths of all links are known; where one is not, no map of the road is to its length."""
    return all(node.length is not None for node in record.corridor.nodes[1:])


def _unit(record: Record, quantity: str, shares: bool) -> str:
    long = to_length(record)
    match quantity:
        case "vehicles":
            return "veh/km" if long else "veh"
        case "speed":
            return SYMBOLS[record.corridor.speeds] if long else SHARE_OF_SPEED
        case "flow":
            return "veh/h"
    return SHARE if shares else "veh"


def _column(figures: list[float]) -> Values:
    """A figure for each row."""
    return np.array(figures, dtype=np.float64).reshape(-1, 1)


def _figures(
    record: Record, quantity: str, nodes: list[int], states: slice, words: npt.NDArray[np.int64], shares: bool
) -> Values:
    """The words of a map in its unit."""
    match quantity:
        case "vehicles":
            return words / _column([float(UNITS_PER_VEHICLE * length) for length in _lengths(record, nodes)])
        case "speed":
            return _speed(record, nodes, record.vehicles[states].T[nodes].astype(np.float64), words)
        case "flow":
            return words / float(factor("vph", record.clock.step))
    return _shares(record, nodes, words) if shares else words / float(UNITS_PER_VEHICLE)


def _lengths(record: Record, nodes: list[int]) -> list[Fraction]:
    """The kilometres of links or, where a length is missing, 1 for each."""
    lengths = [record.corridor.nodes[node].length or Fraction(0) for node in nodes]
    return [length / 1000 if to_length(record) else Fraction(1) for length in lengths]


def _speed(record: Record, nodes: list[int], vehicles: Values, flows: npt.NDArray[np.int64]) -> Values:
    """Flow over vehicles, sections a step, as a speed; none where there is less than a vehicle."""
    corridor, step = record.corridor, record.clock.step
    if to_length(record):
        scales = [float(corridor.speed(ONE, node, step) or 0) for node in nodes]
    else:
        scales = [100 * ONE / max(corridor.word(node, layout.FULL_SPEED), 1) for node in nodes]
    sections = np.divide(flows, vehicles, out=np.full(flows.shape, np.nan), where=vehicles >= UNITS_PER_VEHICLE)
    return sections * _column(scales)


def _shares(record: Record, nodes: list[int], queues: npt.NDArray[np.int64]) -> Values:
    """The share of the limit in percent: infinite above a limit of 0, and none where there is no limit."""
    limits = [record.corridor.word(node, layout.QUEUE_LIMIT) for node in nodes]
    divisors = _column([np.nan if limit == NO_LIMIT else limit for limit in limits])
    with np.errstate(divide="ignore", invalid="ignore"):
        found = 100 * queues / divisors
    return np.where((divisors == 0) & (queues == 0), 0.0, found)
