"""Figures that this package works out itself from the words of a record. The record is proved; none of these is."""

from __future__ import annotations

from fractions import Fraction
from typing import NamedTuple

import numpy as np

from . import layout
from .records import Record
from .units import ONE, UNITS_PER_VEHICLE

MARK = "*"
NOT_PROVED = f"{MARK} computed by this tool, not proved"


class Travel(NamedTuple):
    """What a record comes to on the road; kilometres and speed are None where a length is missing."""

    hours_on_links: Fraction
    hours_in_queues: Fraction
    kilometres: Fraction | None
    mean_speed: Fraction | None
    """In kilometres per hour: the kilometres over the vehicle hours of the steps that they were driven in."""

    @property
    def hours(self) -> Fraction:
        """Vehicle hours on links and in queues."""
        return self.hours_on_links + self.hours_in_queues


def travel(record: Record) -> Travel:
    """Vehicle hours over states 1 to K, and vehicle kilometres of what left each link."""
    hours = Fraction(record.clock.step, 3600 * UNITS_PER_VEHICLE)
    on_links, in_queues = (_sum(values[1:]) * hours for values in (record.vehicles, record.queues))
    lengths = [node.length for node in record.corridor.nodes[1:]]
    if None in lengths:
        return Travel(on_links, in_queues, None, None)
    left = record.flows[:, 1:].sum(axis=0, dtype=np.uint64).tolist()
    metres = sum((length * flow for length, flow in zip(lengths, left)), Fraction(0))
    kilometres, driven = metres / (1000 * UNITS_PER_VEHICLE), _sum(record.vehicles[:-1]) * hours
    return Travel(on_links, in_queues, kilometres, kilometres / driven if driven else None)


def waiting_hours(record: Record, node: int) -> Fraction:
    """Vehicle hours in the queue of one ramp."""
    return Fraction(_sum(record.queues[1:, node])) * record.clock.step / (3600 * UNITS_PER_VEHICLE)


def _sum(values: layout.Words) -> int:
    return int(values.sum(dtype=np.uint64))


class GreatestQueue(NamedTuple):
    """The longest queue of a ramp, its limit, and the state in which it first stands so long."""

    node: int
    queue: int
    limit: int
    state: int


def greatest_queues(record: Record) -> list[GreatestQueue]:
    """The longest queue of each on-ramp, a word of the record."""
    found = []
    for node in range(record.corridor.links):
        if record.corridor.word(node, layout.RAMP_CAPACITY) or record.queues[:, node].any():
            state = int(record.queues[:, node].argmax())
            limit = record.corridor.word(node, layout.QUEUE_LIMIT)
            found.append(GreatestQueue(node, int(record.queues[state, node]), limit, state))
    return found


class Slowest(NamedTuple):
    """Where and when traffic was slowest: the node at which the link ends, the state, and the speed in the unit of speeds."""

    node: int
    state: int
    speed: Fraction


def slowest(record: Record) -> Slowest | None:
    """The lowest mean speed, f / n of a link in a step, of the links with a length and at least a vehicle on them."""
    found: list[Slowest] = []
    corridor, step = record.corridor, record.clock.step
    for node in range(1, corridor.links + 1):
        vehicles, flows = record.vehicles[:-1, node].astype(float), record.flows[:-1, node]
        if corridor.nodes[node].length is None or not (vehicles >= UNITS_PER_VEHICLE).any():
            continue
        shares = np.where(vehicles >= UNITS_PER_VEHICLE, flows / np.maximum(vehicles, 1), np.inf)
        state = int(shares.argmin())
        share = Fraction(int(flows[state]), int(vehicles[state]))
        section = corridor.speed(ONE, node, step) or Fraction(0)
        found.append(Slowest(node, state, share * section))
    return min(found, key=lambda each: each.speed) if found else None
