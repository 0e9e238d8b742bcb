"""What the library itself makes of one node in one step of a record, asked on a corridor of one or two links.

So a message can say what would have been accepted, and no rule of the model is repeated here.
"""

from __future__ import annotations

from typing import TYPE_CHECKING

import numpy as np

from . import calls, layout
from .corridor import NO_LIMIT
from .layout import Words
from .units import ONE

if TYPE_CHECKING:
    from .project import Project
    from .records import Record

Row = list[int]

ENTRY: Row = [1, 0, 0, 0, 0, ONE, NO_LIMIT, 0, 0, 0, 0]


def _open_link(identifier: int, vehicles: int) -> Row:
    """A link that sends all it has and takes in all that fits."""
    return [identifier, ONE, ONE, ONE, ONE, 0, 0, vehicles, 0, ONE, ONE]


def _with_ramp(row: Row, queue: int) -> Row:
    """The same node with an on-ramp that can pass all that waits there."""
    row = list(row)
    row[layout.RAMP_CAPACITY], row[layout.QUEUE_LIMIT], row[layout.START_QUEUE] = ONE, NO_LIMIT, queue
    return row


def _link_of(project: Project, record: Record, state: int, node: int) -> Row:
    """The link that ends at a node, as the corridor has it, with the vehicles of a state and without its ramp."""
    row = [project.corridor.word(node, place) for place in range(layout.DROP_DENSITY + 1)]
    row[layout.IDENTIFIER], row[layout.START_VEHICLES] = 3, int(record.vehicles[state, node])
    row[layout.RAMP_CAPACITY] = row[layout.QUEUE_LIMIT] = row[layout.START_QUEUE] = 0
    return row


def _one_step(nodes: list[Row], rates: Row, arrivals: Row, splits: Row, leaves: int = ONE) -> Words:
    """Vehicles, queue, flow, ramp flow and exit of each node in states 0 and 1, at full speed with these rates."""
    links = len(nodes) - 1
    corridor = np.array([links, *sum(nodes, [])], dtype=np.uint32)
    demands = np.array([1, *sum(zip(arrivals, splits), ()), leaves], dtype=np.uint32)
    limits = [node[layout.FULL_SPEED] for node in nodes]
    plan = np.array(sum(zip(rates, limits), ()), dtype=np.uint32)
    return layout.record_states(calls.simulate_words(corridor, demands, plan, kind=7), links, 1)


def sends(project: Project, record: Record, step: int, node: int) -> int:
    """The most that can leave the link that ends at a node, at full speed."""
    states = _one_step([ENTRY, _link_of(project, record, step, node)], [0, 0], [0, 0], [0, 0])
    return int(states[0, 1, layout.FLOW])


def takes_in(project: Project, record: Record, step: int, node: int) -> int:
    """The most that the link after a node can take in: what comes of a ramp where more than enough waits."""
    nodes = [ENTRY, _with_ramp(_open_link(2, 0), ONE), _link_of(project, record, step, node + 1)]
    states = _one_step(nodes, [0, ONE, 0], [0, 0, 0], [0, 0, 0])
    return int(states[0, 1, layout.RAMP_FLOW])


def exits(project: Project, record: Record, step: int, node: int) -> int:
    """What leaves by the off-ramp of a node, of the flow that the record has there."""
    flow, split = int(record.flows[step, node]), _demand(project, step, node, layout.SPLIT)
    states = _one_step([ENTRY, _open_link(2, flow), _open_link(3, 0)], [0, 0, 0], [0, 0, 0], [0, split, 0])
    return int(states[0, 1, layout.EXIT_FLOW])


def next_queue(project: Project, record: Record, step: int, node: int) -> int:
    """The queue of a ramp after a step, of the record's queue and ramp flow before it."""
    queue, flow = int(record.queues[step, node]), int(record.ramp_flows[step, node])
    arrivals = _demand(project, step, node, layout.ARRIVALS)
    states = _one_step([_with_ramp(ENTRY, queue), _open_link(2, 0)], [flow, 0], [arrivals, 0], [0, 0])
    return int(states[1, 0, layout.QUEUE])


def next_vehicles(project: Project, record: Record, step: int, node: int) -> int:
    """The vehicles on the link that ends at a node after a step, of the record's vehicles and flows before it."""
    flow, ramp = int(record.flows[step, node - 1]), int(record.ramp_flows[step, node - 1])
    before = _with_ramp(_open_link(2, flow), ramp)
    own = _open_link(3, int(record.vehicles[step, node]))
    splits = [0, _demand(project, step, node - 1, layout.SPLIT), 0]
    states = _one_step([ENTRY, before, own], [0, ramp, 0], [0, 0, 0], splits, int(record.flows[step, node]))
    return int(states[1, 2, layout.VEHICLES])


def _demand(project: Project, step: int, node: int, place: int) -> int:
    return int(layout.demand_steps(project.demands.words, project.links, project.steps)[step, node, place])
