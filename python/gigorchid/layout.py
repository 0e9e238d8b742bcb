"""Where the words of a list stand: views of the lists by node and step, without a copy."""

from __future__ import annotations

from typing import Any

import numpy as np
import numpy.typing as npt

from .sizes import record_words

Words = npt.NDArray[np.uint32]
Places = npt.NDArray[Any]
"""Words of a list; and numbers of rows or lines, one for each place of a list."""

IDENTIFIER, CAPACITY, FULL_SPEED, WAVE_SPEED, JAM, RAMP_CAPACITY, QUEUE_LIMIT = range(7)
START_VEHICLES, START_QUEUE, DROPPED_CAPACITY, DROP_DENSITY = range(7, 11)
"""Places of the words of a node in a corridor."""

ARRIVALS, SPLIT = range(2)
RATE, LIMIT = range(2)
VEHICLES, QUEUE, FLOW, RAMP_FLOW, EXIT_FLOW = range(5)


def corridor_nodes(corridor: Words) -> Words:
    """The words of a corridor by node: 9 of kind 1, 11 of kind 10."""
    return corridor[1:].reshape(int(corridor[0]) + 1, -1)


def demand_steps(demands: Words, links: int, steps: int) -> Words:
    """Arrivals and split by step and node."""
    return demands[1 : 1 + 2 * steps * (links + 1)].reshape(steps, links + 1, 2)


def downstream(demands: Words, links: int, steps: int) -> Words | None:
    """What may leave the last link by step, of demands of kind 5."""
    rest = demands[1 + 2 * steps * (links + 1) :]
    return rest if len(rest) else None


def plan_steps(plan: Words, links: int, steps: int) -> Words:
    """Rate and limit by step and node."""
    return plan.reshape(steps, links + 1, 2)


def record_kind(words: int, links: int, steps: int) -> int:
    """The kind of a record of so many words."""
    return 7 if words == record_words(links, steps, 7) else 3


def record_states(record: Words, links: int, steps: int) -> Words:
    """Vehicles, queue, flow, ramp flow and, of kind 7, exit flow by state and node."""
    return record[:-2].reshape(steps + 1, links + 1, -1)


def cost(record: Words) -> int:
    """The total cost, from its low and its high word."""
    return int(record[-2]) + (int(record[-1]) << 32)
