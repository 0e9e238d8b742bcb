"""A plan for people: what is posted on each link and ramp, node by node."""

from __future__ import annotations

from typing import NamedTuple

import numpy as np

from . import layout
from .plans import Plan, runs


class NodeSettings(NamedTuple):
    """What a plan sets at one node over all steps, in units."""

    node: int
    changes: int
    least_rate: int
    greatest_rate: int
    held_steps: int
    least_limit: int


def by_node(plan: Plan) -> list[NodeSettings]:
    """The settings of each node: how often they change, the rates, and in how many steps a limit below full speed is posted."""
    found = []
    for node in range(plan.corridor.links + 1):
        rates, limits = plan.rates[:, node], plan.limits[:, node]
        held = np.count_nonzero(limits != plan.corridor.word(node, layout.FULL_SPEED))
        changes = len(list(runs(plan.settings[:, node]))) - 1
        found.append(NodeSettings(node, changes, int(rates.min()), int(rates.max()), int(held), int(limits.min())))
    return found
