"""A plan as the commands that make one show it."""

from __future__ import annotations

from rich.table import Table

from ..corridor import Corridor
from ..figures import MARK
from ..layout import RAMP_CAPACITY
from ..plans import Plan
from ..settings import NodeSettings, by_node
from ..summaries import limit_text, per_hour
from .base import table


def _rates(found: NodeSettings, corridor: Corridor, plan: Plan) -> str:
    if not corridor.word(found.node, RAMP_CAPACITY):
        return ""
    ends = [per_hour(rate, plan) for rate in (found.least_rate, found.greatest_rate)]
    return ends[0] if ends[0] == ends[1] else f"{ends[0]} to {ends[1]}"


def settings_table(plan: Plan) -> Table:
    """Rates and limits, node by node."""
    rows = []
    for found in by_node(plan):
        held = f"{found.held_steps:,}" if found.held_steps else ""
        lowest = limit_text(found.least_limit, found.node, plan) if found.held_steps else ""
        label = plan.corridor.nodes[found.node].label
        rows.append([label, _rates(found, plan.corridor, plan), f"{found.changes:,}", held, lowest])
    return table(["node", f"rate, veh/h {MARK}", f"changes {MARK}", f"limited {MARK}", f"lowest limit {MARK}"], rows)


def settings_data(plan: Plan) -> list[dict[str, object]]:
    """The same for --json, in units."""
    return [
        {
            "id": plan.corridor.nodes[found.node].identifier,
            "name": plan.corridor.nodes[found.node].name,
            "changes": found.changes,
            "least_rate_units": found.least_rate,
            "greatest_rate_units": found.greatest_rate,
            "held_steps": found.held_steps,
            "least_limit_units": found.least_limit,
        }
        for found in by_node(plan)
    ]
