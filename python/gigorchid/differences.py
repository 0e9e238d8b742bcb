"""What a command and a page both say of two plans: where they first differ, what is only written differently, and what can be said by identifier."""

from __future__ import annotations

from .compare import Comparison, First, Side, Written
from .figures import MARK, travel
from .layout import LIMIT, RATE
from .plans import Plan
from .records import COLUMNS
from .summaries import limit_text, per_hour
from .tell import vehicles
from .units import decimal, told_apart

WRITTEN_COLUMNS = ["node", "from", "until", "A", "B"]
SHARED_COLUMNS = ["node", "in"]
ONLY_WRITTEN = "only written differently, with the same vehicles, queue and flows there:"
WRITTEN_ALIKE = "written alike: the plans agree in every word too"
BY_IDENTIFIER = "of the nodes in both, by identifier, these differ:"


def named(each: Side, given: str) -> str:
    """One of the two plans, and whether it is valid."""
    valid = "valid" if each.refusal is None else f"not valid: {each.refusal}"
    title = f", {each.project.title}" if each.project.title else ""
    return f"{given}{title}; {valid}"


def first_lines(found: Comparison) -> list[str]:
    """Where plans on one road first differ, and by how much."""
    lines = []
    if found.first_setting is not None:
        lines.append(f"first in the normal forms, {_setting(found, found.first_setting)}")
    if found.first_word is not None:
        states, nodes, _ = found.a.record.states.shape
        lines.append(f"first in the records, {_word(found, found.first_word)}")
        lines.append(
            f"{found.places_different:,} of {states * nodes:,} places of the records, a node at a time, differ {MARK}"
        )
        hours = [decimal(travel(each.record).hours, 1) for each in (found.a, found.b)]
        lines.append(f"vehicle hours {MARK}: {hours[0]} in A, {hours[1]} in B")
    return lines


def written_rows(found: Comparison) -> list[list[str]]:
    """The runs of steps in which plans set a node differently, and it does the same."""
    return [_written_row(found, run) for run in found.only_written]


def only_in_one(found: Comparison) -> list[str]:
    """The nodes that one of two corridors has alone."""
    lines = [f"only in A: {_between(found.a, place)}" for place in found.only_in_a]
    return lines + [f"only in B: {_between(found.b, place)}" for place in found.only_in_b]


def shared_rows(found: Comparison) -> list[list[str]]:
    """What differs at the nodes that two corridors share."""
    rows = []
    for each in found.shared:
        firsts = {name: first for name, first in each.firsts.items() if first is not None}
        parts = [name.replace("_", " ") for name in each.columns]
        parts += [f"{name.replace('_', ' ')} from {found.a.project.clock.at(at)} on" for name, at in firsts.items()]
        if parts:
            rows.append([found.a.project.corridor.nodes[each.a].label, ", ".join(parts)])
    return rows


def in_time(found: Comparison) -> bool:
    """Whether two plans on different roads have the same steps, so that something can be said in time."""
    return any(each.firsts for each in found.shared)


def shared_line(found: Comparison) -> str:
    """How many of the nodes that two corridors share are the same."""
    same = len(found.shared) - len(shared_rows(found))
    said = "arrivals, split, rate, limit, queue and flows" if in_time(found) else "the corridor"
    return f"{same} of {len(found.shared)} nodes in both are the same in {said} {MARK}"


NOT_IN_TIME = "the steps are not the same, so nothing can be said in time"


def _label(found: Comparison, node: int) -> str:
    return found.a.project.corridor.nodes[node].label


def _setting(found: Comparison, first: First) -> str:
    plan, time = found.a.plan, found.a.project.clock.at(first.state)
    if first.place == RATE:
        return f"at {time} at {_label(found, first.node)}: rate {per_hour(first.a, plan)} veh/h in A and {per_hour(first.b, plan)} in B"
    limits = [limit_text(word, first.node, plan) for word in (first.a, first.b)]
    return f"at {time} on the link to {_label(found, first.node)}: limit {limits[0]} in A and {limits[1]} in B"


def _word(found: Comparison, first: First) -> str:
    what = COLUMNS[first.place].removesuffix("_units").replace("_", " ")
    one, other = told_apart(vehicles(first.a), vehicles(first.b))
    time = found.a.project.clock.at(first.state)
    return f"at {time} at {_label(found, first.node)}: {what} {one} vehicles in A and {other} in B ({first.a:,} and {first.b:,} units)"


def _setting_text(place: int, word: int, node: int, plan: Plan) -> str:
    return f"{per_hour(word, plan)} veh/h" if place == RATE else limit_text(word, node, plan)


def _written_row(found: Comparison, run: Written) -> list[str]:
    """A run of steps, with what differs of rate and limit."""
    clock, plan = found.a.project.clock, found.a.plan
    places = [place for place in (RATE, LIMIT) if run.a[place] != run.b[place]]
    both = [
        ", ".join(_setting_text(place, words[place], run.node, plan) for place in places) for words in (run.a, run.b)
    ]
    return [_label(found, run.node), clock.at(run.start), clock.at(run.end), *both]


def _between(each: Side, place: int) -> str:
    nodes = each.project.corridor.nodes
    ends = [nodes[at].label for at in (place - 1, place + 1) if 0 <= at < len(nodes)]
    where = f"between {ends[0]} and {ends[1]}" if len(ends) == 2 else f"next to {ends[0]}"
    return f"{nodes[place].label}, {where}"
