"""Whether two plans do the same on the road: by normal form where both are valid, else by record; and by identifier where the roads differ."""

from __future__ import annotations

from dataclasses import dataclass, field
from typing import NamedTuple

import numpy as np

from . import layout
from .layout import Places, Words
from .corridor import QUANTITIES, Corridor
from .plans import Plan, runs
from .project import Project
from .records import Record
from .tell import Told
from .units import nearest

SAME, DIFFERENT, NOT_COMPARABLE = "SAME", "DIFFERENT", "NOT COMPARABLE"


class Side(NamedTuple):
    """One of the two plans, in its own project, with its record; its normal form, or the refusal by 12 where it is not valid."""

    project: Project
    plan: Plan
    record: Record
    normal: Plan | None
    refusal: Told | None


class First(NamedTuple):
    """The first place, by state and then node, where two lists differ: which word, and both of them."""

    state: int
    node: int
    place: int
    a: int
    b: int


class Written(NamedTuple):
    """A run of steps in which the plans set a node differently: from, until, and rate and limit of both."""

    node: int
    start: int
    end: int
    a: tuple[int, int]
    b: tuple[int, int]


class ByIdentifier(NamedTuple):
    """What can be said of a node that two corridors share: differing columns, and the first state in which each series differs."""

    identifier: int
    a: int
    b: int
    columns: list[str]
    firsts: dict[str, int | None]


@dataclass
class Comparison:
    """What a comparison came to."""

    verdict: str
    by: str
    a: Side
    b: Side
    reasons: list[str] = field(default_factory=list)
    first_setting: First | None = None
    first_word: First | None = None
    places_different: int = 0
    only_written: list[Written] = field(default_factory=list)
    only_in_a: list[int] = field(default_factory=list)
    only_in_b: list[int] = field(default_factory=list)
    shared: list[ByIdentifier] = field(default_factory=list)


def side(project: Project, plan: Plan) -> Side:
    """Simulates and normalises one plan; a plan that is not valid has a record and no normal form."""
    try:
        record, normal = project.normal(plan)
    except Told as told:
        if told.work is None:
            raise
        return Side(project, plan, Record(told.work, project.corridor, project.clock), None, told)
    return Side(project, plan, record, normal, None)


def compare(a: Side, b: Side) -> Comparison:
    """Compares two plans by what they do on the road."""
    reasons = _different_roads(a.project, b.project)
    if reasons:
        return _by_identifier(a, b, reasons)
    first_word = _first(a.record.states, b.record.states)
    same = first_word is None
    if a.normal is not None and b.normal is not None:
        first_setting, by = _first(a.normal.settings, b.normal.settings), "normal form"
        if (first_setting is None) != same:
            raise AssertionError(
                "normal forms and records disagree, which is proved impossible: this tool or its library is damaged"
            )
    else:
        first_setting, by = None, "record"
    alike = (a.record.states == b.record.states).all(axis=2)
    return Comparison(
        SAME if same else DIFFERENT,
        by,
        a,
        b,
        first_setting=first_setting,
        first_word=first_word,
        places_different=int((~alike).sum()),
        only_written=_only_written(a.plan, b.plan, alike),
    )


def _different_roads(a: Project, b: Project) -> list[str]:
    """Why two projects are not one road: clocks, corridors, demands."""
    reasons = []
    if a.clock.step != b.clock.step:
        reasons.append(f"steps of {float(a.clock.step):g} s in A and {float(b.clock.step):g} s in B")
    if a.clock.start != b.clock.start:
        reasons.append(f"A starts at {a.clock.at(0)} and B at {b.clock.at(0)}")
    if a.steps != b.steps:
        reasons.append(f"{a.steps:,} steps in A and {b.steps:,} in B")
    if not np.array_equal(a.corridor.completed(), b.corridor.completed()):
        reasons.append("the corridors differ")
    elif a.steps == b.steps and not np.array_equal(a.demands.completed(), b.demands.completed()):
        reasons.append("what arrives or leaves differs")
    return reasons


def _first(a: Words, b: Words) -> First | None:
    different = np.argwhere(a != b)
    if not len(different):
        return None
    state, node, place = different[0].tolist()
    return First(state, node, place, int(a[state, node, place]), int(b[state, node, place]))


def _only_written(a: Plan, b: Plan, alike: Places) -> list[Written]:
    """The runs of steps in which two plans set a node differently, and its vehicles, queue and flows are the same."""
    found = []
    for node in range(a.corridor.links + 1):
        both = np.hstack([a.settings[:, node], b.settings[:, node]])
        flag = alike[:-1, node] & (both[:, :2] != both[:, 2:]).any(axis=1)
        for start, end in runs(np.column_stack([both, flag])):
            if flag[start]:
                row = both[start].tolist()
                found.append(Written(node, start, end, (row[0], row[1]), (row[2], row[3])))
    return sorted(found, key=lambda run: (run.start, run.node))


def _by_identifier(a: Side, b: Side, reasons: list[str]) -> Comparison:
    """What can be said of two plans on different roads: which nodes are in one alone, and what the shared ones do."""
    places = {node.identifier: place for place, node in enumerate(b.project.corridor.nodes)}
    shared, only_in_a = [], []
    for place, node in enumerate(a.project.corridor.nodes):
        if node.identifier in places:
            shared.append(_shared(a, b, place, places.pop(node.identifier), not _clocks_differ(a, b)))
        else:
            only_in_a.append(place)
    return Comparison(
        NOT_COMPARABLE,
        "identifier",
        a,
        b,
        reasons,
        only_in_a=only_in_a,
        only_in_b=sorted(places.values()),
        shared=shared,
    )


def _clocks_differ(a: Side, b: Side) -> bool:
    return a.project.clock != b.project.clock


def _shared(a: Side, b: Side, at: int, to: int, in_time: bool) -> ByIdentifier:
    one, other = a.project.corridor, b.project.corridor
    columns = ["length"] if one.nodes[at].length != other.nodes[to].length else []
    columns += [stem for stem, (_, place) in QUANTITIES.items() if _figures_differ(one, at, other, to, place)]
    firsts: dict[str, int | None] = {}
    if in_time:
        for name, (left, right) in _series(a, b, at, to).items():
            different = np.flatnonzero(left != right)
            firsts[name] = int(different[0]) if len(different) else None
    return ByIdentifier(one.nodes[at].identifier, at, to, columns, firsts)


def _figures_differ(one: Corridor, at: int, other: Corridor, to: int, place: int) -> bool:
    """Whether a quantity differs as it was written, since a word may differ for the link's length alone; else by its words."""
    cells = one.cell(at, place), other.cell(to, place)
    if cells[0] is not None and cells[1] is not None and cells[0].column == cells[1].column:
        return cells[0].text != cells[1].text
    return one.word(at, place) != other.word(to, place)


def _posted(each: Side, node: int) -> Places:
    """The limits at a node in tenths of the unit of speeds, or, where a length is missing, in units."""
    limits = each.plan.limits[:, node]
    corridor, step = each.project.corridor, each.project.clock.step
    speeds = {word: corridor.speed(word, node, step) for word in np.unique(limits).tolist()}
    shown = {word: word if speed is None else nearest(speed * 10) for word, speed in speeds.items()}
    return np.array([shown[word] for word in limits.tolist()])


def _series(a: Side, b: Side, at: int, to: int) -> dict[str, tuple[Places, Places]]:
    """What a node that both have does in time, as words that mean the same wherever it stands."""
    steps = [layout.demand_steps(each.project.demands.words, each.project.links, each.project.steps) for each in (a, b)]
    return {
        "arrivals": (steps[0][:, at, layout.ARRIVALS], steps[1][:, to, layout.ARRIVALS]),
        "split": (steps[0][:, at, layout.SPLIT], steps[1][:, to, layout.SPLIT]),
        "rate": (a.plan.rates[:, at], b.plan.rates[:, to]),
        "limit": (_posted(a, at), _posted(b, to)),
        "queue": (a.record.queues[:, at], b.record.queues[:, to]),
        "ramp_flow": (a.record.ramp_flows[:, at], b.record.ramp_flows[:, to]),
        "flow": (a.record.flows[:, at], b.record.flows[:, to]),
    }
