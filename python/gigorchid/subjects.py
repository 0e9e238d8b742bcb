"""What is shown of one plan or of two: their records, the columns of maps, the title and the verdict."""

from __future__ import annotations

from typing import NamedTuple

from . import verdicts
from .compare import NOT_COMPARABLE, SAME, Comparison, Side, compare
from .figures import MARK
from .maps import Map, map_of
from .plans import Plan
from .records import Record
from .verdicts import Verdict
from .windows import Window

DIFFERENCE = "B less A"


class Column(NamedTuple):
    """A column of maps: of a plan, or of what B has more than A."""

    key: str
    """A, B, or B less A."""
    name: str
    """What the plan is called; of plans of two projects, with the project's folder."""
    title: str
    """What stands above the map of one of several columns."""
    side: Side
    window: Window
    less: Side | None = None

    def map(self, quantity: str) -> Map:
        """The column's map of a quantity."""
        return map_of(self.side.record, quantity, self.window, None if self.less is None else self.less.record)


class Subject(NamedTuple):
    """One plan, or two of which the first is A and the second B."""

    road: str
    plans: str
    verdict: Verdict
    columns: list[Column]
    comparison: Comparison | None = None

    @property
    def title(self) -> str:
        """The road, and the plans."""
        return f"{self.road}: {self.plans}"

    @property
    def sides(self) -> dict[str, Side]:
        """The plans by their letters; a plan alone is A."""
        return {column.key: column.side for column in self.columns if column.less is None}

    @property
    def badge(self) -> str:
        """The verdict's word and, of two plans, which of them are not valid."""
        wrong = [key for key, side in self.sides.items() if side.refusal is not None]
        if self.comparison is None or not wrong:
            return self.verdict.word
        return f"{self.verdict.word}, {' and '.join(wrong)} {verdicts.NOT_VALID}"

    @property
    def stopping(self) -> bool:
        """Whether somebody who signs must not pass over it."""
        return self.verdict.word in verdicts.STOPPING or self.badge != self.verdict.word

    def not_valid(self) -> list[str]:
        """Of two plans, which are not valid, and why."""
        if self.comparison is None:
            return []
        wrong = {key: side for key, side in self.sides.items() if side.refusal is not None}
        return [f"{key}, {self.names[key]}, is {verdicts.of_plan(side)}" for key, side in wrong.items()]

    def rewritten(self) -> list[str]:
        """Of two plans that do the same, whether they are written differently."""
        if self.comparison is None or self.comparison.verdict != SAME:
            return []
        nodes = len({run.node for run in self.comparison.only_written})
        return [f"only written differently, at {nodes} {'nodes' if nodes > 1 else 'node'} {MARK}"] if nodes else []

    def cut(self) -> str:
        """Which part of the records the maps show, where it is not all of them."""
        cuts = {column.key: _cut(column) for column in self.columns if column.less is None}
        if len(set(cuts.values())) == 1:
            return cuts["A"]
        return "; ".join(f"of {key} {cut or 'all'}" for key, cut in cuts.items())

    @property
    def names(self) -> dict[str, str]:
        """What the plans are called, by their letters."""
        return {column.key: column.name for column in self.columns if column.less is None}

    @property
    def one_road(self) -> bool:
        """Whether all columns show the same road."""
        return self.comparison is None or self.comparison.verdict != NOT_COMPARABLE


def subject(
    a: Side, b: Side | None = None, start: str | None = None, until: str | None = None, links: str | None = None
) -> Subject:
    """What is shown of a plan, or of two, from one time of day until another and from one link to another."""
    window = Window.of(a.record, start, until, links)
    if b is None:
        name = a.plan.name
        return Subject(a.project.title, f"plan {name}", verdicts.of_plan(a), [Column("A", name, "", a, window)])
    found = compare(a, b)
    names = _names(a, b)
    if found.verdict != NOT_COMPARABLE:
        b = _seen_on(a, b)
    columns = [
        Column("A", names[0], f"A, {names[0]}", a, window),
        Column("B", names[1], f"B, {names[1]}", b, Window.of(b.record, start, until, links)),
    ]
    if found.verdict != NOT_COMPARABLE:
        columns.append(Column(DIFFERENCE, DIFFERENCE, DIFFERENCE, b, window, a))
    titles = list(dict.fromkeys([a.project.title, b.project.title]))
    plans = f"plans {names[0]} (A) and {names[1]} (B)"
    return Subject(" and ".join(titles), plans, verdicts.of_comparison(found), columns, found)


def _cut(column: Column) -> str:
    """Which part of a column's record its maps show, where it is not all of it."""
    window, clock, nodes = column.window, column.side.record.clock, column.side.record.corridor.nodes
    whole, parts = window.whole(column.side.record), []
    if (window.first_link, window.last_link) != (whole.first_link, whole.last_link):
        parts.append(f"the links from {nodes[window.first_link - 1].label} to {nodes[window.last_link].label}")
    if (window.first, window.last) != (whole.first, whole.last):
        last = f"to {clock.at(clock.steps)}" if window.last == clock.steps else f"until {clock.at(window.last + 1)}"
        parts.append(f"from {clock.at(window.first)} {last}")
    return ", ".join(parts)


def _seen_on(a: Side, b: Side) -> Side:
    """B on the road as A has it: the words of one road may have other names, lengths and units of speed in another project."""
    corridor, clock = a.project.corridor, a.project.clock
    plan = Plan(b.plan.name, b.plan.words, corridor, clock, b.plan.source)
    return b._replace(plan=plan, record=Record(b.record.words, corridor, clock))


def _names(a: Side, b: Side) -> list[str]:
    """What two plans are called: as PROJECT:PLAN where they are of two projects."""
    folders = [side.project.folder.resolve() for side in (a, b)]
    if folders[0] == folders[1]:
        return [a.plan.name, b.plan.name]
    return [f"{folder.name}:{side.plan.name}" for folder, side in zip(folders, (a, b))]
