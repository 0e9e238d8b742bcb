"""arrivals.csv, splits.csv and downstream.csv: what arrives and leaves in each step, as words that know their cell."""

from __future__ import annotations

from collections.abc import Callable, Sequence
from fractions import Fraction
from itertools import accumulate
from math import ceil, lcm

import numpy as np

from . import layout
from .layout import Places, Words
from .corridor import Corridor, Node
from .sheets import Cell, Fault, Sheet, expected, figure, state_of, time_of, written
from .times import Clock
from .sizes import GREATEST_WORD
from .units import FLOW, ONE, SPLIT, factor, fits_word, nearest

FREE = "free"


class Series:
    """A table in time: for some nodes a figure in each step, held from its row to the next."""

    def __init__(self, sheet: Sheet, corridor: Corridor, clock: Clock, endings: tuple[str, ...], free: bool = False):
        self.sheet = sheet
        self.clock = clock
        self.columns = self._columns(corridor, endings)
        self.row_at = self._rows_in_force()
        words = {FREE: Fraction(ONE)} if free else {}
        self._exact = {node: self._words(place, ending, words) for node, (place, ending) in self.columns.items()}

    def _columns(self, corridor: Corridor, endings: tuple[str, ...]) -> dict[int, tuple[int, str]]:
        """Place and ending of the column of each node that has one."""
        identifiers = {str(node.identifier): endings for node in corridor.nodes}
        found = self.sheet.parted(("from",), identifiers)
        self.sheet.needed(found, {"from": ()})
        self._from = found.pop("from")[0]
        places = {str(node.identifier): place for place, node in reversed(list(enumerate(corridor.nodes)))}
        return {places[identifier]: column for identifier, column in found.items()}

    def _rows_in_force(self) -> Places:
        """The row that holds in each step."""
        if not self.sheet.rows:
            raise Fault(self.sheet.whole(), f"no row: expected one from {self.clock.at(0)} on or before")
        cells = [self.sheet.cell(row, self._from) for row in self.sheet.rows]
        for cell, before in zip(cells[1:], cells):
            if time_of(cell) <= time_of(before):
                raise expected(cell, f"a time after {before.text}, that of the row before")
        states = [state_of(cell, self.clock) for cell in cells]
        if states[0] > 0:
            raise expected(cells[0], f"{self.clock.at(0)}, the project's start, or a time before it")
        return np.searchsorted(states, np.arange(max(self.clock.steps, 0)), side="right") - 1

    def _words(self, place: int, ending: str, named: dict[str, Fraction]) -> list[Fraction]:
        """The exact figure of each row of a column, in words and not rounded."""
        scale = factor(ending, self.clock.step)
        exact = []
        for row in self.sheet.rows:
            cell = self.sheet.cell(row, place)
            words = " or ".join(named)
            value = named[cell.text] if cell.text in named else figure(cell, ending, GREATEST_WORD, words) * scale
            if not fits_word(ceil(value)):
                raise Fault(cell, f"{cell.text} is {ceil(value):,} units a step: expected at most {GREATEST_WORD:,}")
            exact.append(value)
        return exact

    def held(self, node: int) -> list[int]:
        """The word of each step, each figure rounded by itself."""
        words = [nearest(value) for value in self._exact[node]]
        return [words[row] for row in self.row_at]

    def cumulative(self, node: int) -> list[int]:
        """The word of each step, rounded so that the sum up to each step is the nearest to what was given."""
        exact = self._exact[node]
        one = lcm(*(value.denominator for value in exact))
        parts = [int(value * one) for value in exact]
        sums = [(2 * total + one) // (2 * one) for total in accumulate((parts[row] for row in self.row_at), initial=0)]
        return [after - before for before, after in zip(sums, sums[1:])]

    def cell(self, step: int, node: int) -> Cell | None:
        """The cell that holds for a node in a step."""
        if node not in self.columns:
            return None
        return self.sheet.cell(self.sheet.rows[self.row_at[step]], self.columns[node][0])

    def exact(self, step: int, node: int) -> Fraction:
        """What was given for a node in a step, in words and not rounded."""
        return self._exact[node][int(self.row_at[step])]

    def unused_rows(self) -> list[Cell]:
        """The rows that hold in no step, at their times."""
        used = set(self.row_at.tolist())
        return [self.sheet.cell(row, self._from) for at, row in enumerate(self.sheet.rows) if at not in used]


class Demands:
    """The words of the demands, and the series that they came from."""

    def __init__(self, words: Words, arrivals: Series, splits: Series | None, downstream: Series | None):
        self.words = words
        self.arrivals = arrivals
        self.splits = splits
        self.downstream = downstream

    @property
    def kind(self) -> int:
        """2, or 5 where a table says what may leave the last link."""
        return 2 if self.downstream is None else 5

    def cell(self, step: int, node: int, place: int) -> Cell | None:
        """Where the arrivals or the split of a node in a step came from."""
        series = self.arrivals if place == layout.ARRIVALS else self.splits
        return None if series is None else series.cell(step, node)

    def downstream_cell(self, step: int) -> Cell | None:
        """Where what may leave the last link in a step came from."""
        return None if self.downstream is None else self.downstream.cell(step, max(self.downstream.columns))

    def completed(self) -> Words:
        """The same demands in kind 5, so that two of either kind can be compared."""
        if self.kind == 5:
            return self.words
        return np.concatenate([self.words, np.full(self.words[0], ONE, dtype=np.uint32)])


def read_demands(
    arrivals: Sheet, splits: Sheet | None, downstream: Sheet | None, corridor: Corridor, clock: Clock
) -> Demands:
    """The demands of the tables; those that may be left out are None."""
    shape = (clock.steps, corridor.links + 1, 2)
    steps = np.zeros(shape, dtype=np.uint32)
    arriving = Series(arrivals, corridor, clock, FLOW)
    for node in arriving.columns:
        steps[:, node, layout.ARRIVALS] = arriving.cumulative(node)
    leaving = None if splits is None else Series(splits, corridor, clock, SPLIT)
    if leaving is not None:
        for node in leaving.columns:
            steps[:, node, layout.SPLIT] = leaving.held(node)
    parts = [np.array([clock.steps], dtype=np.uint32), steps.reshape(-1)]
    beyond = None if downstream is None else _read_downstream(downstream, corridor, clock)
    if beyond is not None:
        parts.append(np.array(beyond.held(corridor.links), dtype=np.uint32))
    return Demands(np.concatenate(parts), arriving, leaving, beyond)


def _read_downstream(sheet: Sheet, corridor: Corridor, clock: Clock) -> Series:
    """The series of the last node alone."""
    series = Series(sheet, corridor, clock, FLOW, free=True)
    others = [place for node, (place, _) in series.columns.items() if node != corridor.links]
    if others or not series.columns:
        cell = sheet.heading(others[0]) if others else Cell(sheet.name, sheet.header_line)
        last = corridor.nodes[-1].identifier
        raise Fault(cell, f"expected one column, that of the last node, {last}_vph or {last}_units")
    return series


def _series_text(columns: list[str], values: Words, clock: Clock, shown: Callable[[int], object] = int) -> str:
    """A table of the steps in which some value is another than in the step before."""
    changed = [step for step in range(len(values)) if step == 0 or (values[step] != values[step - 1]).any()]
    rows = ([clock.at(step)] + [shown(value) for value in values[step]] for step in changed)
    return written(["from"] + columns, rows)


def write_demands(words: Words, nodes: Sequence[Node], clock: Clock) -> dict[str, str]:
    """Tables in exact units of the demands' words, by their place among a project's files."""
    links, steps = len(nodes) - 1, int(words[0])
    rows = layout.demand_steps(words, links, steps)
    columns = [f"{node.identifier}_units" for node in nodes]
    texts = {}
    for stem, place in (("arrivals", layout.ARRIVALS), ("splits", layout.SPLIT)):
        used = [node for node in range(links + 1) if rows[:, node, place].any()]
        if used or stem == "arrivals":
            texts[stem] = _series_text([columns[node] for node in used], rows[:, used, place], clock)
    beyond = layout.downstream(words, links, steps)
    if beyond is not None:
        texts["downstream"] = _series_text(columns[-1:], beyond.reshape(-1, 1), clock)
    return texts
