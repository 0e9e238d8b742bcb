"""A plan: metering rates and speed limits as words, from a table or a block file, each with the cell it came from."""

from __future__ import annotations

from collections.abc import Iterable, Mapping
from pathlib import Path
from typing import TYPE_CHECKING

import numpy as np

from . import calls, layout
from .layout import Places, Words
from .corridor import Corridor
from .progress import watched
from .sheets import Cell, Fault, Row, Sheet, expected, figure, identifier, save, state_of, time_of, written
from .times import Clock, format_time
from .sizes import GREATEST_WORD
from .units import FLOW, PER_LINK, SPEED, factor, fits_word, nearest, shown

if TYPE_CHECKING:
    import pandas

QUANTITIES = {"rate": FLOW, "limit": SPEED}
NOT_SAID = -1


class Plan:
    """Rates and limits by step and node, and where each came from."""

    def __init__(self, name: str, words: Words, corridor: Corridor, clock: Clock, source: PlanSource):
        self.name = name
        self.words = words
        self.corridor = corridor
        self.clock = clock
        self.source = source

    @property
    def settings(self) -> Words:
        """Rate and limit by step and node, a view of the words."""
        return layout.plan_steps(self.words, self.corridor.links, self.clock.steps)

    @property
    def rates(self) -> Words:
        """Metering rates by step and node, in units."""
        return self.settings[:, :, layout.RATE]

    @property
    def limits(self) -> Words:
        """Speed limits by step and node, in units."""
        return self.settings[:, :, layout.LIMIT]

    def cell(self, step: int, node: int, place: int) -> Cell | None:
        """Where the rate or the limit of a node in a step came from; None where nothing says it."""
        return self.source.cell(step, node, place)

    def save(self, path: str | Path, comments: Iterable[str] = ()) -> None:
        """Writes the plan as a table or, where the name ends in .blocks, as a block file."""
        if Path(path).suffix == ".blocks":
            save(Path(path), calls.write_plan(self.corridor.links, self.clock.steps, self.words).tobytes())
        else:
            save(Path(path), write_plan(self, comments).encode())

    def outside(self) -> list[str]:
        """A warning for each row that says nothing of any step."""
        first, last = self.clock.at(0), self.clock.at(self.clock.steps)
        cells = self.source.unused_rows()
        return [f"{cell.place}: this row says nothing of the steps from {first} to {last}" for cell in cells]

    def __repr__(self) -> str:
        return f"<Plan {self.name}: {self.corridor.links} links, {self.clock.steps} steps>"

    def frame(self) -> pandas.DataFrame:
        """The plan as a table of pandas: a row for each step and node, in exact units, with time and name."""
        return node_frame("step", {"rate_units": self.rates, "limit_units": self.limits}, self.corridor, self.clock)


class PlanSource:
    """Where the words of a plan came from: nowhere, unless a subclass knows."""

    def cell(self, step: int, node: int, place: int) -> Cell | None:
        """The cell of a rate or a limit."""
        return None

    def unused_rows(self) -> list[Cell]:
        """The rows that say nothing of any step."""
        return []


class SheetSource(PlanSource):
    """The rows of a table, by step and node."""

    def __init__(self, sheet: Sheet, columns: dict[int, int], rows: Places):
        self.sheet = sheet
        self._columns = columns
        self._rows = rows

    def cell(self, step: int, node: int, place: int) -> Cell | None:
        row = self._rows[step, node, place]
        return None if row == NOT_SAID else self.sheet.cell(self.sheet.rows[row], self._columns[place])

    def said(self, settings: Words) -> Iterable[tuple[Cell, int, int]]:
        """Each cell that sets something, once, with its node and its word."""
        for place, column in self._columns.items():
            rows, firsts = np.unique(self._rows[:, :, place], return_index=True)
            for row, first in zip(rows.tolist(), firsts.tolist()):
                if row != NOT_SAID:
                    step, node = divmod(first, self._rows.shape[1])
                    yield self.sheet.cell(self.sheet.rows[row], column), node, int(settings[step, node, place])

    def unused_rows(self) -> list[Cell]:
        """The rows that say nothing of any step."""
        used = set(np.unique(self._rows).tolist())
        return [Cell(self.sheet.name, row.line) for at, row in enumerate(self.sheet.rows) if at not in used]


class BlockSource(PlanSource):
    """The words of a block file."""

    def __init__(self, file: str, nodes: int):
        self._file = file
        self._nodes = nodes

    def cell(self, step: int, node: int, place: int) -> Cell | None:
        return block_cell(self._file, (step * self._nodes + node) * 2 + place)


def node_frame(row: str, words: Mapping[str, Words], corridor: Corridor, clock: Clock) -> pandas.DataFrame:
    """A table of pandas of words by row (a step or a state) and node."""
    import pandas

    rows, nodes = next(iter(words.values())).shape
    columns: dict[str, object] = {
        row: np.repeat(np.arange(rows), nodes),
        "time": np.repeat([clock.at(each) for each in range(rows)], nodes),
        "id": np.tile([node.identifier for node in corridor.nodes], rows),
        "name": np.tile([node.name for node in corridor.nodes], rows),
    }
    # Signed, so that a difference of two does not wrap.
    return pandas.DataFrame(columns | {name: values.reshape(-1).astype(np.int64) for name, values in words.items()})


def block_cell(file: str, word: int) -> Cell:
    """A word of a list, by its place in the list's block file."""
    return Cell(file, 0, f"block {word // 125}, word {2 + word % 125}")


def full_settings(corridor: Corridor, steps: int) -> Words:
    """Full speed at the ramp's capacity, for every step and node."""
    row = layout.corridor_nodes(corridor.words)[:, [layout.RAMP_CAPACITY, layout.FULL_SPEED]]
    return np.repeat(row[np.newaxis], steps, axis=0)


def read_plan(sheet: Sheet, name: str, corridor: Corridor, clock: Clock) -> Plan:
    """The plan of a table; what it does not say is full speed at the ramp's capacity."""
    found = sheet.parted(("id", "from", "until"), QUANTITIES)
    sheet.needed(found, {"id": (), "from": (), "until": ()})
    settings = full_settings(corridor, clock.steps)
    rows = np.full(settings.shape, NOT_SAID, dtype=np.int32)
    said = {layout.RATE: "rate", layout.LIMIT: "limit"}
    columns = {place: found[stem][0] for place, stem in said.items() if stem in found}
    for at, row in enumerate(watched(sheet.rows, f"reading {sheet.name}")):
        node = _node_of(sheet.cell(row, found["id"][0]), corridor)
        first, last = _steps_of(sheet, row, found, clock)
        for place, column in columns.items():
            cell = sheet.cell(row, column)
            if cell.text:
                word = _word(cell, found[said[place]][1], corridor, node, clock)
                _test_free(sheet, rows[first:last, node, place], first, cell, clock)
                settings[first:last, node, place] = word
                rows[first:last, node, place] = at
    return Plan(name, settings.reshape(-1), corridor, clock, SheetSource(sheet, columns, rows))


def _node_of(cell: Cell, corridor: Corridor) -> int:
    node = corridor.node_of(identifier(cell))
    if node is None:
        known = ", ".join(str(node.identifier) for node in corridor.nodes)
        raise expected(cell, f"an identifier of the corridor: {known}")
    return node


def _steps_of(sheet: Sheet, row: Row, found: dict[str, tuple[int, str]], clock: Clock) -> tuple[int, int]:
    """The steps of a row, within those of the project: the first, and the one after the last."""
    since, until = (sheet.cell(row, found[name][0]) for name in ("from", "until"))
    first = state_of(since, clock) if since.text else 0
    last = state_of(until, clock) if until.text else clock.steps
    if since.text and until.text and time_of(until) <= time_of(since):
        later = format_time(time_of(until) + 24 * 3600)
        raise expected(until, f"a time after {since.text}; of the next day it is written {later}")
    return max(first, 0), max(min(last, clock.steps), 0)


def _word(cell: Cell, ending: str, corridor: Corridor, node: int, clock: Clock) -> int:
    length = corridor.nodes[node].length
    if ending in PER_LINK and length is None:
        if node == 0:
            raise Fault(cell, f"{cell.text}: expected blank, since no link ends at the entry")
        raise Fault(
            cell,
            f"{cell.text}: expected {cell.column.rpartition('_')[0]}_units, since the corridor gives no length_m there",
        )
    word = nearest(figure(cell, ending, GREATEST_WORD) * factor(ending, clock.step, length))
    if not fits_word(word):
        raise Fault(cell, f"{cell.text} is {word:,} units: expected at most {GREATEST_WORD:,}")
    return word


def _test_free(sheet: Sheet, rows: Places, first: int, cell: Cell, clock: Clock) -> None:
    """Faults a cell that says again what a row before it says."""
    taken = np.flatnonzero(rows != NOT_SAID)
    if len(taken):
        line = sheet.rows[rows[taken[0]]].line
        raise Fault(
            cell,
            f"{cell.text}: line {line} says it from {clock.at(first + int(taken[0]))} on: expected one row for each time",
        )


def runs(settings: Places) -> Iterable[tuple[int, int]]:
    """The first step, and the one after the last, of each run of steps in which nothing changes."""
    changes = np.flatnonzero((settings[1:] != settings[:-1]).any(axis=1)) + 1
    edges = [0, *changes.tolist(), len(settings)]
    return zip(edges, edges[1:])


def write_plan(plan: Plan, comments: Iterable[str] = ()) -> str:
    """A table in exact units: a row for each run of steps in which a node's setting stays the same."""
    people = ["(name)", "(rate_vph)", f"(limit_{plan.corridor.speeds})", "(setting)"]
    columns = ["id", "from", "until", "rate_units", "limit_units", *people]
    table = []
    for number, node in enumerate(plan.corridor.nodes):
        capacity, full = (plan.corridor.word(number, place) for place in (layout.RAMP_CAPACITY, layout.FULL_SPEED))
        for start, end in runs(plan.settings[:, number]):
            rate, limit = plan.settings[start, number].tolist()
            said = ["" if word == most == 0 else word for word, most in ((rate, capacity), (limit, full))]
            setting = "full" if limit == full else "held"
            times = [plan.clock.at(start), plan.clock.at(end)]
            read = _for_people(rate, limit, number, plan)
            table.append([node.identifier, *times, *said, node.name, *read, setting])
    return written(columns, table, comments)


def _for_people(rate: int, limit: int, node: int, plan: Plan) -> list[str]:
    """Rate in vehicles per hour and limit in the unit of speeds, blank where the node has no ramp or no link."""
    length, step = plan.corridor.nodes[node].length, plan.clock.step
    vph = shown(rate, factor("vph", step)) if plan.corridor.word(node, layout.RAMP_CAPACITY) else ""
    speed = shown(limit, factor(plan.corridor.speeds, step, length)) if node and length else ""
    return [vph, speed]
