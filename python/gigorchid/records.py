"""A record: vehicles, queues and flows of every state as exact words, from the library, a table or a block file."""

from __future__ import annotations

from collections.abc import Callable
from pathlib import Path
from typing import TYPE_CHECKING

import numpy as np

from . import calls, layout
from .layout import Words
from .corridor import Corridor
from .plans import block_cell, node_frame
from .progress import watched
from .sheets import Cell, Fault, Row, Sheet, expected, save, whole_number, written
from .times import Clock
from .sizes import GREATEST_WORD

if TYPE_CHECKING:
    import pandas

COLUMNS = ("vehicles_units", "queue_units", "flow_units", "ramp_flow_units", "exit_flow_units")
"""The words of a node in a record, in their order; the last one of kind 7 alone."""

NARROW = 4
GREATEST_COST = 2**64 - 1

CellOf = Callable[[int, int, int], Cell | None]


class Record:
    """The words of a record, and where each came from."""

    def __init__(
        self, words: Words, corridor: Corridor, clock: Clock, cell: CellOf | None = None, cost_cell: Cell | None = None
    ):
        self.words = words
        self.corridor = corridor
        self.clock = clock
        self.cost_cell = cost_cell
        self._cell = cell

    @property
    def kind(self) -> int:
        """3, or 7 where it lists what leaves by the off-ramps."""
        return layout.record_kind(len(self.words), self.corridor.links, self.clock.steps)

    @property
    def states(self) -> Words:
        """Words by state and node, a view."""
        return layout.record_states(self.words, self.corridor.links, self.clock.steps)

    @property
    def vehicles(self) -> Words:
        """Vehicles on the links by state and node, in units."""
        return self.states[:, :, layout.VEHICLES]

    @property
    def queues(self) -> Words:
        """Queues of the on-ramps by state and node, in units."""
        return self.states[:, :, layout.QUEUE]

    @property
    def flows(self) -> Words:
        """What left the links in the step that each state begins, in units."""
        return self.states[:, :, layout.FLOW]

    @property
    def ramp_flows(self) -> Words:
        """What left the on-ramps in the step that each state begins, in units."""
        return self.states[:, :, layout.RAMP_FLOW]

    @property
    def cost(self) -> int:
        """The total cost as the record has it, in units times steps."""
        return layout.cost(self.words)

    def cell(self, state: int, node: int, place: int) -> Cell | None:
        """Where a word of a node in a state came from."""
        return None if self._cell is None else self._cell(state, node, place)

    def __repr__(self) -> str:
        return f"<Record of kind {self.kind}: {self.corridor.links} links, {self.clock.steps} steps, cost {self.cost}>"

    def save(self, path: str | Path) -> None:
        """Writes the record as a table or, where the name ends in .blocks, as a block file."""
        if Path(path).suffix == ".blocks":
            save(Path(path), calls.write_record(self.corridor.links, self.clock.steps, self.words).tobytes())
        else:
            save(Path(path), write_record(self).encode())

    def frame(self) -> pandas.DataFrame:
        """The record as a table of pandas: a row for each state and node, in exact units, with time and name."""
        words = {COLUMNS[place]: self.states[:, :, place] for place in range(self.states.shape[2])}
        return node_frame("state", words, self.corridor, self.clock)


def read_record(sheet: Sheet, corridor: Corridor, clock: Clock) -> Record:
    """The record of a table."""
    names = ("state", "id", *COLUMNS, "cost_units")
    found = {stem: place for stem, (place, _) in sheet.parted(names, {}).items()}
    sheet.needed(sheet.parted(names, {}), {name: () for name in names if name != COLUMNS[-1]})
    width = len(COLUMNS) if COLUMNS[-1] in found else NARROW
    reader = _Reader(sheet, found, corridor, clock, width)
    for at, row in enumerate(watched(sheet.rows, f"reading {sheet.name}")):
        reader.row(at, row)
    reader.test_whole()
    low, high = reader.cost & GREATEST_WORD, reader.cost >> 32
    words = np.concatenate([reader.states.reshape(-1), np.array([low, high], dtype=np.uint32)])

    def cell(state: int, node: int, place: int) -> Cell:
        return sheet.cell(sheet.rows[reader.lines[state, node]], found[COLUMNS[place]])

    return Record(words, corridor, clock, cell, reader.cost_cell)


class _Reader:
    """Goes through the rows of a record and collects the words of each state and node."""

    def __init__(self, sheet: Sheet, found: dict[str, int], corridor: Corridor, clock: Clock, width: int):
        shape = (clock.steps + 1, corridor.links + 1)
        self.sheet = sheet
        self.found = found
        self.clock = clock
        self.corridor = corridor
        self.nodes = {str(node.identifier): place for place, node in enumerate(corridor.nodes)}
        self.places = [found[column] for column in COLUMNS[:width]]
        self.states = np.zeros(shape + (width,), dtype=np.uint32)
        self.lines = np.full(shape, -1, dtype=np.int64)
        self.cost = 0
        self.cost_cell: Cell | None = None

    def row(self, at: int, row: Row) -> None:
        """Adds the words of one state and node."""
        state = whole_number(self.sheet.cell(row, self.found["state"]), self.clock.steps, "a state")
        node = self.nodes.get(row.cells[self.found["id"]].strip())
        if node is None:
            raise expected(self.sheet.cell(row, self.found["id"]), "an identifier of the corridor")
        if self.lines[state, node] >= 0:
            line = self.sheet.rows[self.lines[state, node]].line
            raise Fault(
                Cell(self.sheet.name, row.line), f"line {line} has the same state and id: expected one row for each"
            )
        self.lines[state, node] = at
        self.states[state, node] = [self.word(row, place) for place in self.places]
        self.take_cost(row, state == self.clock.steps and node == len(self.nodes) - 1)

    def word(self, row: Row, place: int) -> int:
        """The word in a cell."""
        text = row.cells[place]
        if text.isascii() and text.isdigit() and len(text) < 10:
            return int(text)
        return whole_number(self.sheet.cell(row, place), GREATEST_WORD)

    def take_cost(self, row: Row, last: bool) -> None:
        """The cost stands in the row of the last state and node, and in no other."""
        cell_place = self.found["cost_units"]
        if last:
            self.cost_cell = self.sheet.cell(row, cell_place)
            self.cost = whole_number(self.cost_cell, GREATEST_COST, "the total cost, a whole number")
        elif row.cells[cell_place].strip():
            raise expected(
                self.sheet.cell(row, cell_place), "blank: the cost stands in the row of the last state and node"
            )

    def test_whole(self) -> None:
        """Faults the table for a state and node that has no row."""
        missing = np.argwhere(self.lines < 0)
        if len(missing):
            state, node = missing[0].tolist()
            wrong = f"no row of state {state} ({self.clock.at(state)}) and {self.corridor.nodes[node].label}: expected one for each"
            raise Fault(self.sheet.whole(), wrong)


def record_of_blocks(words: Words, corridor: Corridor, clock: Clock, file: str) -> Record:
    """The record of a block file."""
    width = len(COLUMNS) if layout.record_kind(len(words), corridor.links, clock.steps) == 7 else NARROW

    def cell(state: int, node: int, place: int) -> Cell:
        return block_cell(file, (state * len(corridor.nodes) + node) * width + place)

    return Record(words, corridor, clock, cell, block_cell(file, len(words) - 2))


def write_record(record: Record) -> str:
    """A table of every word of a record, with times and names for people."""
    states, nodes, width = record.states.shape
    columns = ["state", "id", *COLUMNS[:width], "cost_units", "(time)", "(name)"]
    known = [(node.identifier, node.name) for node in record.corridor.nodes]
    table = []
    for state, rows in enumerate(record.states.tolist()):
        time = record.clock.at(state)
        table += [[state, known[node][0], *words, "", time, known[node][1]] for node, words in enumerate(rows)]
    table[-1][2 + width] = record.cost
    return written(columns, table)
