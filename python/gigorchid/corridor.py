"""corridor.csv: the nodes of a corridor with their links and ramps, as words that know the cell they came from."""

from __future__ import annotations

from dataclasses import dataclass
from fractions import Fraction

import numpy as np

from . import layout
from .layout import Words
from .sheets import Cell, Fault, Row, Sheet, expected, figure, identifier, number, written
from .times import decimal_text
from .sizes import GREATEST_WORD
from .units import COUNT, DENSITY, FLOW, LENGTH, PER_LINK, SPEED, SYMBOLS, decimal, factor, fits_word, nearest, tidy

LINK = {
    "capacity": (FLOW, layout.CAPACITY),
    "free_speed": (SPEED, layout.FULL_SPEED),
    "wave_speed": (SPEED, layout.WAVE_SPEED),
    "jam_density": (DENSITY, layout.JAM),
}
RAMP = {
    "ramp_capacity": (FLOW, layout.RAMP_CAPACITY),
    "queue_limit": (COUNT, layout.QUEUE_LIMIT),
}
START = {
    "start_vehicles": (("veh", "vpkm", "units"), layout.START_VEHICLES),
    "start_queue": (COUNT, layout.START_QUEUE),
}
DROP = {
    "dropped_capacity": (FLOW, layout.DROPPED_CAPACITY),
    "drop_density": (DENSITY, layout.DROP_DENSITY),
}
QUANTITIES = LINK | RAMP | START | DROP
"""Endings, and the place among the words of a node, of every quantity."""

BESIDE = {
    "ramp_capacity": "queue_limit",
    "queue_limit": "ramp_capacity",
    "dropped_capacity": "drop_density",
    "drop_density": "dropped_capacity",
}
"""Columns of which a row has both or neither."""

NO_LIMIT = 134_217_728
"""The queue limit that stands for none: no queue reaches it within the limits of the model."""


@dataclass(frozen=True)
class Node:
    """A node as people know it."""

    identifier: int
    name: str = ""
    length: Fraction | None = None
    cell: Cell = Cell("")

    @property
    def label(self) -> str:
        """Name and identifier."""
        return f"{self.name} ({self.identifier})" if self.name else str(self.identifier)


@dataclass(frozen=True)
class Given:
    """A figure of the table beside its word: what lint shows."""

    cell: Cell
    ending: str
    figure: Fraction
    word: int
    back: Fraction


class Corridor:
    """A corridor's words, the nodes' names, and for each word where it came from."""

    def __init__(
        self, nodes: list[Node], words: Words, cells: dict[int, Cell], given: list[Given], speeds: str = "kmh"
    ):
        self.nodes = nodes
        self.words = words
        self.given = given
        self.speeds = speeds
        """The ending of the unit in which speeds are shown: that of the table, or kmh."""
        self._cells = cells

    @property
    def links(self) -> int:
        """N."""
        return len(self.nodes) - 1

    @property
    def width(self) -> int:
        """The words of a node: 9 of kind 1, 11 of kind 10."""
        return (len(self.words) - 1) // len(self.nodes)

    @property
    def kind(self) -> int:
        """1, or 10 where the table says which links drop."""
        return 1 if self.width == 9 else 10

    def word(self, node: int, place: int) -> int:
        """A word of a node; of kind 1 its own F and J stand for what it drops to."""
        if place >= self.width:
            place = layout.CAPACITY if place == layout.DROPPED_CAPACITY else layout.JAM
        return int(self.words[1 + node * self.width + place])

    def cell(self, node: int, place: int) -> Cell | None:
        """Where that word came from, if a cell holds it."""
        return self._cells.get(1 + node * self.width + place)

    def speed(self, word: int, node: int, step: Fraction) -> Fraction | None:
        """A speed on the link that ends at a node, in the unit in which speeds are shown; None where its length is not known."""
        length = self.nodes[node].length
        return None if length is None else word / factor(self.speeds, step, length)

    def speed_text(self, word: int, node: int, step: Fraction) -> str:
        """The same for people, or in units."""
        speed = self.speed(word, node, step)
        return f"{word:,} units" if speed is None else f"{tidy(decimal(speed, 1))} {SYMBOLS[self.speeds]}"

    def node_of(self, identifier: int) -> int | None:
        """The place of an identifier in the corridor."""
        return next((place for place, node in enumerate(self.nodes) if node.identifier == identifier), None)

    def completed(self) -> Words:
        """The same corridor in kind 10, so that two of either kind can be compared."""
        rows = layout.corridor_nodes(self.words)
        if self.kind == 1:
            rows = np.hstack([rows, rows[:, [layout.CAPACITY, layout.JAM]]])
        return np.concatenate([self.words[:1], rows.reshape(-1)])


def read_corridor(sheet: Sheet, step: Fraction) -> Corridor:
    """The corridor of a table, with a step of so many seconds."""
    endings = {stem: allowed for stem, (allowed, _) in QUANTITIES.items()} | {"length": LENGTH}
    found = sheet.parted(("id", "name"), endings)
    sheet.needed(found, {"id": ()} | {stem: endings[stem] for stem in LINK | RAMP})
    if ("dropped_capacity" in found) != ("drop_density" in found):
        raise Fault(Cell(sheet.name, sheet.header_line), "one of the two drop columns: expected both or none")
    reader = _Reader(sheet, found, step)
    nodes = [reader.node(row) for row in sheet.rows]
    if not nodes:
        raise Fault(sheet.whole(), "no node: expected a row for each")
    for place, (row, node) in enumerate(zip(sheet.rows, nodes)):
        reader.row(row, node, place == 0)
    words = np.array([len(nodes) - 1] + reader.words, dtype=np.uint32)
    shown = "mph" if found["free_speed"][1] == "mph" else "kmh"
    return Corridor(nodes, words, reader.cells, reader.given, shown)


class _Reader:
    """Goes through the rows of a corridor and collects words, cells and figures."""

    def __init__(self, sheet: Sheet, found: dict[str, tuple[int, str]], step: Fraction):
        self.sheet = sheet
        self.found = found
        self.step = step
        self.words: list[int] = []
        self.cells: dict[int, Cell] = {}
        self.given: list[Given] = []
        self.drops = "dropped_capacity" in found

    def cell(self, row: Row, stem: str) -> Cell:
        """The cell of a quantity, which is blank where the table lacks its column."""
        return self.sheet.cell(row, self.found[stem][0]) if stem in self.found else Cell(self.sheet.name, row.line)

    def node(self, row: Row) -> Node:
        """What people call the node, and its link's length."""
        name, length = self.cell(row, "name"), self.cell(row, "length")
        known = identifier(self.cell(row, "id"))
        metres = number(length, "metres") if length.text else None
        if metres == 0:
            metres = None
        return Node(known, name.text, metres, Cell(self.sheet.name, row.line))

    def row(self, row: Row, node: Node, first: bool) -> None:
        """Adds the words of one node."""
        base = 1 + len(self.words)
        words = [0] * (11 if self.drops else 9)
        words[layout.IDENTIFIER] = node.identifier
        self.cells[base] = self.cell(row, "id")
        for stem, (_, place) in QUANTITIES.items():
            if stem in self.found:
                self.cells[base + place] = self.cell(row, stem)
                words[place] = self.word(row, stem, node, first)
        if self.drops and not self.cell(row, "dropped_capacity").text:
            words[layout.DROPPED_CAPACITY] = words[layout.CAPACITY]
            words[layout.DROP_DENSITY] = words[layout.JAM]
        self.words += words

    def word(self, row: Row, stem: str, node: Node, first: bool) -> int:
        """The word of one quantity; a blank cell counts as 0 where it may be blank."""
        cell = self.cell(row, stem)
        if not cell.text:
            self.test_blank(row, stem, cell, first)
            return 0
        if stem == "queue_limit" and cell.text == "none":
            return NO_LIMIT
        return self.converted(cell, self.found[stem][1], node, first)

    def test_blank(self, row: Row, stem: str, cell: Cell, first: bool) -> None:
        """Faults a blank cell where a figure is needed."""
        if stem in LINK and not first:
            raise expected(cell, "a number, since a link ends at this node")
        if stem in BESIDE:
            beside = self.cell(row, BESIDE[stem])
            strict = stem in DROP and not first
            if beside.text if strict else beside.text.strip("0."):
                none = " or none" if stem == "queue_limit" else ""
                raise expected(cell, f"a number{none}, since {beside.column} is {beside.text}")

    def converted(self, cell: Cell, ending: str, node: Node, first: bool) -> int:
        """The word nearest to the figure in a cell."""
        value = figure(cell, ending, GREATEST_WORD, "none" if cell.column.startswith("queue_limit") else "")
        if ending in PER_LINK and node.length is None and value != 0:
            wanted = (
                "blank, since no link ends at the entry" if first else f"a length_m in this row, which {ending} needs"
            )
            raise Fault(cell, f"{cell.text}: expected {wanted}")
        scale = factor(ending, self.step, node.length or Fraction(1))
        word = nearest(value * scale)
        if not fits_word(word):
            raise Fault(cell, f"{cell.text} is {word:,} units: expected at most {GREATEST_WORD:,}")
        if ending != "units":
            self.given.append(Given(cell, ending, value, word, word / scale))
        return word


def write_corridor(words: Words, nodes: list[Node]) -> str:
    """A table in exact units of a corridor's words, with the names and lengths of these nodes."""
    rows = layout.corridor_nodes(words)
    stems = [stem for stem, (_, place) in QUANTITIES.items() if place < rows.shape[1]]
    columns = ["id", "name", "length_m"] + [f"{stem}_units" for stem in stems]
    table = []
    for node, row in zip(nodes, rows.tolist()):
        length = "" if node.length is None else decimal_text(node.length)
        table.append([node.identifier, node.name, length] + [row[QUANTITIES[stem][1]] for stem in stems])
    return written(columns, table)
