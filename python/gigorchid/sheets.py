"""Tables in text: cells that know their file, line and column, and faults that name the cell and what was expected."""

from __future__ import annotations

import csv
import io
import os
import re
from collections.abc import Iterable, Iterator, Mapping
from dataclasses import dataclass
from fractions import Fraction
from pathlib import Path

from .sizes import GREATEST_WORD
from .times import EXPECTED_TIME, Clock, parse_time
from .units import SYMBOLS

_NUMBER = re.compile(r"[0-9]+(\.[0-9]+)?")
_WHOLE = re.compile(r"[0-9]+")

MOST_NAMES = 32
"""So many names of columns a message lists."""


@dataclass(frozen=True)
class Cell:
    """Where a word came from: a cell of a table, a line of project.toml, or a word of a block file; line 0 is none."""

    file: str
    line: int = 0
    column: str = ""
    text: str = ""

    @property
    def place(self) -> str:
        """The file and, where there is one, the line."""
        return f"{self.file}:{self.line}" if self.line else self.file

    def __str__(self) -> str:
        return f"{self.place}: {self.column}" if self.column else self.place

    def as_json(self) -> dict[str, object]:
        """The cell as commands print it with --json."""
        return {"file": self.file, "line": self.line or None, "column": self.column or None, "text": self.text}


class Fault(Exception):
    """A faulty text file: the cell, and what is wrong there."""

    def __init__(self, cell: Cell, wrong: str):
        super().__init__(cell, wrong)
        self.cell = cell
        self.wrong = wrong

    def __str__(self) -> str:
        return f"{self.cell}: {self.wrong}"

    def as_json(self) -> dict[str, object]:
        """The fault as commands print it with --json."""
        return self.cell.as_json() | {"wrong": self.wrong}


def expected(cell: Cell, what: str) -> Fault:
    """The fault of a cell that holds something else than was expected."""
    return Fault(cell, f"{repr(cell.text) if cell.text else 'blank'}: expected {what}")


@dataclass(frozen=True)
class Row:
    """One line of a table."""

    line: int
    cells: list[str]


class Sheet:
    """A table as it stands in its file."""

    def __init__(self, name: str, header_line: int, columns: list[str], rows: list[Row]):
        self.name = name
        self.header_line = header_line
        self.columns = columns
        self.rows = rows

    @classmethod
    def read(cls, path: Path, name: str | None = None) -> Sheet:
        """Reads a CSV file, which messages call by this name."""
        name = name or str(path)
        lines = list(_lines(path, name))
        if not lines:
            raise Fault(Cell(name), "empty: expected a line that names the columns")
        header, rows = lines[0], lines[1:]
        _test_separator(header, name)
        sheet = cls(name, header.line, [cell.strip() for cell in header.cells], rows)
        sheet._test_shape()
        return sheet

    def _test_shape(self) -> None:
        for place, column in enumerate(self.columns):
            if is_read(column) and column in self.columns[:place]:
                raise Fault(self.heading(place), "a column of this name stands before it")
        for row in self.rows:
            if len(row.cells) != len(self.columns):
                wrong = f"{len(row.cells)} cells: expected {len(self.columns)}, as the line of names has"
                raise Fault(Cell(self.name, row.line), wrong)
            for place, column in enumerate(self.columns):
                if not column and row.cells[place].strip():
                    raise Fault(self.heading(place), f"no name: expected one, since line {row.line} has a cell there")

    def heading(self, place: int) -> Cell:
        """The cell that names a column."""
        return Cell(self.name, self.header_line, self.columns[place] or f"column {place + 1}", self.columns[place])

    def cell(self, row: Row, place: int) -> Cell:
        """The cell of a row in a column."""
        return Cell(self.name, row.line, self.columns[place], row.cells[place].strip())

    def whole(self) -> Cell:
        """The table as a whole, for a fault that no cell has."""
        return Cell(self.name)

    def read_columns(self) -> Iterator[tuple[int, str]]:
        """Places and names of the columns that are read."""
        return ((place, name) for place, name in enumerate(self.columns) if is_read(name))

    def parted(self, plain: Iterable[str], quantities: Mapping[str, tuple[str, ...]]) -> dict[str, tuple[int, str]]:
        """Place and ending of each column, by its name without the ending; those of `plain` have no ending."""
        plain = tuple(plain)
        found: dict[str, tuple[int, str]] = {}
        for place, name in self.read_columns():
            stem, _, ending = name.rpartition("_")
            if name in plain:
                stem, ending = name, ""
            elif stem not in quantities or ending not in quantities[stem]:
                raise Fault(self.heading(place), f"unknown column: expected {_known(name, plain, quantities)}")
            if stem in found:
                first = self.columns[found[stem][0]]
                raise Fault(self.heading(place), f"{stem} is given twice, by {first} too: expected one of them")
            found[stem] = (place, ending)
        return found

    def needed(self, found: Mapping[str, tuple[int, str]], names: Mapping[str, tuple[str, ...]]) -> None:
        """Faults the table for a column that it lacks."""
        for stem, endings in names.items():
            if stem not in found:
                wanted = stem if not endings else _either([f"{stem}_{ending}" for ending in endings])
                raise Fault(Cell(self.name, self.header_line), f"a column is missing: expected {wanted}")


def is_read(column: str) -> bool:
    """Whether a column counts: one without a name, or whose name begins with # or stands in parentheses, does not."""
    return column != "" and not column.startswith("#") and not (column.startswith("(") and column.endswith(")"))


def _test_separator(header: Row, name: str) -> None:
    """Faults a table whose cells are not separated by commas."""
    separators = {";": "semicolons", "\t": "tabs"}
    told = next((word for sign, word in separators.items() if sign in header.cells[0]), None)
    if len(header.cells) == 1 and told is not None:
        raise Fault(Cell(name, header.line), f"cells are separated by {told}: expected commas")
    if header.cells[0].startswith("sep="):
        raise Fault(Cell(name, header.line), f"{','.join(header.cells)}: expected the line that names the columns")


def _known(name: str, plain: tuple[str, ...], quantities: Mapping[str, tuple[str, ...]]) -> str:
    stem = name.rpartition("_")[0]
    for meant in (stem, name):
        if meant in quantities:
            return _either([f"{meant}_{ending}" for ending in quantities[meant]])
    names = list(plain) + [f"{each}_{ending}" for each, endings in quantities.items() for ending in endings]
    return "one of " + ", ".join(names[:MOST_NAMES]) + (" and so on" if len(names) > MOST_NAMES else "")


def _either(names: list[str]) -> str:
    return names[0] if len(names) == 1 else ", ".join(names[:-1]) + " or " + names[-1]


def _lines(path: Path, name: str) -> Iterator[Row]:
    """The lines that count: not blank, and no comments."""
    try:
        text = path.read_bytes().decode("utf-8-sig")
    except UnicodeDecodeError as error:
        line = path.read_bytes()[: error.start].count(b"\n") + 1
        raise Fault(Cell(name, line), "not UTF-8: expected a text file in that encoding") from None
    except OSError as error:
        raise Fault(Cell(name), f"cannot be read: {error.strerror}") from None
    source = _WithoutComments(io.StringIO(text, newline=""))
    reader = csv.reader(source, strict=True)
    try:
        for cells in reader:
            if any(cell.strip() for cell in cells):
                yield Row(source.first, cells)
            source.begin()
    except csv.Error as error:
        why = "a quotation mark is not closed" if "end of data" in str(error) else str(error)
        raise Fault(Cell(name, source.first), f"no CSV: {why}") from None


class _WithoutComments:
    """The lines of a text with those blank that begin with # where a row begins: a quoted cell may have such lines."""

    def __init__(self, lines: Iterable[str]):
        self._lines = iter(lines)
        self._count = 0
        self.begin()

    def begin(self) -> None:
        """The next line begins a row."""
        self.first = self._count + 1
        self._begins = True

    def __iter__(self) -> _WithoutComments:
        return self

    def __next__(self) -> str:
        line = next(self._lines)
        self._count += 1
        comment = self._begins and line.lstrip().startswith("#")
        self._begins = False
        return "\n" if comment else line


def number(cell: Cell, symbol: str = "", named: str = "") -> Fraction:
    """The figure in a cell; a word that the cell may also hold is said in the message."""
    if _NUMBER.fullmatch(cell.text) is None:
        in_unit, word = f" in {symbol}" if symbol else "", f", or {named}" if named else ""
        form = "such as 7900 or 7900.5, without sign or separators"
        raise expected(cell, f"a number of 0 or more{in_unit}, {form}{word}")
    return Fraction(cell.text)


def whole_number(cell: Cell, most: int, what: str = "a whole number", named: str = "") -> int:
    """The whole number in a cell."""
    if _WHOLE.fullmatch(cell.text) is None or int(cell.text) > most:
        raise expected(cell, f"{what} of 0 to {most:,}" + (f", or {named}" if named else ""))
    return int(cell.text)


def identifier(cell: Cell) -> int:
    """The identifier in a cell; that it is not zero the library tests."""
    if _WHOLE.fullmatch(cell.text) is None or int(cell.text) > GREATEST_WORD:
        raise expected(cell, f"an identifier: a whole number of 1 to {GREATEST_WORD:,}")
    return int(cell.text)


def figure(cell: Cell, ending: str, most: int, named: str = "") -> Fraction:
    """The figure in a cell whose column has this ending: a word as it is, or a number in that unit."""
    if ending == "units":
        return Fraction(whole_number(cell, most, named=named))
    return number(cell, SYMBOLS[ending], named)


def time_of(cell: Cell) -> Fraction:
    """The time of day in a cell."""
    time = parse_time(cell.text)
    if time is None:
        raise expected(cell, EXPECTED_TIME)
    return time


def state_of(cell: Cell, clock: Clock) -> int:
    """The state at the time in a cell: below 0 before the start, above K after the end, and within on a step."""
    states = clock.states_from_start(time_of(cell))
    if states.denominator != 1 and 0 < states < clock.steps:
        raise expected(cell, f"the start of a step, {clock.neighbours(time_of(cell))}")
    return int(states // 1)


def save(path: Path, content: bytes) -> None:
    """Writes a file whole or not at all: what was there stays until the new one is complete."""
    beside = path.with_name(f".{path.name}.{os.getpid()}.part")
    try:
        beside.write_bytes(content)
        os.replace(beside, path)
    finally:
        beside.unlink(missing_ok=True)


def written(columns: list[str], rows: Iterable[Iterable[object]], comments: Iterable[str] = ()) -> str:
    """A table as text."""
    out = io.StringIO()
    for comment in comments:
        out.write(f"# {comment}\n")
    writer = csv.writer(out, lineterminator="\n")
    writer.writerow(columns)
    writer.writerows(rows)
    return out.getvalue()
