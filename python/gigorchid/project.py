"""A project: the folder with project.toml and the tables it names, read into words; and the library's calls on them."""

from __future__ import annotations

import datetime
import re
import tomllib
from collections.abc import Mapping
from decimal import Decimal
from fractions import Fraction
from pathlib import Path
from typing import NamedTuple

from . import calls, tell
from .layout import Words
from .corridor import Corridor, read_corridor
from .demands import Demands, read_demands
from .plans import BlockSource, Plan, PlanSource, read_plan
from .records import Record, read_record, record_of_blocks
from .refusals import Refusal
from .sheets import Cell, Fault, Sheet, expected
from .times import EXPECTED_TIME, Clock, parse_time

FILE = "project.toml"
KEYS = ("title", "start", "step_s", "steps", "files", "plans")
FILES = ("corridor", "arrivals", "splits", "downstream")
NEEDED = ("corridor", "arrivals")
ENDINGS = (".csv", ".blocks")
"""How the files of plans and records end: tables and block files."""
MOST_STEPS_READ = 100_000
"""More steps than this are a fault of the file; from 1,441 on the library refuses them."""


class Normal(NamedTuple):
    """A plan's record, and the converter's plan for it."""

    record: Record
    plan: Plan


class Project:
    """A corridor, its demands and its plans, as a folder of text files has them."""

    def __init__(self, folder: Path, settings: _Settings, clock: Clock, corridor: Corridor, demands: Demands):
        self.folder = folder
        self.title = settings.title() or folder.resolve().name
        """What the project is called: the name of its folder where it says nothing else."""
        self.plans = settings.plans()
        self.clock = clock
        self.corridor = corridor
        self.demands = demands
        self._settings = settings

    @classmethod
    def load(cls, path: str | Path) -> Project:
        """Reads a project: its folder, or its project.toml."""
        path = Path(path)
        file = path / FILE if path.is_dir() else path
        settings = _Settings(file)
        folder = file.parent
        clock = Clock(settings.start(), settings.step(), settings.steps())
        sheets = {
            name: Sheet.read(settings.found(folder, told, name, "files"), told)
            for name, told in settings.files().items()
        }
        corridor = read_corridor(sheets["corridor"], clock.step)
        demands = read_demands(sheets["arrivals"], sheets.get("splits"), sheets.get("downstream"), corridor, clock)
        return cls(folder, settings, clock, corridor, demands)

    @property
    def steps_cell(self) -> Cell:
        """The line of project.toml that says how many steps there are."""
        return self._settings.cell("steps")

    @property
    def links(self) -> int:
        """N."""
        return self.corridor.links

    @property
    def steps(self) -> int:
        """K."""
        return self.clock.steps

    def __repr__(self) -> str:
        return (
            f"<Project {self.title}: {self.links} links, {self.steps} steps, plans {', '.join(self.plans) or 'none'}>"
        )

    def own_files(self) -> set[Path]:
        """The files that the project is read from."""
        names = [FILE, *self._settings.files().values(), *self.plans.values()]
        return {(self.folder / name).resolve() for name in names}

    def plan(self, name: str | Path) -> Plan:
        """A plan: by its name in project.toml, or by a file, a table or a block file."""
        told = self.plans.get(str(name))
        if told is not None:
            return self._plan_of(self._settings.found(self.folder, told, str(name), "plans"), told, str(name))
        if not Path(name).is_file():
            known = ", ".join(self.plans) or "none"
            raise Fault(Cell(str(name)), f"no such file: expected one, or a plan of the project ({known})")
        return self._plan_of(Path(name), str(name), Path(name).stem)

    def _given(self, plan: Plan | str | Path) -> Plan:
        return plan if isinstance(plan, Plan) else self.plan(plan)

    def _plan_of(self, path: Path, told: str, name: str) -> Plan:
        if path.suffix != ".blocks":
            return read_plan(Sheet.read(path, told), name, self.corridor, self.clock)
        words = self._read_blocks(path, told, "plan")
        return Plan(name, words, self.corridor, self.clock, BlockSource(told, self.links + 1))

    def full_plan(self) -> Plan:
        """The plan that meters nothing: full speed at the ramps' capacity."""
        sheet = Sheet("", 1, ["id", "from", "until"], [])
        return read_plan(sheet, "full", self.corridor, self.clock)

    def record(self, path: str | Path) -> Record:
        """A proposed record: a table or a block file."""
        path = Path(path)
        if path.suffix != ".blocks":
            return read_record(Sheet.read(path), self.corridor, self.clock)
        words = self._read_blocks(path, str(path), "record")
        return record_of_blocks(words, self.corridor, self.clock, str(path))

    def _read_blocks(self, path: Path, told: str, place: str) -> Words:
        """The words of a block file, by the proved reader."""
        try:
            file = path.read_bytes()
        except OSError as error:
            raise Fault(Cell(told), f"cannot be read: {error.strerror}") from None
        reader = calls.read_plan if place == "plan" else calls.read_record
        try:
            return reader(self.links, self.steps, file)
        except Refusal as refusal:
            raise tell.of_file(refusal, told, place, file, self.links, self.steps) from None

    def simulate(self, plan: Plan | str | Path, kind: int = 3) -> Record:
        """The plan's record, of kind 3 or 7, which lists the exits."""
        plan = self._given(plan)
        try:
            words = calls.simulate_words(self.corridor.words, self.demands.words, plan.words, kind=kind)
        except Refusal as refusal:
            raise tell.of_plan(refusal, self, plan) from None
        return Record(words, self.corridor, self.clock)

    def check(self, record: Record) -> None:
        """Asks the library whether some valid plan has a record; a Refusal says where none can."""
        try:
            calls.check_words(self.corridor.words, self.demands.words, record.words)
        except Refusal as refusal:
            raise tell.of_record(refusal, self, record) from None

    def convert(self, record: Record, name: str = "converted") -> Plan:
        """The converter's plan for a record."""
        try:
            words = calls.convert_words(self.corridor.words, self.demands.words, record.words)
        except Refusal as refusal:
            raise tell.of_record(refusal, self, record) from None
        return Plan(name, words, self.corridor, self.clock, PlanSource())

    def normal(self, plan: Plan | str | Path, kind: int = 3) -> Normal:
        """The plan's record and its normal form. Refused by 12, the Refusal has the words of the record as `work`."""
        plan = self._given(plan)
        try:
            record, words = calls.normal_words(self.corridor.words, self.demands.words, plan.words, kind=kind)
        except Refusal as refusal:
            raise tell.of_plan(refusal, self, plan) from None
        normal = Plan(f"normal form of {plan.name}", words, self.corridor, self.clock, PlanSource())
        return Normal(Record(record, self.corridor, self.clock), normal)

    def search(self, record: Record, step: int, node: int) -> calls.Search:
        """The search for the rate of one node in one step of a record."""
        try:
            return calls.search_words(self.corridor.words, self.demands.words, record.words, step, node)
        except Refusal as refusal:
            raise tell.of_record(refusal, self, record) from None


class _Settings:
    """What project.toml says, with the line of each key for messages."""

    def __init__(self, file: Path):
        self._name = file.name
        try:
            self._text = file.read_bytes().decode("utf-8-sig")
            self._values = tomllib.loads(self._text, parse_float=Decimal)
        except OSError as error:
            raise Fault(Cell(str(file)), f"cannot be read: {error.strerror}") from None
        except UnicodeDecodeError:
            raise Fault(Cell(self._name), "not UTF-8: expected a text file in that encoding") from None
        except tomllib.TOMLDecodeError as error:
            raise self._no_toml(error) from None
        self._test_keys(self._values, KEYS, None)
        for table in ("files", "plans"):
            if not isinstance(self._values.get(table, {}), dict):
                raise expected(self.cell(table), f"a table, [{table}]")
        self._test_keys(self._values.get("files", {}), FILES, "files")

    def _no_toml(self, error: tomllib.TOMLDecodeError) -> Fault:
        told = str(error)
        line = re.search(r"at line (\d+)", told)
        number = int(line.group(1)) if line else 0
        text = self._text.splitlines()[number - 1] if number else ""
        hint = "; a time stands in quotation marks" if re.search(r"=\s*\d+:\d\d\s*(#.*)?$", text) else ""
        return Fault(Cell(self._name, number), f"no TOML: {told}{hint}")

    def _test_keys(self, values: Mapping[str, object], known: tuple[str, ...], table: str | None) -> None:
        for key in values:
            if key not in known:
                raise Fault(self.cell(key, table), f"unknown key: expected one of {', '.join(known)}")

    def cell(self, key: str, table: str | None = None) -> Cell:
        """The line of a key, and what stands there."""
        inside: str | None = None
        for line, text in enumerate(self._text.splitlines(), 1):
            heading = re.match(r"\s*\[\s*([^\]]+?)\s*\]", text)
            inside = heading.group(1) if heading else inside
            if heading and table is None and inside == key:
                return Cell(self._name, line, key)
            found = re.match(rf"\s*[\"']?{re.escape(key)}[\"']?\s*=\s*(.*?)\s*(#[^\"']*)?$", text)
            if found and inside == table:
                return Cell(self._name, line, key, found.group(1).strip("\"'"))
        return Cell(self._name, 0, key)

    def found(self, folder: Path, told: str, key: str, table: str) -> Path:
        """The file that a key names, which is there."""
        if not (folder / told).is_file():
            raise expected(self.cell(key, table), "a file of the project's folder, and there is none of this name")
        return folder / told

    def title(self) -> str:
        """What the project is called."""
        title = self._values.get("title", "")
        if not isinstance(title, str):
            raise expected(self.cell("title"), "a text in quotation marks")
        return title

    def start(self) -> Fraction:
        """The time of day of state 0, in seconds."""
        value = self._values.get("start")
        text = value.isoformat() if isinstance(value, datetime.time) else value
        time = parse_time(text) if isinstance(text, str) else None
        if time is None:
            raise expected(self.cell("start"), EXPECTED_TIME)
        return time

    def step(self) -> Fraction:
        """The length of a step in seconds."""
        what = "a number of seconds above 0"
        value = self._number("step_s", what)
        if not Decimal(value).is_finite() or value <= 0:
            raise expected(self.cell("step_s"), what)
        return Fraction(value)

    def steps(self) -> int:
        """How many steps there are."""
        what = "a whole number, of 1 to 1,440 to be accepted"
        value = self._number("steps", what)
        if not isinstance(value, int) or not 0 <= value <= MOST_STEPS_READ:
            raise expected(self.cell("steps"), what)
        return value

    def _number(self, key: str, what: str) -> int | Decimal:
        """The number that a key has."""
        value = self._values.get(key)
        if isinstance(value, str):
            raise expected(self.cell(key), f"{what}, without quotation marks")
        if isinstance(value, bool) or not isinstance(value, (int, Decimal)):
            raise expected(self.cell(key), what)
        return value

    def files(self) -> dict[str, str]:
        """The tables that the project names."""
        files = self._values.get("files", {})
        for name in NEEDED:
            if name not in files:
                raise Fault(
                    Cell(self._name, self.cell("files").line), f"[files] has no {name}: expected the name of its table"
                )
        return self._names(files, "files")

    def plans(self) -> dict[str, str]:
        """The plans that the project names."""
        plans = self._names(self._values.get("plans", {}), "plans")
        for key, name in plans.items():
            if Path(name).suffix not in ENDINGS:
                raise expected(self.cell(key, "plans"), f"the name of a file that ends in {' or '.join(ENDINGS)}")
        return plans

    def _names(self, values: Mapping[str, object], table: str) -> dict[str, str]:
        for key, value in values.items():
            if not isinstance(value, str) or not value:
                raise expected(self.cell(key, table), "the name of a file, in quotation marks")
        return {key: str(value) for key, value in values.items()}
