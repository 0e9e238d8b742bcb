"""What every command shares: its outcome for people and for --json, its exit status, and how faults and refusals are told."""

from __future__ import annotations

import functools
import json
import os
import sys
from collections.abc import Callable, Iterable, Mapping, Sequence
from dataclasses import dataclass
from fractions import Fraction
from pathlib import Path
from typing import Any, TextIO

import click
from rich.console import Console
from rich.progress import track
from rich.table import Table
from rich.text import Text

from ..project import ENDINGS, Project
from .. import progress
from ..figures import MARK, NOT_PROVED
from ..plans import Plan, write_plan
from ..records import Record, write_record
from ..refusals import Refusal
from ..sheets import Fault, save
from ..tell import Told

ACCEPTED, DIFFERENT, REFUSED, FAULTY, NOT_COMPARABLE, USAGE = 0, 1, 2, 3, 4, 64
INTERRUPTED = 130
"""The exit statuses; USAGE also where a file named on the command line cannot be read or written."""

PLAIN_WIDTH = 120
"""The width of what is not printed on a terminal."""

STANDARD_OUTPUT = "-"

Shown = str | Table
"""What is printed for people."""


class Unusable(click.ClickException):
    """A file that is named on the command line and cannot be used; the command line itself is in order."""


@dataclass
class Outcome:
    """What a command came to: an object for --json, lines and tables for people, and the exit status.

    `aside`: standard output has a table that was asked for, so what people read goes to standard error.
    """

    data: Mapping[str, object]
    shown: Sequence[Shown] = ()
    status: int = ACCEPTED
    aside: bool = False


def table(columns: Sequence[str], rows: Iterable[Sequence[object]], words: int = 1) -> Table:
    """A table for people: the first columns in words, to the left, the others in figures, to the right."""
    made = Table(box=None, pad_edge=False, padding=(0, 2, 0, 0), header_style="bold")
    for place, column in enumerate(columns):
        left = place < words
        made.add_column(column, justify="left" if left else "right", overflow="fold", no_wrap=not left)
    for row in rows:
        made.add_row(*(Text(str(cell)) for cell in row))
    return made


def _console(stream: TextIO) -> Console:
    on_terminal = stream.isatty()
    width = None if on_terminal else PLAIN_WIDTH
    return Console(file=stream, width=width, highlight=False, markup=False, emoji=False, soft_wrap=not on_terminal)


_STYLES = {"ACCEPTED": "bold green", "VALID": "bold green", "SAME": "bold green", "DIFFERENT": "bold yellow"}
_ALERTS = ("NOT VALID", "NOT COMPARABLE")


def _styled(line: str) -> Text:
    """A line whose verdict stands out on a terminal."""
    for word in (*_ALERTS, *_STYLES):
        if line.startswith(word):
            return Text.assemble((word, _STYLES.get(word, "bold red")), line[len(word) :])
    return Text(line)


def show(shown: Iterable[Shown], error: bool = False) -> None:
    """Prints lines and tables for people."""
    console = _console(sys.stderr if error else sys.stdout)
    for item in shown:
        console.print(_styled(item) if isinstance(item, str) else item)


def print_json(data: dict[str, object]) -> None:
    """Prints one object."""
    click.echo(json.dumps(data, indent=2, ensure_ascii=False, default=_as_json))


def _as_json(value: object) -> object:
    if isinstance(value, Fraction):
        return round(float(value), 6)
    if isinstance(value, Path):
        return str(value)
    raise TypeError(f"{type(value).__name__} has no form in JSON")


def finish(name: str, as_json: bool, outcome: Outcome) -> None:
    """Prints an outcome and ends with its status."""
    if as_json:
        print_json({"command": name, "status": outcome.status, **outcome.data})
    else:
        show(outcome.shown, outcome.aside)
    sys.exit(outcome.status)


def refused(refusal: Refusal) -> Outcome:
    """The outcome of a refusal."""
    told = refusal if isinstance(refusal, Told) else Told(refusal, refusal.text)
    lines = [str(told)] + [f"  {line} {MARK}" for line in told.rest] + ([NOT_PROVED] if told.rest else [])
    return Outcome({"verdict": "REFUSED", "refusal": told.as_json()}, lines, REFUSED, aside=True)


def _outcome(work: Callable[[], Outcome]) -> Outcome:
    """What a command came to, a refusal and a fault among them, which people read on standard error."""
    try:
        return work()
    except Refusal as refusal:
        return refused(refusal)
    except Fault as fault:
        data = {"verdict": "FAULTY", "fault": fault.as_json()}
        return Outcome(data, [str(fault)], FAULTY, aside=True)


def command(name: str, **settings: Any) -> Callable[[Callable[..., Outcome]], click.Command]:
    """Makes a command of a function that returns its outcome: adds --json, and tells refusals and faults."""

    def made(function: Callable[..., Outcome]) -> click.Command:
        @functools.wraps(function)
        def run(as_json: bool, **given: Any) -> None:
            if as_json and given.get("output") == STANDARD_OUTPUT:
                raise click.UsageError("--json and -o - both want standard output")
            finish(name, as_json, _outcome(lambda: function(**given)))

        decorate: Callable[[Callable[..., None]], click.Command] = click.command(name, **settings)
        decorated = decorate(run)
        decorated.params.append(_json_option)
        return decorated

    return made


_json_option = click.Option(["--json", "as_json"], is_flag=True, help="Print one object of JSON in place of text.")


def load_project(path: str) -> Project:
    """The project of a folder, or of its project.toml, that is named on the command line."""
    file = Path(path) / "project.toml" if Path(path).is_dir() else Path(path)
    if file.is_file() and file.suffix != ".toml":
        raise Unusable(f"{path}: expected a project, a folder with a project.toml")
    if not file.is_file():
        raise Unusable(f"there is no {file}; `gigorchid new DIR` makes a project")
    return Project.load(path)


def _found(project: Project, name: str) -> Path | None:
    """A file that is named on the command line, here or else in the project's folder."""
    return next((path for path in (Path(name), project.folder / name) if path.is_file()), None)


def _test_ending(name: str) -> None:
    if Path(name).suffix not in ENDINGS:
        raise Unusable(f"{name}: the file of a plan or a record ends in {' or '.join(ENDINGS)}")


def load_plan(project: Project, name: str) -> Plan:
    """A plan by its name in the project, or by its file."""
    if name in project.plans:
        return project.plan(name)
    path = _found(project, name)
    if path is None:
        known = ", ".join(project.plans) or "none"
        raise Unusable(f"there is no plan {name}: neither a file, nor one of the project's plans ({known})")
    _test_ending(name)
    return project.plan(path)


def warned(*plans: Plan) -> list[str]:
    """Warnings of plans whose rows say nothing of any step: they are read, and do nothing."""
    return [f"warning: {each}" for plan in plans for each in plan.outside()]


def load_record(project: Project, name: str) -> Record:
    """A record by its file."""
    path = _found(project, name)
    if path is None:
        raise Unusable(f"there is no record {name}; `gigorchid simulate PROJECT PLAN -o {name}` writes one")
    _test_ending(name)
    return project.record(path)


project_argument = click.argument("project", metavar="PROJECT")
plan_argument = click.argument("plan", metavar="PLAN")
record_argument = click.argument("record", metavar="RECORD")
output_option = click.option(
    "-o",
    "--output",
    metavar="FILE",
    help="Write it to FILE: a block file where the name ends in .blocks, a table in .csv, and - for a table on standard output.",
)


def _write(project: Project, output: str, text: Callable[[], str], write: Callable[[Path], None]) -> None:
    if output == STANDARD_OUTPUT:
        click.echo(text().encode(), nl=False)
        return
    _test_ending(output)
    if Path(output).resolve() in project.own_files():
        raise Unusable(f"{output} is a file of the project, which would be lost: write to another")
    try:
        write(Path(output))
    except OSError as error:
        raise Unusable(f"{output}: cannot be written: {error.strerror}") from None


def want_empty(folder: str) -> None:
    """Refuses to write a project into a folder that holds something already."""
    path = Path(folder)
    if path.exists() and (not path.is_dir() or any(path.iterdir())):
        raise Unusable(f"{folder} is there, and not an empty folder")


def write_files(folder: str, files: dict[str, bytes]) -> None:
    """Writes files into a folder, which is made where it is not there."""
    try:
        Path(folder).mkdir(parents=True, exist_ok=True)
        for name, content in files.items():
            save(Path(folder) / name, content)
    except OSError as error:
        raise Unusable(f"{folder}: cannot be written: {error.strerror}") from None


def write_plan_to(project: Project, output: str | None, plan: Plan, comments: tuple[str, ...] = ()) -> list[str]:
    """Writes a plan where it is wanted, and says so."""
    if output is None:
        return []
    _write(project, output, lambda: write_plan(plan, comments), lambda path: plan.save(path, comments))
    return [] if output == STANDARD_OUTPUT else [f"written to {output}"]


def write_record_to(project: Project, output: str | None, record: Record) -> list[str]:
    """Writes a record where it is wanted, and says so."""
    if output is None:
        return []
    _write(project, output, lambda: write_record(record), record.save)
    return [] if output == STANDARD_OUTPUT else [f"record written to {output}"]


def show_progress() -> None:
    """Shows progress on long work where standard error is a terminal."""
    if sys.stderr.isatty():
        console = Console(file=sys.stderr)
        progress.show_with(lambda rows, what: track(rows, description=what, console=console, transient=True))


def silence() -> None:
    """Lets what could not be printed go, so that it is not tried again at the end."""
    devnull = os.open(os.devnull, os.O_WRONLY)
    os.dup2(devnull, sys.stdout.fileno())
