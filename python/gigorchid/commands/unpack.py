"""gigorchid unpack: block files as a project."""

from __future__ import annotations

from fractions import Fraction
from pathlib import Path

import click

from ..blocks import load, unpacked
from ..times import EXPECTED_TIME, Clock, parse_time
from .base import Outcome, Unusable, command as make_command, load_project, table, want_empty, write_files


def _seconds(text: str) -> Fraction:
    try:
        seconds = Fraction(text)
    except (ValueError, ZeroDivisionError):
        seconds = Fraction(0)
    if seconds <= 0 or "/" in text:
        raise click.UsageError(f"--step {text}: expected a number of seconds above 0")
    return seconds


def _start(text: str) -> Fraction:
    start = parse_time(text)
    if start is None:
        raise click.UsageError(f"--start {text}: expected {EXPECTED_TIME}")
    return start


@make_command("unpack", short_help="Read block files into a project.")
@click.argument("files", nargs=-1, required=True, metavar="FILES...")
@click.option(
    "--into", "folder", required=True, metavar="DIR", help="The folder that the project is written to, new or empty."
)
@click.option("--step", metavar="SECONDS", help="The length of a step, which block files do not tell.")
@click.option("--start", metavar="TIME", help="The time of day of state 0; usually 00:00.")
@click.option("--title", metavar="TEXT", help="What the project is called.")
@click.option(
    "--like",
    metavar="PROJECT",
    help="Take step, start, title, names and lengths from this project, where they are not given.",
)
def command(
    files: tuple[str, ...], folder: str, step: str | None, start: str | None, title: str | None, like: str | None
) -> Outcome:
    """Read block FILES, by the proved readers, into the tables of a project in DIR: one corridor, its demands, and any plans and records.

    Which list a file holds its first word tells. All figures are in exact units: `gigorchid pack` of the project gives the same bytes.
    """
    model = load_project(like) if like else None
    known = model.clock if model else Clock(Fraction(0), Fraction(0), 0)
    seconds = _seconds(step) if step is not None else known.step
    if not seconds:
        raise click.UsageError(
            "--step SECONDS is needed, or --like PROJECT: block files do not tell the length of a step"
        )
    begin = _start(start) if start is not None else known.start
    called = title if title is not None else model.title if model else ""
    for name in files:
        if not Path(name).is_file():
            raise Unusable(f"there is no file {name}")
    want_empty(folder)
    try:
        found = unpacked([load(Path(name)) for name in files], called, begin, seconds, model)
    except ValueError as error:
        raise Unusable(str(error)) from None
    write_files(folder, {name: text.encode() for name, text in found.texts.items()})
    rows = [[name, f"{text.count(chr(10)):,}"] for name, text in found.texts.items()]
    data = {"folder": folder, "files": list(found.texts), "links": found.links, "steps": found.steps}
    return Outcome(data, [f"{found.links} links, {found.steps:,} steps, into {folder}", table(["file", "lines"], rows)])
