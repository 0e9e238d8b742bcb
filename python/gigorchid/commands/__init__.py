"""The command `gigorchid`. Each command is a module of this folder; a new one is a module and its name in COMMANDS."""

from __future__ import annotations

import io
import signal
import sys
from collections.abc import Callable
from importlib import import_module

import click

from .. import __version__, library
from .base import INTERRUPTED, USAGE, print_json, show_progress, silence

COMMANDS = (
    "new",
    "lint",
    "simulate",
    "check",
    "convert",
    "normal",
    "compare",
    "plot",
    "report",
    "search",
    "explain",
    "pack",
    "unpack",
)
"""In the order in which the help lists them."""


class _InOrder(click.Group):
    """A group that keeps its commands in their order, and loads only the one that is run."""

    def list_commands(self, ctx: click.Context) -> list[str]:
        return list(COMMANDS)

    def get_command(self, ctx: click.Context, name: str) -> click.Command | None:
        return import_module(f".{name}", __name__).command if name in COMMANDS else None


def _print_version(ctx: click.Context, param: click.Parameter, value: bool) -> None:
    if value and not ctx.resilient_parsing:
        click.echo(f"gigorchid {__version__}\nlibrary {library.path()}\nsha256 {library.digest()}")
        ctx.exit()


@click.group(cls=_InOrder, context_settings={"help_option_names": ["-h", "--help"], "max_content_width": 100})
@click.option(
    "--version",
    is_flag=True,
    expose_value=False,
    is_eager=True,
    callback=_print_version,
    help="Say the version, and which library judges.",
)
def cli() -> None:
    """Freeway metering plans that are proved: simulate a plan, check and convert a record, compare two plans by what they do on the road.

    A PROJECT is a folder with a project.toml and tables in CSV; `gigorchid new DIR` makes one to begin with. A PLAN is one of the project's
    plans by its name, or a file; a RECORD is a file. Files end in .csv or, as block files, in .blocks.

    A proved library judges; this tool converts units, and tells what the library answers in the terms of the tables. Figures marked with *
    are computed by the tool itself and are not proved.

    Exit status: 0 accepted or the same, 1 different, 2 refused by the library, 3 a faulty text file, 4 not comparable, 64 a wrong command
    line.
    """


def main() -> None:
    """Runs the command line, and ends with its exit status."""
    # A reader that goes away, such as head, ends the program as it ends any other.
    signal.signal(signal.SIGPIPE, signal.SIG_DFL)
    if sys.stdout is None or sys.stderr is None:
        sys.exit(USAGE)
    for stream in (sys.stdout, sys.stderr):
        if isinstance(stream, io.TextIOWrapper):
            stream.reconfigure(errors="replace")
    show_progress()
    sys.exit(_written(_status))


def _written(run: Callable[[], int]) -> int:
    """The status, once all that was printed is written."""
    try:
        status = run()
        sys.stdout.flush()
        return status
    except OSError as error:
        silence()
        click.echo(f"gigorchid: standard output cannot be written: {error.strerror}", err=True)
        return USAGE


def _status() -> int:
    """Runs a command, and tells what is wrong with the command line."""
    try:
        cli.main(prog_name="gigorchid", standalone_mode=False)
    except SystemExit as ended:
        return int(ended.code or 0)
    except click.ClickException as error:
        if "--json" in sys.argv:
            print_json({"status": USAGE, "verdict": "USAGE", "error": error.format_message()})
        else:
            error.show()
        return USAGE
    except click.Abort:
        return INTERRUPTED
    except library.LibraryMissing as error:
        click.echo(f"gigorchid: {error}", err=True)
        return USAGE
    return 0
