"""gigorchid report: a page to sign, on a plan or on two."""

from __future__ import annotations

from pathlib import Path

import click

from .base import Outcome, Unusable, command as make_command
from .showing import draw_to_files, outcome, shown_arguments, shown_plans, write_shown

ENDING = ".html"


@make_command("report", short_help="Write a page to sign, on a plan or on two.")
@shown_arguments
@click.option("-o", "--output", required=True, metavar="FILE", help="The page: its name ends in .html.")
def command(
    project: str, plan: str, other: str | None, start: str | None, until: str | None, links: str | None, output: str
) -> Outcome:
    """Write a page on what PLAN does in PROJECT: the verdict, the longest queue of each ramp, maps that tell the words of the record at each
    place, what is posted, and a footer with the library's version and hash. It is one file, and needs no network.

    With OTHER, a plan of the same project, PROJECT:PLAN or the file of a plan in a project's folder, the page shows A, B and B less A, where A
    is PLAN and B is OTHER, and the verdict is that of `gigorchid compare`. A window cuts the maps alone. The exit status is that of `simulate`
    or of `compare`; the page is written whatever the verdict is, unless the library refuses the plan itself.
    """
    if Path(output).suffix.lower() != ENDING:
        raise Unusable(f"{output}: a page ends in {ENDING}")
    shown = shown_plans(project, plan, other, start, until, links)
    draw_to_files()
    from .. import report

    write_shown(shown, output, report.page(shown).encode())
    return outcome(shown, output)
