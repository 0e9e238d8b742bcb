"""gigorchid plot: space-time maps of a plan, or of two."""

from __future__ import annotations

from pathlib import Path

import click

from ..maps import QUANTITIES
from .base import Outcome, Unusable, command as make_command
from .showing import draw_to_files, outcome, shown_arguments, shown_plans, write_shown

ENDINGS = (".svg", ".png")


@make_command("plot", short_help="Draw space-time maps of a plan, or of two.")
@shown_arguments
@click.option(
    "--map",
    "quantities",
    multiple=True,
    type=click.Choice(QUANTITIES),
    help="Draw this map alone; may be given more than once. Without it, all four.",
)
@click.option("-o", "--output", required=True, metavar="FILE", help="The picture: its name ends in .svg or .png.")
def command(
    project: str,
    plan: str,
    other: str | None,
    start: str | None,
    until: str | None,
    links: str | None,
    quantities: tuple[str, ...],
    output: str,
) -> Outcome:
    """Draw maps of what PLAN does in PROJECT, with time to the right and the road upwards: vehicles, speed, flow, and the queue of each ramp
    against its limit.

    With OTHER, a plan of the same project, PROJECT:PLAN or the file of a plan in a project's folder, the maps show A, B and B less A, where A
    is PLAN and B is OTHER, and the verdict is that of `gigorchid compare`. The exit status is that of `simulate` or of `compare`; the picture is written whatever the verdict is, unless the library refuses the plan itself.
    """
    ending = Path(output).suffix.lower()
    if ending not in ENDINGS:
        raise Unusable(f"{output}: a picture ends in {' or '.join(ENDINGS)}")
    shown = shown_plans(project, plan, other, start, until, links)
    draw_to_files()
    from .. import pictures

    drawn = [quantity for quantity in QUANTITIES if quantity in (quantities or QUANTITIES)]
    write_shown(shown, output, pictures.saved(pictures.picture(shown, drawn), ending[1:]))
    return outcome(shown, output, maps=drawn)
