"""What the commands that show plans share: one plan or two on the command line, and the window that is cut."""

from __future__ import annotations

import os
from collections.abc import Callable
from pathlib import Path
from typing import Any

import click

from ..compare import side
from ..project import Project
from ..sheets import save
from ..subjects import Subject, subject
from ..verdicts import NOT_VALID
from ..windows import BETWEEN, WrongWindow
from .base import ACCEPTED, REFUSED, Outcome, Unusable, load_plan, load_project, warned
from .compare import STATUS, operand


def shown_arguments(function: Callable[..., Outcome]) -> Callable[..., Outcome]:
    """Adds PROJECT, PLAN, OTHER and the options of the window."""
    decorators: list[Callable[[Any], Any]] = [
        click.argument("project", metavar="PROJECT"),
        click.argument("plan", metavar="PLAN"),
        click.argument("other", metavar="[OTHER]", required=False),
        click.option("--from", "start", metavar="TIME", help="Show from this time of day on."),
        click.option("--until", metavar="TIME", help="Show until before this time of day."),
        click.option(
            "--links",
            metavar=f"FIRST{BETWEEN}LAST",
            help="Show these links, each by the node at which it ends: its identifier or its name.",
        ),
    ]
    for decorator in reversed(decorators):
        function = decorator(function)
    return function


def shown_plans(
    project: str, plan: str, other: str | None, start: str | None, until: str | None, links: str | None
) -> Subject:
    """What is shown: the plan of a project, and another of it or of any other project."""
    road = load_project(project)
    given = side(road, load_plan(road, plan))
    beside = None if other is None else side(*operand(other, road))
    try:
        return subject(given, beside, start, until, links)
    except WrongWindow as wrong:
        raise click.UsageError(f"--{wrong.option} {wrong}") from None


def draw_to_files() -> None:
    """Has matplotlib draw into files, whatever it is told to draw into otherwise; before it is loaded."""
    os.environ["MPLBACKEND"] = "agg"


def status_of(shown: Subject) -> int:
    """The exit status: of one plan whether it is valid, of two as `compare` has it."""
    if shown.comparison is not None:
        return STATUS[shown.comparison.verdict]
    return REFUSED if shown.verdict.word == NOT_VALID else ACCEPTED


def write_shown(shown: Subject, output: str, content: bytes) -> None:
    """Writes a picture or a page, and over no file of a project."""
    projects: list[Project] = [side.project for side in shown.sides.values()]
    if any(Path(output).resolve() in project.own_files() for project in projects):
        raise Unusable(f"{output} is a file of the project, which would be lost: write to another")
    try:
        save(Path(output), content)
    except OSError as error:
        raise Unusable(f"{output}: cannot be written: {error.strerror}") from None


def outcome(shown: Subject, output: str, **more: object) -> Outcome:
    """What was shown, the verdict, and where it was written."""
    plans = [side.plan for side in shown.sides.values()]
    data: dict[str, object] = {
        "plans": shown.names,
        "verdict": shown.verdict.word,
        "said": str(shown.verdict),
        "warnings": {key: side.plan.outside() for key, side in shown.sides.items()},
        **more,
        "written": output,
    }
    return Outcome(data, [shown.title, *warned(*plans), str(shown.verdict), f"written to {output}"], status_of(shown))
