"""gigorchid new: a starter project."""

from __future__ import annotations

from importlib import resources

import click

from ..project import Project
from .base import Outcome, command as make_command, want_empty, write_files

STARTER = "starter"


def starter_files() -> dict[str, bytes]:
    """The files of the starter project, by name."""
    folder = resources.files("gigorchid") / STARTER
    return {entry.name: entry.read_bytes() for entry in sorted(folder.iterdir(), key=lambda entry: entry.name)}


@make_command("new", short_help="Make a starter project.")
@click.argument("folder", metavar="DIR")
def command(folder: str) -> Outcome:
    """Make a starter project in DIR, which is made, or is empty: a plausible corridor of 13 links with made-up figures, and four plans."""
    want_empty(folder)
    files = starter_files()
    write_files(folder, files)
    project = Project.load(folder)
    lines = [
        f"{project.title}: {project.links} links, {project.steps:,} steps of {float(project.clock.step):g} s from {project.clock.at(0)}",
        f"plans: {', '.join(project.plans)}",
        f"next: gigorchid simulate {folder} peak",
    ]
    return Outcome({"folder": folder, "files": list(files), "plans": list(project.plans)}, lines)
