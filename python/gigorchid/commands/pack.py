"""gigorchid pack: a project as block files."""

from __future__ import annotations

from pathlib import Path

import click

from .. import calls
from ..blocks import packed
from .base import Outcome, command as make_command, load_project, load_record, project_argument, table, write_files


@make_command("pack", short_help="Write a project as block files.")
@project_argument
@click.option("--into", "folder", required=True, metavar="DIR", help="The folder that the files are written to.")
@click.option(
    "--record", "records", multiple=True, metavar="RECORD", help="Pack this record too; may be given more than once."
)
def command(project: str, folder: str, records: tuple[str, ...]) -> Outcome:
    """Write PROJECT as block files into DIR, by the proved writers: corridor.blocks, demands.blocks and plan-NAME.blocks for each plan.

    The writers test no word but N and K: `gigorchid lint` says whether the library takes them.
    """
    road = load_project(project)
    files = packed(road)
    for name in records:
        record, file = load_record(road, name), f"{Path(name).stem}.blocks"
        if file in files:
            raise click.UsageError(f"--record {name}: {file} is another file here")
        files[file] = calls.write_record(road.links, road.steps, record.words).tobytes()
    write_files(folder, files)
    rows = [[name, f"{len(content):,}", f"{len(content) // 512:,}"] for name, content in files.items()]
    data = {
        "folder": folder,
        "files": {name: len(content) for name, content in files.items()},
        "links": road.links,
        "steps": road.steps,
    }
    return Outcome(
        data, [f"{road.links} links, {road.steps:,} steps, into {folder}", table(["file", "bytes", "blocks"], rows)]
    )
