"""Small projects for tests: a valley road and corridor B of docs/MODEL.md, both in the field's units; block files as
the header has them; and the command run on them."""

import contextlib
import json
from collections.abc import Iterable, Iterator, Mapping
from pathlib import Path
from tempfile import TemporaryDirectory
from typing import Any

import numpy as np
from click.testing import CliRunner

from gigorchid import Project
from gigorchid.commands import cli

Files = dict[str, str | bytes]
Edit = tuple[str, str, str]
"""A file, a text that stands in it once, and what is written in its place."""

VALLEY: Files = {
    "project.toml": """\
title = "Valley road"
start = "07:00"
step_s = 10
steps = 6

[files]
corridor = "corridor.csv"
arrivals = "arrivals.csv"
splits = "splits.csv"
downstream = "downstream.csv"

[plans]
open = "plan-open.csv"
metered = "plan-metered.csv"
""",
    "corridor.csv": """\
id,name,length_m,capacity_vph,free_speed_kmh,wave_speed_kmh,jam_density_vpkm,ramp_capacity_vph,queue_limit_veh,\
start_vehicles_veh,start_queue_veh,dropped_capacity_vph,drop_density_vpkm
10,Entry,,,,,,4500,none,,10,,
20,Mill Road,500,4500,90,18,200,900,25,20,2,,
30,Bridge,600,4500,90,18,200,,,15,,3600,60
40,Harbour,500,4500,90,18,200,,,11,,,
""",
    "arrivals.csv": "from,10_vph,20_vph\n07:00,3600,540\n07:00:30,4050,720\n",
    "splits.csv": "from,20_pct\n07:00,12.5\n07:00:20,25\n",
    "downstream.csv": "from,40_vph\n07:00,free\n07:00:30,3150\n",
    "plan-open.csv": "id,from,until,rate_vph,limit_kmh\n",
    "plan-metered.csv": """\
id,from,until,rate_vph,limit_kmh
20,07:00,07:00:20,450,
20,07:00:20,07:01,360,
30,07:00:30,,,72
""",
}

HEADINGS = str(VALLEY["corridor.csv"]).partition("\n")[0].split(",")
MILL_ROAD = "20,Mill Road,500,4500,90,18,200,900,25,20,2,,"
FIRST_RATE = "20,07:00,07:00:20,450,"
"""The columns of the valley road's corridor, the row of its ramp, and the first row of its plan."""

B: Files = {
    "project.toml": """\
title = "Corridor B"
start = "07:30"
step_s = 10
steps = 1

[files]
corridor = "corridor.csv"
arrivals = "arrivals.csv"
splits = "splits.csv"

[plans]
full = "plan-full.csv"
""",
    "corridor.csv": """\
id,name,length_m,capacity_vph,free_speed_kmh,wave_speed_kmh,jam_density_veh,ramp_capacity_vph,queue_limit_veh,\
start_vehicles_veh,start_queue_veh
10,Entry,,,,,,562.5,15.625,,
20,Mill Road,500,562.5,90,90,6.25,337.5,3.125,3.125,0.78125
30,Harbour,500,562.5,90,90,6.25,,,3.125,
""",
    "arrivals.csv": "from,10_vph,20_vph\n07:30,168.75,56.25\n",
    "splits.csv": "from,20_pct\n07:30,25\n",
    "plan-full.csv": "id,from,until,rate_vph,limit_kmh\n",
    "record.csv": """\
state,id,vehicles_units,queue_units,flow_units,ramp_flow_units,cost_units
0,10,0,0,0,0,
0,20,200,50,80,40,
0,30,200,0,100,0,
1,10,0,30,0,0,
1,20,120,20,0,0,
1,30,200,0,0,0,370
""",
    "exits.csv": """\
state,id,vehicles_units,queue_units,flow_units,ramp_flow_units,exit_flow_units,cost_units
0,10,0,0,0,0,0,
0,20,200,50,80,40,20,
0,30,200,0,100,0,0,
1,10,0,30,0,0,0,
1,20,120,20,0,0,0,
1,30,200,0,0,0,0,370
""",
}


def unread(name: str) -> str:
    """The name of a column that is there for people and is not read."""
    return f"#{name}"


def changed(files: Files, *edits: Edit) -> Files:
    """The files with some texts replaced, each of which stands once in its file."""
    made = dict(files)
    for file, old, new in edits:
        text = made[file]
        assert isinstance(text, str) and text.count(old) == 1, f"{old!r} stands {text.count(old)} times in {file}"
        made[file] = text.replace(old, new)
    return made


def without(files: Files, *names: str) -> Files:
    """The project without some of its tables, in its folder and in project.toml."""
    lines = str(files["project.toml"]).splitlines(keepends=True)
    left = [line for line in lines if not any(f'"{name}"' in line for name in names)]
    return {name: text for name, text in files.items() if name not in names} | {"project.toml": "".join(left)}


@contextlib.contextmanager
def folder_of(files: Mapping[str, str | bytes]) -> Iterator[Path]:
    """A folder with these files, for as long as it is used."""
    with TemporaryDirectory() as name:
        folder = Path(name)
        for file, text in files.items():
            (folder / file).write_bytes(text if isinstance(text, bytes) else text.encode())
        yield folder


def loaded(files: Files) -> Project:
    """The project, read through the package."""
    with folder_of(files) as folder:
        return Project.load(folder)


def plan_words(files: Files, name: str) -> list[tuple[int, int]]:
    """Rate and limit of a plan, by step and then by node."""
    with folder_of(files) as folder:
        words = Project.load(folder).plan(name).words
    return [(rate, limit) for rate, limit in words.reshape(-1, 2).tolist()]


def read_all(folder: Path, record: str | None) -> None:
    """Reads a project with all of its plans, and a record beside them."""
    with contextlib.chdir(folder):
        project = Project.load(".")
        for name in project.plans:
            project.plan(name)
        if record is not None:
            project.record(record)


def project_words(files: Files) -> dict[str, list[int]]:
    """Every word of a project: corridor, demands and each of its plans."""
    with folder_of(files) as folder:
        project = Project.load(folder)
        words = {"corridor": project.corridor.words, "demands": project.demands.words}
        words |= {name: project.plan(name).words for name in project.plans}
    return {name: list_words.tolist() for name, list_words in words.items()}


def run(folder: Path, *arguments: str) -> tuple[int, str]:
    """The exit status of a command in a folder, and all that it prints."""
    with contextlib.chdir(folder):
        result = CliRunner().invoke(cli, arguments, catch_exceptions=False)
    return result.exit_code, result.output


def answer(folder: Path, *arguments: str) -> dict[str, Any]:
    """The object that a command prints with --json, in which its exit status stands too."""
    status, printed = run(folder, *arguments, "--json")
    data: dict[str, Any] = json.loads(printed)
    assert data["status"] == status
    return data


def block_words(kind: int, words: Iterable[int]) -> np.ndarray:
    """The words of a block file, a row for each block, by what include/gigorchid.h says of files."""
    listed = np.array([*words], np.uint64)
    blocks = np.zeros((-(-len(listed) // 125), 128), np.uint64)
    blocks[:, 0], blocks[:, 1] = kind, range(len(blocks))
    for number, row in enumerate(blocks):
        payload = listed[125 * number : 125 * (number + 1)]
        row[2 : 2 + len(payload)] = payload
    seal(blocks)
    return blocks


def seal(blocks: np.ndarray) -> None:
    """Makes the check word of every block right."""
    blocks[:, 127] = (blocks[:, :127] * (2 * np.arange(127, dtype=np.uint64) + 1)).sum(axis=1) % 2**32


def block_file(kind: int, words: Iterable[int]) -> bytes:
    """A list of this kind as a block file."""
    return file_of(block_words(kind, words))


def file_of(blocks: np.ndarray) -> bytes:
    """The bytes of a block file, each word with its low byte first."""
    return blocks.astype("<u4").tobytes()
