#!/usr/bin/python3
"""Measures what one core does in an hour through the Python package, and prints the table of docs/SCALE.md.

Run from a checkout, after tools/package/library.sh, with Debian's own python3.
"""

from __future__ import annotations

import random
import subprocess
import sys
import tempfile
import time
from collections.abc import Callable
from pathlib import Path

ROOT = Path(__file__).resolve().parents[2]
sys.path.insert(0, str(ROOT / "python"))

from gigorchid import Project  # noqa: E402
from gigorchid.compare import compare, side  # noqa: E402

SIZES = ((13, 1080), (30, 360), (64, 1440))
"""Links and steps: the starter's size, an hour of a long corridor at 10 s, and the greatest."""

MEASURED_SECONDS = 1.0
RUNS = 5


def write_project(folder: Path, links: int, steps: int) -> None:
    """A made-up corridor of this size in its busy hours, with the same numbers every time."""
    draw = random.Random(links * 10_000 + steps)
    lines = ['title = "measured"', 'start = "06:00"', "step_s = 10", f"steps = {steps}", "[files]"]
    lines += [f'{name} = "{name}.csv"' for name in ("corridor", "arrivals", "splits")]
    (folder / "project.toml").write_text("\n".join([*lines, "[plans]", 'metered = "plan.csv"', ""]))
    columns = (
        "id,length_m,capacity_vph,free_speed_kmh,wave_speed_kmh,jam_density_vpkm,ramp_capacity_vph,queue_limit_veh"
    )
    rows = [columns, "100,,,,,,9000,none"]
    for node in range(1, links + 1):
        ramp = "1000,2000" if node < links else ","
        rows.append(f"{100 + node},{draw.randint(500, 1200)},8500,105,20,480,{ramp}")
    (folder / "corridor.csv").write_text("\n".join(rows) + "\n")
    ramps = range(1, links)
    rows = ["from,100_vph," + ",".join(f"{100 + node}_vph" for node in ramps)]
    for minute in range(0, steps // 6, 5):
        arrivals = [draw.randint(5000, 6500)] + [draw.randint(200, 500) for _ in ramps]
        rows.append(f"{6 + minute // 60:02d}:{minute % 60:02d}," + ",".join(map(str, arrivals)))
    (folder / "arrivals.csv").write_text("\n".join(rows) + "\n")
    splits = ["from," + ",".join(f"{100 + node}_pct" for node in ramps), "06:00," + ",".join("6" for _ in ramps)]
    (folder / "splits.csv").write_text("\n".join(splits) + "\n")
    plan = ["id,from,until,rate_vph,limit_kmh"] + [f"{100 + node},06:20,,{draw.randint(180, 480)}," for node in ramps]
    (folder / "plan.csv").write_text("\n".join(plan) + "\n")


def per_hour(work: Callable[[], object]) -> float:
    """How often this can be done in an hour of one core: the median of some runs."""
    found = []
    for _ in range(RUNS):
        times, start = 0, time.process_time()
        while time.process_time() - start < MEASURED_SECONDS / RUNS:
            work()
            times += 1
        found.append(times * 3600 / (time.process_time() - start))
    return sorted(found)[RUNS // 2]


def rounded(figure: float) -> str:
    """A figure to two places, with separators of thousands."""
    digits = 10 ** max(len(str(int(figure))) - 2, 0)
    return f"{round(figure / digits) * digits:,}"


def measure(folder: Path, links: int, steps: int) -> dict[str, float]:
    """What is done in an hour with a project of this size."""
    write_project(folder, links, steps)
    project = Project.load(folder)
    plan, full = project.plan("metered"), project.full_plan()
    record = project.simulate(plan)
    table, blocks = folder / "record.csv", folder / "record.blocks"
    record.save(table)
    record.save(blocks)
    program = [sys.executable, "-c", "from gigorchid.commands import main; main()", "simulate", str(folder), "metered"]
    started = time.perf_counter()
    subprocess.run(program, env={"PYTHONPATH": str(ROOT / "python")}, check=False, capture_output=True)
    command = time.perf_counter() - started
    return {
        "simulate": per_hour(lambda: project.simulate(plan)),
        "check": per_hour(lambda: project.check(record)),
        "convert": per_hour(lambda: project.convert(record)),
        "normal form": per_hour(lambda: project.normal(plan)),
        "compare two plans": per_hour(lambda: compare(side(project, plan), side(project, full))),
        "read a record, block file": per_hour(lambda: project.record(blocks)),
        "read a record, table": per_hour(lambda: project.record(table)),
        "read the project's tables": per_hour(lambda: Project.load(folder)),
        "the command `simulate`, from its start": 3600 / command,
    }


def main() -> None:
    """Prints the table."""
    columns = []
    for links, steps in SIZES:
        with tempfile.TemporaryDirectory() as folder:
            columns.append(measure(Path(folder), links, steps))
    print("|In an hour, on one core|" + "|".join(f"{links} links, {steps:,} steps" for links, steps in SIZES) + "|")
    print("|-|" + "-|" * len(SIZES))
    for name in columns[0]:
        print(f"|{name}|" + "|".join(rounded(column[name]) for column in columns) + "|")


if __name__ == "__main__":
    main()
