"""What every command prints on the starter project: the commands, and how they are run. Run as a program, it writes the folder golden anew."""

from __future__ import annotations

import os
import subprocess
import sys
import tempfile
from pathlib import Path

ROOT = Path(__file__).resolve().parents[2]
FOLDER = Path(__file__).resolve().parent / "golden"

# The commands that make what the others use, in their order.
SETTING = (
    "new demo",
    "simulate demo peak -o demo/record.csv",
    "simulate demo peak --exits -o demo/record.blocks",
)

# Name of the file in the folder golden, the command, and its exit status.
COMMANDS: dict[str, tuple[str, int]] = {
    "new": ("new another", 0),
    "lint": ("lint demo", 0),
    "simulate": ("simulate demo peak -o peak.csv", 0),
    "simulate_open": ("simulate demo open --exits -o open.blocks", 0),
    "simulate_not_valid": ("simulate demo tight", 2),
    "check": ("check demo demo/record.csv", 0),
    "check_refused": ("check demo wrong.csv", 2),
    "convert": ("convert demo demo/record.blocks -o converted.csv", 0),
    "normal": ("normal demo peak -o normal.blocks", 0),
    "normal_refused": ("normal demo tight", 2),
    "compare_same": ("compare demo:peak revised", 0),
    "compare_different": ("compare demo:open demo/plan-peak.csv", 1),
    "compare_not_valid": ("compare demo:peak tight", 1),
    "compare_inserted": ("compare demo:peak inserted:peak", 4),
    "plot": ("plot demo peak -o peak.svg", 0),
    "plot_not_valid": ("plot demo tight --map queue -o tight.png", 2),
    "plot_different": ("plot demo open peak --map speed --from 07:00 --until 08:45 --links 1250..1480 -o speed.svg", 1),
    "plot_inserted": ("plot demo peak inserted:peak --map flow -o inserted.svg", 4),
    "report": ("report demo peak -o peak.html", 0),
    "report_same": ("report demo peak revised -o revised.html", 0),
    "search": ("search demo demo/record.csv --at 07:20 --ramp 1380", 0),
    "search_held": ("search demo demo/record.csv --at 07:20 --ramp 1350", 0),
    "explain": ("explain 12", 0),
    "explain_answer": ("explain 44370188 --project demo", 0),
    "pack": ("pack demo --into packed --record demo/record.csv", 0),
    "unpack": (
        "unpack packed/corridor.blocks packed/demands.blocks packed/plan-peak.blocks --into again --like demo",
        0,
    ),
    "faulty": ("simulate faulty peak", 3),
    "usage": ("simulate demo nowhere", 64),
}
WITH_JSON = (
    "new",
    "lint",
    "simulate_not_valid",
    "check",
    "check_refused",
    "convert",
    "normal",
    "compare_same",
    "compare_different",
    "compare_inserted",
    "plot_not_valid",
    "report_same",
    "search",
    "explain_answer",
    "pack",
    "unpack",
    "faulty",
)
HELP = (
    "new",
    "lint",
    "simulate",
    "check",
    "convert",
    "normal",
    "compare",
    "plot",
    "report",
    "search",
    "explain",
    "pack",
    "unpack",
)


def run(folder: Path, arguments: list[str], program: list[str] | None = None) -> subprocess.CompletedProcess[str]:
    """Runs the command in a folder, as the sources have it or as this program."""
    here = [sys.executable, "-c", "from gigorchid.commands import main; main()"]
    kept = {name: value for name, value in os.environ.items() if name in ("PATH", "GIGORCHID_LIBRARY")}
    variables = kept | {"PYTHONPATH": str(ROOT / "python"), "PYTHONDONTWRITEBYTECODE": "1", "LC_ALL": "C.UTF-8"}
    return subprocess.run(
        [*(program or here), *arguments], cwd=folder, env=variables, capture_output=True, text=True, encoding="utf-8"
    )


def prepare(folder: Path) -> None:
    """Makes the starter project and its records, and from it a faulty one, one with a link inserted, and a wrong record."""
    for command in SETTING:
        done = run(folder, command.split())
        if done.returncode != 0:
            raise RuntimeError(f"{command}: {done.stderr}")
    corridor = (folder / "demo" / "corridor.csv").read_text()
    inserted = corridor.replace(
        "1430,San Pablo Dam,850,", "1400,Solano,400,8000,105,20,476,,,46,,,\n1430,San Pablo Dam,450,"
    )
    faulty = corridor.replace("1140,University,1000,8600,", "1140,University,1000,86OO,")
    for name, text in (("inserted", inserted), ("faulty", faulty)):
        (folder / name).mkdir()
        for file in (folder / "demo").iterdir():
            (folder / name / file.name).write_bytes(file.read_bytes())
        (folder / name / "corridor.csv").write_text(text)
    record = (folder / "demo" / "record.csv").read_text()
    first, rest = record.split("\n1,1380,", 1)
    vehicles, rest = rest.split(",", 1)
    (folder / "wrong.csv").write_text(f"{first}\n1,1380,{int(vehicles) + 1},{rest}")


def transcript(folder: Path, arguments: list[str]) -> str:
    """What a person sees: the command, what it prints, and its exit status."""
    done = run(folder, arguments)
    parts = [f"$ gigorchid {' '.join(arguments)}\n{done.stdout}"]
    parts += [f"standard error:\n{done.stderr}"] if done.stderr else []
    return "".join([*parts, f"exit status {done.returncode}\n"])


def all_transcripts(folder: Path) -> dict[str, str]:
    """Every command, with --json where it is shown, and every help text, by the name of its file."""
    found = {"help": transcript(folder, ["--help"])}
    found |= {f"help_{name}": transcript(folder, [name, "--help"]) for name in HELP}
    for name, (command, _) in COMMANDS.items():
        found[name] = transcript(folder, command.split())
        if name in WITH_JSON:
            again = command.replace("new another", "new third").replace("--into again", "--into fourth")
            found[f"{name}_json"] = transcript(folder, [*again.split(), "--json"])
    return found


def write() -> None:
    """Writes the folder golden anew; what changed is for a person to read."""
    FOLDER.mkdir(exist_ok=True)
    for file in FOLDER.iterdir():
        file.unlink()
    with tempfile.TemporaryDirectory() as folder:
        prepare(Path(folder))
        for name, text in all_transcripts(Path(folder)).items():
            (FOLDER / f"{name}.txt").write_text(text)


if __name__ == "__main__":
    write()
