"""Every command on the starter project: what it prints is what the folder golden has, to the letter, and its exit status is as listed."""

from __future__ import annotations

import json
import os
import subprocess
import sys
from pathlib import Path

import pytest

import golden
from gigorchid.commands import COMMANDS


@pytest.fixture(scope="module")
def transcripts(tmp_path_factory: pytest.TempPathFactory) -> dict[str, str]:
    folder = tmp_path_factory.mktemp("commands")
    golden.prepare(folder)
    return golden.all_transcripts(folder)


def names() -> list[str]:
    return sorted(file.stem for file in golden.FOLDER.iterdir())


def test_every_command_is_among_the_golden_outputs() -> None:
    assert golden.HELP == tuple(COMMANDS)
    assert {command.split()[0] for command, _ in golden.COMMANDS.values()} == set(COMMANDS)
    assert {golden.COMMANDS[name][0].split()[0] for name in golden.WITH_JSON} == set(COMMANDS)


def test_the_golden_outputs_are_those_of_the_commands(transcripts: dict[str, str]) -> None:
    assert names() == sorted(transcripts)


@pytest.mark.parametrize("name", names())
def test_prints_what_it_printed(transcripts: dict[str, str], name: str) -> None:
    assert transcripts[name] == (golden.FOLDER / f"{name}.txt").read_text()


@pytest.mark.parametrize("name", golden.COMMANDS)
def test_ends_with_its_status(transcripts: dict[str, str], name: str) -> None:
    assert transcripts[name].endswith(f"exit status {golden.COMMANDS[name][1]}\n")


@pytest.mark.parametrize("name", golden.WITH_JSON)
def test_json_is_one_object_with_the_status(transcripts: dict[str, str], name: str) -> None:
    text = transcripts[f"{name}_json"].partition("\n")[2].rpartition("exit status ")[0]
    data = json.loads(text)
    command, status = golden.COMMANDS[name]
    assert (data["command"], data["status"]) == (command.split()[0], status)


def test_what_goes_to_standard_output_can_be_read_again(tmp_path: Path) -> None:
    """A table on standard output is the file's, and the verdict stands on standard error."""
    golden.prepare(tmp_path)
    shown = golden.run(tmp_path, "simulate demo peak -o -".split())
    assert shown.stdout == (tmp_path / "demo" / "record.csv").read_text()
    assert "VALID" in shown.stderr and shown.returncode == 0


def test_json_and_a_table_do_not_share_standard_output(tmp_path: Path) -> None:
    golden.prepare(tmp_path)
    done = golden.run(tmp_path, "normal demo peak --json -o -".split())
    assert (done.returncode, done.stderr) == (64, "")
    assert json.loads(done.stdout)["error"] == "--json and -o - both want standard output"


@pytest.fixture(scope="module")
def prepared(tmp_path_factory: pytest.TempPathFactory) -> Path:
    folder = tmp_path_factory.mktemp("prepared")
    golden.prepare(folder)
    return folder


def shell(folder: Path, line: str, **variables: str) -> subprocess.CompletedProcess[str]:
    """Runs a line of bash in which `gigorchid` is the command of the sources."""
    known = {"PATH": os.environ["PATH"], "PYTHONPATH": str(golden.ROOT / "python"), "PYTHONDONTWRITEBYTECODE": "1"}
    program = f"gigorchid() {{ {sys.executable} -c 'from gigorchid.commands import main; main()' \"$@\"; }}; {line}"
    return subprocess.run(["bash", "-c", program], cwd=folder, env=known | variables, capture_output=True, text=True)


def test_a_reader_that_goes_away_ends_the_command_as_any_other(prepared: Path) -> None:
    done = shell(prepared, "gigorchid simulate demo peak -o - | head -n 1; echo ${PIPESTATUS[0]}")
    assert done.stdout.splitlines()[-1] == "141"
    assert done.stdout.startswith("state,id,") and "Traceback" not in done.stderr


@pytest.mark.parametrize("arguments", ["simulate demo peak -o -", "simulate demo peak", "lint demo --json"])
def test_standard_output_that_takes_nothing_is_told(prepared: Path, arguments: str) -> None:
    done = shell(prepared, f"gigorchid {arguments} > /dev/full")
    assert (done.returncode, done.stderr.count("Traceback")) == (64, 0)
    assert "standard output cannot be written: No space left on device" in done.stderr


def test_standard_output_that_is_closed_is_told_by_the_status(prepared: Path) -> None:
    assert shell(prepared, "gigorchid simulate demo peak >&-").returncode == 64


def test_a_locale_without_the_letters_is_no_failure(prepared: Path) -> None:
    text = (prepared / "demo" / "corridor.csv").read_text().replace("Powell", "Straße")
    (prepared / "letters").mkdir()
    for file in (prepared / "demo").glob("*.*"):
        (prepared / "letters" / file.name).write_bytes(file.read_bytes())
    (prepared / "letters" / "corridor.csv").write_text(text)
    done = shell(prepared, "gigorchid simulate letters peak", PYTHONIOENCODING="ascii")
    assert done.returncode == 0 and "Stra?e (1020)" in done.stdout
    table = shell(prepared, "gigorchid simulate letters peak -o - | grep -c Straße", PYTHONIOENCODING="ascii")
    assert table.stdout == "1081\n"


@pytest.mark.parametrize("name", ["corridor.csv", "project.toml", "plan-open.csv", "arrivals.csv"])
def test_no_file_of_the_project_is_written_over(prepared: Path, name: str) -> None:
    before = (prepared / "demo" / name).read_bytes()
    done = golden.run(prepared, ["simulate", "demo", "peak", "-o", f"demo/{name}"])
    assert done.returncode == 64 and (prepared / "demo" / name).read_bytes() == before


def test_a_file_that_cannot_be_written_whole_stays_as_it_was(prepared: Path) -> None:
    (prepared / "kept.csv").write_text("kept")
    done = shell(prepared, "ulimit -f 8; gigorchid simulate demo peak -o kept.csv")
    assert done.returncode != 0 and (prepared / "kept.csv").read_text() == "kept"


@pytest.mark.parametrize(
    "command", ["simulate demo outside.csv", "normal demo outside.csv", "compare demo:peak outside.csv"]
)
def test_rows_of_a_plan_that_say_nothing_are_told(prepared: Path, command: str) -> None:
    (prepared / "outside.csv").write_text("id,from,until,rate_vph,limit_kmh\n1380,4:30,5:15,100,\n")
    done = golden.run(prepared, command.split())
    assert "warning: outside.csv:2: this row says nothing of the steps from 06:00:00 to 09:00:00\n" in done.stdout


def test_a_place_that_the_project_does_not_have_is_not_explained(prepared: Path) -> None:
    for place in ("--row 1080 --node 1", "--row 0 --node 14"):
        assert golden.run(prepared, f"explain 12 {place} --project demo".split()).returncode == 64
    assert golden.run(prepared, "explain 12 --row 1079 --node 13 --project demo".split()).returncode == 0


def test_unpack_tells_which_file_is_wanted_and_which_is_damaged(prepared: Path) -> None:
    assert golden.run(prepared, "pack demo --into blocks".split()).returncode == 0
    forgotten = golden.run(prepared, "unpack blocks/demands.blocks --into tables --step 10".split())
    assert forgotten.returncode == 64
    assert "no files of the corridor among blocks/demands.blocks (demands): one is wanted" in forgotten.stderr
    content = bytearray((prepared / "blocks" / "corridor.blocks").read_bytes())
    content[0] = 7
    (prepared / "blocks" / "corridor.blocks").write_bytes(content)
    damaged = golden.run(
        prepared, "unpack blocks/corridor.blocks blocks/demands.blocks --into tables --step 10".split()
    )
    assert damaged.returncode == 2 and damaged.stderr.startswith("blocks/corridor.blocks: ")


def test_unpack_takes_names_only_from_a_project_that_knows_the_nodes(prepared: Path) -> None:
    files = [str(golden.ROOT / "examples" / "b" / name) for name in ("corridor.blocks", "demands.blocks")]
    done = golden.run(prepared, ["unpack", *files, "--into", "b", "--like", "demo"])
    assert done.returncode == 64 and "none of these identifiers" in done.stderr


@pytest.mark.parametrize(("options", "start"), [("", "06:00:00"), ("--start 22:30", "22:30:00")])
def test_unpack_takes_the_start_that_is_told(prepared: Path, options: str, start: str) -> None:
    """It stands in no block file, and is that of the project it is like where nothing else is told."""
    folder = f"from{start[:2]}"
    assert golden.run(prepared, f"pack demo --into {folder}-blocks".split()).returncode == 0
    files = f"{folder}-blocks/corridor.blocks {folder}-blocks/demands.blocks"
    assert golden.run(prepared, f"unpack {files} --into {folder} --like demo {options}".split()).returncode == 0
    assert f'start = "{start}"\n' in (prepared / folder / "project.toml").read_text()


@pytest.mark.parametrize("time", ["07:20:05", "05:59:50", "09:00", "7.20"])
def test_a_search_is_for_a_time_at_which_a_step_starts(prepared: Path, time: str) -> None:
    done = golden.run(prepared, f"search demo demo/record.csv --at {time} --ramp 1380".split())
    assert done.returncode == 64 and f"--at {time}: " in done.stderr


def test_a_plan_in_the_place_of_a_project_is_told(tmp_path: Path) -> None:
    golden.prepare(tmp_path)
    for command in ("plot", "report", "simulate"):
        output = [] if command == "simulate" else ["-o", f"x.{'svg' if command == 'plot' else 'html'}"]
        done = golden.run(tmp_path, [command, "demo/plan-peak.csv", "peak", *output])
        assert done.returncode == 64
        assert "demo/plan-peak.csv: expected a project, a folder with a project.toml" in done.stderr
