"""Every refusal through the tool: its number and place, the cells that are named, and a sentence with the names, times
and figures of the tables."""

import csv
import re
from collections.abc import Callable
from fractions import Fraction
from math import floor
from typing import Any, NamedTuple

import numpy as np
import pytest
from conftest import HEADER
from projects import (
    FIRST_RATE,
    HEADINGS,
    MILL_ROAD,
    VALLEY,
    B,
    Edit,
    Files,
    answer,
    block_file,
    block_words,
    changed,
    file_of,
    folder_of,
    run,
    seal,
)

REFUSED = 2
TEXTS = {int(number): text for number, text in re.findall(r'ENTRY\(GIGORCHID_\w+, (\d+), "(.*)"\)', HEADER)}

Cells = list[tuple[str, int | None, str | None, str]]
"""File, line and column, and what stands there."""


class Case(NamedTuple):
    """A project or a record that is refused: the changes to it, number, row and node, the cells, and the sentence."""

    number: int
    row: int
    node: int
    edits: list[Edit]
    cells: Cells
    told: str
    base: Files = VALLEY
    command: tuple[str, ...] = ("simulate", ".", "open")


# ---- refusals 1 to 4: the corridor ----


def mill_road(number: int, told: str, named: str = "", **figures: str) -> Case:
    """A case of the row of Mill Road, in which some figures are others; the cells named are those, or `named`."""
    row = [figures.get(column, cell) for column, cell in zip(HEADINGS, MILL_ROAD.split(","))]
    cells: Cells = [("corridor.csv", 3, column, figures[column]) for column in (named.split() or figures)]
    return Case(number, 0, 1, [("corridor.csv", MILL_ROAD, ",".join(row))], cells, told)


def row_of(number: int, node: int, old: str, new: str, column: str, text: str, told: str) -> Case:
    """A case of another row of the corridor."""
    return Case(number, 0, node, [("corridor.csv", old, new)], [("corridor.csv", node + 2, column, text)], told)


ENTRY = "10,Entry,,,,,,4500,none,,10,,"
HARBOUR = "40,Harbour,500,4500,90,18,200,,,11,,,"
FAST = r"{} km/h on the link to Mill Road \(20\).*more than a section per step: take steps of at most {} s or .*{} m"
LINKS = {
    "capacity": mill_road(
        2, r"400000 veh/h on the link to Mill Road \(20\).*1,111\.1 vehicles.*1,024", capacity_vph="400000"
    ),
    "free speed": mill_road(2, FAST.format("200", "9", "556"), free_speed_kmh="200"),
    "wave speed": mill_road(2, FAST.format("225", "8", "625"), wave_speed_kmh="225"),
    "no free speed": mill_road(2, r"0 km/h on the link to Mill Road \(20\)", free_speed_kmh="0"),
    "no wave speed": mill_road(2, r"0 km/h on the link to Mill Road \(20\)", wave_speed_kmh="0"),
    "jam": mill_road(2, r"3000 veh/km on the link to Mill Road \(20\).*1,500 vehicles.*1,024", jam_density_vpkm="3000"),
    "no jam": mill_road(
        2,
        r"0 veh/km on the link to Mill Road \(20\)",
        "jam_density_vpkm",
        jam_density_vpkm="0",
        start_vehicles_veh="0",
    ),
    "dropped capacity": Case(
        2,
        0,
        2,
        [("corridor.csv", "3600,60", "5400,60")],
        [("corridor.csv", 4, "dropped_capacity_vph", "5400"), ("corridor.csv", 4, "capacity_vph", "4500")],
        r"dropped capacity 5400 veh/h on the link to Bridge \(30\) is above its capacity",
    ),
    "drop density": Case(
        2,
        0,
        2,
        [("corridor.csv", "3600,60", "3600,250")],
        [("corridor.csv", 4, "drop_density_vpkm", "250"), ("corridor.csv", 4, "jam_density_vpkm", "200")],
        r"drop density 250 veh/km on the link to Bridge \(30\) is above its jam",
    ),
    "a link at the entry": row_of(
        2,
        0,
        ENTRY,
        ENTRY.replace("Entry,,", "Entry,,4500"),
        "capacity_vph",
        "4500",
        r"4500 veh/h at Entry \(10\).*the entry.*no link.*blank",
    ),
}
RAMPS = {
    "identifier 0": row_of(3, 2, "30,Bridge", "0,Bridge", "id", "0", r"identifier is 0"),
    "a repeated identifier": row_of(3, 2, "30,Bridge", "20,Bridge", "id", "20", r"identifier 20 is that of line 3"),
    "ramp capacity": mill_road(
        3, r"400000 veh/h at Mill Road \(20\).*1,111\.1 vehicles.*1,024", ramp_capacity_vph="400000"
    ),
    "queue limit": mill_road(3, r"3000000 veh at Mill Road \(20\).*2,097,152.*none", queue_limit_veh="3000000"),
    "a ramp at the end": Case(
        3,
        0,
        3,
        [("corridor.csv", HARBOUR, HARBOUR.replace("200,,", "200,900,5"))],
        [("corridor.csv", 5, "ramp_capacity_vph", "900"), ("corridor.csv", 5, "queue_limit_veh", "5")],
        r"900 veh/h at Harbour \(40\).*end.*no ramp.*blank",
    ),
}
STARTS = {
    "vehicles": mill_road(4, r"link to Mill Road \(20\) starts with 101 vehicles.* 100$", start_vehicles_veh="101"),
    "one unit too many": mill_road(4, r"starts with 100\.02 vehicles.* 100$", start_vehicles_veh="100.02"),
    "queue": mill_road(4, r"queue of Mill Road \(20\) starts with 26 vehicles.* 25$", start_queue_veh="26"),
    "vehicles at the entry": row_of(
        4,
        0,
        ENTRY,
        ENTRY.replace("none,,", "none,3,"),
        "start_vehicles_veh",
        "3",
        r"3 vehicles at Entry \(10\).*no link ends",
    ),
    "a queue at the end": row_of(
        4,
        3,
        HARBOUR,
        HARBOUR.replace("11,,", "11,3,"),
        "start_queue_veh",
        "3",
        r"queue of 3 vehicles at Harbour \(40\).*no ramp",
    ),
}
NAMELESS = {
    "a node without a name": Case(
        2,
        0,
        1,
        [("corridor.csv", MILL_ROAD, "20,,500,400000,90,18,200,900,25,20,2,,")],
        [("corridor.csv", 3, "capacity_vph", "400000")],
        r"400000 veh/h on the link to 20:",
    ),
    "exact units": Case(
        3,
        0,
        1,
        [("corridor.csv", "ramp_capacity_vph", "ramp_capacity_units"), ("corridor.csv", "200,900", "200,65537")],
        [("corridor.csv", 3, "ramp_capacity_units", "65537")],
        r"65537 units at Mill Road \(20\)",
    ),
}

# ---- refusal 1: sizes ----


def rows_of_nodes(count: int) -> Files:
    """A corridor of so many nodes alike, without plans."""
    columns = (
        "id,capacity_units,free_speed_units,wave_speed_units,jam_density_units,ramp_capacity_units,queue_limit_units"
    )
    rows = ["1,,,,,10,10", *(f"{number},10,10,10,10,," for number in range(2, count + 1))]
    return {
        "project.toml": 'start = "07:00"\nstep_s = 10\nsteps = 6\n'
        '[files]\ncorridor = "corridor.csv"\narrivals = "arrivals.csv"\n[plans]\nopen = "open.csv"\n',
        "corridor.csv": "\n".join([columns, *rows]) + "\n",
        "arrivals.csv": "from\n07:00\n",
        "open.csv": "id,from,until\n",
    }


SIZES = {
    f"{steps} steps": Case(
        1,
        0,
        0,
        [("project.toml", "steps = 6", f"steps = {steps}")],
        [("project.toml", 4, "steps", str(steps))],
        rf"{steps:,} steps.* 1 to 1,440",
    )
    for steps in (0, 1441, 2000)
}
SIZES |= {
    f"{count - 1} links": Case(
        1, 0, 0, [], [("corridor.csv", count + 1, None, "")], rf"{count - 1} links.* 1 to 64", rows_of_nodes(count)
    )
    for count in (1, 66)
}

# ---- refusal 5: demands ----


def demand(row: int, node: int, file: str, old: str, new: str, line: int, column: str, text: str, told: str) -> Case:
    return Case(5, row, node, [(file, old, new)], [(file, line, column, text)], told)


OVER = r"at 07:00:{} .*{}: {} .*65,536"
DEMANDS = {
    "arrivals": demand(
        3,
        1,
        "arrivals.csv",
        "720",
        "400000",
        3,
        "20_vph",
        "400000",
        OVER.format("30", r"Mill Road \(20\)", "400000 veh/h"),
    ),
    "a split above 100 %": demand(
        2, 1, "splits.csv", ",25", ",101", 3, "20_pct", "101", OVER.format("20", r"Mill Road \(20\)", "101 %")
    ),
    "downstream": demand(
        3,
        3,
        "downstream.csv",
        "3150",
        "400000",
        3,
        "40_vph",
        "400000",
        OVER.format("30", r"Harbour \(40\)", "400000 veh/h"),
    ),
    "a split at the entry": demand(
        0, 0, "splits.csv", "20_pct", "10_pct", 2, "10_pct", "12.5", r"at 07:00:00 .*Entry \(10\): 12\.5 %.*entry"
    ),
    "a split at the end": demand(
        0,
        3,
        "splits.csv",
        "20_pct",
        "40_pct",
        2,
        "40_pct",
        "12.5",
        r"at 07:00:00 .*Harbour \(40\): 12\.5 %.*no off-ramp",
    ),
    "arrivals at the end": demand(
        0,
        3,
        "arrivals.csv",
        "20_vph",
        "40_vph",
        2,
        "40_vph",
        "540",
        r"at 07:00:00 .*Harbour \(40\): 540 veh/h.*no ramp",
    ),
    "a row from before the start": demand(
        0,
        1,
        "splits.csv",
        "07:00,12.5",
        "06:00,150",
        2,
        "20_pct",
        "150",
        OVER.format("00", r"Mill Road \(20\)", "150 %"),
    ),
}

# ---- refusal 6: a plan's bounds ----

METERED = ("simulate", ".", "metered")


def bounds(row: int, node: int, edits: list[tuple[str, str]], line: int, column: str, text: str, told: str) -> Case:
    changes = [("plan-metered.csv", *edit) for edit in edits]
    return Case(6, row, node, changes, [("plan-metered.csv", line, column, text)], told, VALLEY, METERED)


# The units of the setting do not stand behind the figure that it is above, as if they were that one's.
NOT_ITS = r"(?! \((192|161|32,768) units)"
BOUNDS = {
    "a rate": bounds(
        2,
        1,
        [("360", "1080")],
        3,
        "rate_vph",
        "1080",
        r"at 07:00:20 .*Mill Road \(20\).* 1,080 veh/h.* 900 veh/h" + NOT_ITS,
    ),
    "a rate of one unit too many": bounds(
        2,
        1,
        [("rate_vph", "rate_units"), ("450", "80"), ("360", "161")],
        3,
        "rate_units",
        "161",
        r"at 07:00:20 .*Mill Road \(20\).* 905\.6 veh/h.* 900 veh/h" + NOT_ITS,
    ),
    "a limit": bounds(
        3, 2, [("72", "108")], 4, "limit_kmh", "108", r"at 07:00:30 .*Bridge \(30\).* 108 km/h.* 90 km/h" + NOT_ITS
    ),
    "a limit in miles": bounds(
        3,
        2,
        [("limit_kmh", "limit_mph"), ("72", "60")],
        4,
        "limit_mph",
        "60",
        r"at 07:00:30 .*Bridge \(30\).* 60 m(ph|i/h)",
    ),
    "a limit at the entry": bounds(
        1,
        0,
        [("limit_kmh", "limit_units"), (FIRST_RATE, "10,07:00:10,07:00:20,450,1")],
        2,
        "limit_units",
        "1",
        r"at 07:00:10 .*Entry \(10\).*entry.*no link",
    ),
    "a rate at the end": bounds(
        1,
        3,
        [(FIRST_RATE, "40,07:00:10,07:00:20,450,")],
        2,
        "rate_vph",
        "450",
        r"at 07:00:10 a rate at Harbour \(40\): it has no on-ramp",
    ),
}

# ---- refusals 7 to 13: corridor B's record ----

CHECK = ("check", ".", "record.csv")
COLUMNS = ("vehicles_units", "queue_units", "flow_units", "ramp_flow_units", "exit_flow_units")
ROWS = [(state, identifier) for state in (0, 1) for identifier in (10, 20, 30)]


def record_row(file: str, state: int, identifier: int) -> list[str]:
    """The words of a state and node of corridor B."""
    lines = str(B[file]).splitlines()
    return lines[1 + ROWS.index((state, identifier))].split(",")[2:]


def proposed(
    number: int, state: int, identifier: int, words: str, named: str, told: str, file: str = "record.csv", at: int = -1
) -> Case:
    """A case of one row of corridor B's record with other words; `at` is the refusal's row where that is another."""
    old, new = record_row(file, state, identifier), words.split(",")
    start, line = f"{state},{identifier},", 2 + ROWS.index((state, identifier))
    cells: Cells = [(file, line, column, new[COLUMNS.index(column)]) for column in named.split()]
    edit = (file, start + ",".join(old), start + ",".join([*new, old[-1]]))
    row = state if at < 0 else at
    return Case(number, row, identifier // 10 - 1, [edit], cells, told, B, ("check", ".", file))


FIXED = r"at 07:30:{} .*{}\b.* {} units.*fixed at zero"
RECORDS = {
    "7: start vehicles": proposed(
        7, 0, 20, "201,50,80,40", "vehicles_units", r"at 07:30:00 .*vehicles.*Mill Road \(20\).* 201 units.* 200$"
    ),
    "7: start queue": proposed(
        7, 0, 20, "200,51,80,40", "queue_units", r"at 07:30:00 .*queue of Mill Road \(20\).* 51 units.* 50$"
    ),
    "7: a flow at the entry": proposed(7, 0, 10, "0,0,1,0", "flow_units", FIXED.format("00", "Entry", 1)),
    "7: vehicles at the entry": proposed(7, 1, 10, "2,30,0,0", "vehicles_units", FIXED.format("10", "Entry", 2)),
    "7: a ramp flow at the end": proposed(7, 0, 30, "200,0,100,3", "ramp_flow_units", FIXED.format("00", "Harbour", 3)),
    "7: a queue at the end": proposed(7, 1, 30, "200,4,0,0", "queue_units", FIXED.format("10", "Harbour", 4)),
    "7: a flow in the last state": proposed(7, 1, 20, "120,20,5,0", "flow_units", FIXED.format("10", "Mill Road", 5)),
    "7: a ramp flow in the last state": proposed(
        7, 1, 20, "120,20,0,6", "ramp_flow_units", FIXED.format("10", "Mill Road", 6)
    ),
    "7: an exit at the end": proposed(
        7, 0, 30, "200,0,100,0,1", "exit_flow_units", FIXED.format("00", "Harbour", 1), "exits.csv"
    ),
    "7: an exit in the last state": proposed(
        7, 1, 20, "120,20,0,0,7", "exit_flow_units", FIXED.format("10", "Mill Road", 7), "exits.csv"
    ),
    "8": proposed(
        8,
        0,
        20,
        "200,50,101,40",
        "flow_units",
        r"at 07:30:00 101 units \(568\.1 veh/h\).*Mill Road \(20\).* 3\.1 vehicles",
    ),
    "9": proposed(
        9,
        0,
        20,
        "200,50,100,26",
        "flow_units ramp_flow_units",
        r"at 07:30:00 100 units \(562\.5 veh/h\).* 26 units \(146\.3 veh/h\).*Mill Road \(20\)",
    ),
    "10": proposed(
        10,
        0,
        20,
        "200,50,0,51",
        "ramp_flow_units",
        r"at 07:30:00 51 units \(286\.9 veh/h\).*Mill Road \(20\).* 50 units",
    ),
    "11: vehicles": proposed(
        11, 1, 20, "121,20,0,0", "vehicles_units", r"at 07:30:10 .*vehicles.*Mill Road \(20\).*\b121\b.*07:30:00", at=0
    ),
    "11: a queue": proposed(
        11, 1, 20, "120,21,0,0", "queue_units", r"at 07:30:10 .*queue.*Mill Road \(20\).*\b21\b.*07:30:00", at=0
    ),
    "11: the queue of the entry": proposed(
        11, 1, 10, "0,31,0,0", "queue_units", r"at 07:30:10 .*queue.*Entry \(10\).*\b31\b.*07:30:00", at=0
    ),
    "11: vehicles of the last link": proposed(
        11, 1, 30, "201,0,0,0", "vehicles_units", r"at 07:30:10 .*vehicles.*Harbour \(30\).*\b201\b.*07:30:00", at=0
    ),
    "11: an exit too many": proposed(
        11, 0, 20, "200,50,80,40,21", "exit_flow_units", r"at 07:30:00 .*exit.*Mill Road \(20\).*\b21\b", "exits.csv"
    ),
    "11: an exit too few": proposed(
        11, 0, 20, "200,50,80,40,19", "exit_flow_units", r"at 07:30:00 .*exit.*Mill Road \(20\).*\b19\b", "exits.csv"
    ),
    "13": Case(
        13,
        0,
        0,
        [("record.csv", "370", "371")],
        [("record.csv", 7, "cost_units", "371")],
        r"cost is 371.* accepts 370$",
        B,
        CHECK,
    ),
}

BEHIND: Files = changed(B, ("project.toml", "\n\n[plans]", '\ndownstream = "downstream.csv"\n\n[plans]'))
BEHIND["downstream.csv"] = "from,30_vph\n07:30,393.75\n"
LONG_QUEUE = [("corridor.csv", "337.5,3.125,3.125,0.78125", "843.75,3.125,3.125,2.34375")]
ROADS = {
    "9: more than may leave downstream": Case(
        9,
        0,
        2,
        [("record.csv", "0,30,200,0,100", "0,30,200,0,71"), ("record.csv", "1,30,200,0,0,0,370", "1,30,229,0,0,0,399")],
        [("record.csv", 4, "flow_units", "71")],
        r"at 07:30:00 71 units \(399\.4 veh/h\).*last link.*downstream",
        BEHIND,
        CHECK,
    ),
    "9: the ramp alone": Case(
        9,
        0,
        1,
        [*LONG_QUEUE, ("record.csv", "0,20,200,50,80,40", "0,20,200,150,0,101")],
        [("record.csv", 3, "ramp_flow_units", "101")],
        r"at 07:30:00 .* 101 units \(568\.1 veh/h\).*Mill Road \(20\)",
        B,
        CHECK,
    ),
    "10: more than the ramp's capacity": Case(
        10,
        0,
        1,
        [
            ("corridor.csv", "3.125,3.125,0.78125", "3.125,3.125,1.5625"),
            ("record.csv", "0,20,200,50,80,40", "0,20,200,100,0,61"),
        ],
        [("record.csv", 3, "ramp_flow_units", "61")],
        r"at 07:30:00 61 units \(343\.1 veh/h\).*Mill Road \(20\).* 60\b",
        B,
        CHECK,
    ),
    "12: a record": Case(
        12,
        0,
        1,
        [
            ("corridor.csv", "337.5,3.125,3.125", "337.5,0.78125,3.125"),
            ("arrivals.csv", "56.25", "337.5"),
            ("record.csv", "80,40", "80,0"),
            ("record.csv", "1,20,120,20", "1,20,120,110"),
            ("record.csv", "1,30,200,0,0,0,370", "1,30,160,0,0,0,420"),
        ],
        [("record.csv", 6, "queue_units", "110")],
        r"at 07:30:10 the queue of Mill Road \(20\) reaches 1\.7 vehicles, and its limit is 0\.8",
        B,
        CHECK,
    ),
}

GROUPS = {
    "1": SIZES,
    "2": LINKS,
    "3": RAMPS,
    "4": STARTS,
    "5": DEMANDS,
    "6": BOUNDS,
    "names and units": NAMELESS,
    "records": RECORDS,
    "roads": ROADS,
}
CASES = {f"{group}: {name}": case for group, cases in GROUPS.items() for name, case in cases.items()}


def refusal_of(files: Files, command: tuple[str, ...]) -> tuple[dict[str, Any], str]:
    """What a command refuses, as an object and as it is printed."""
    with folder_of(files) as folder:
        data = answer(folder, *command)
        status, printed = run(folder, *command)
    assert (data["status"], status) == (REFUSED, REFUSED), printed
    refusal: dict[str, Any] = data["refusal"]
    return refusal, printed


def cells_of(refusal: dict[str, Any]) -> Cells:
    return [(cell["file"], cell["line"], cell["column"], cell["text"]) for cell in refusal["cells"]]


@pytest.mark.parametrize("case", CASES.values(), ids=CASES)
def test_a_refusal_is_told_at_its_cells(case: Case) -> None:
    refusal, printed = refusal_of(changed(case.base, *case.edits), case.command)
    assert (refusal["refusal"], refusal["row"], refusal["node"]) == (case.number, case.row, case.node)
    assert cells_of(refusal) == case.cells
    assert re.search(case.told, refusal["told"])
    assert refusal["text"] == TEXTS[case.number] and f"gigorchid_{refusal['call']}(" in HEADER
    assert bool(refusal["rest"]) == (case.number == 12)
    file, line, _, _ = case.cells[0]
    assert f"{file}:{line}: {refusal['told']} [refusal {case.number}]\n" in printed


def test_the_records_are_accepted_without_a_change() -> None:
    with folder_of(B) as folder:
        assert [run(folder, "check", ".", file)[0] for file in ("record.csv", "exits.csv")] == [0, 0]
    with folder_of(VALLEY) as folder:
        assert [run(folder, "simulate", ".", plan)[0] for plan in ("open", "metered")] == [0, 0]


# ---- two faults at one node ----


def twice(number: int, edits: list[Edit], cells: Cells) -> Case:
    """A case of two faults at Mill Road, of which both cells are given."""
    base, command = (B, CHECK) if edits[0][0] == "record.csv" else (VALLEY, METERED)
    return Case(number, 0, 1, edits, cells, "", base, command)


def twice_in_a_row(number: int, row: str, **figures: str) -> Case:
    """A case of two faults in Mill Road's row of the corridor."""
    cells: Cells = [("corridor.csv", 3, column, figure) for column, figure in figures.items()]
    return twice(number, [("corridor.csv", MILL_ROAD, row)], cells)


TWICE = [
    twice_in_a_row(
        2, "20,Mill Road,500,400000,90,18,3000,900,25,20,2,,", capacity_vph="400000", jam_density_vpkm="3000"
    ),
    twice_in_a_row(
        3,
        "20,Mill Road,500,4500,90,18,200,400000,3000000,20,2,,",
        ramp_capacity_vph="400000",
        queue_limit_veh="3000000",
    ),
    twice_in_a_row(
        4, "20,Mill Road,500,4500,90,18,200,900,25,101,26,,", start_vehicles_veh="101", start_queue_veh="26"
    ),
    twice(
        5,
        [("arrivals.csv", "3600,540", "3600,400000"), ("splits.csv", "12.5", "150")],
        [("arrivals.csv", 2, "20_vph", "400000"), ("splits.csv", 2, "20_pct", "150")],
    ),
    twice(
        6,
        [("plan-metered.csv", "360,", "1080,108")],
        [("plan-metered.csv", 3, "rate_vph", "1080"), ("plan-metered.csv", 3, "limit_kmh", "108")],
    ),
    twice(
        7,
        [("record.csv", "0,20,200,50", "0,20,201,51")],
        [("record.csv", 3, "vehicles_units", "201"), ("record.csv", 3, "queue_units", "51")],
    ),
    twice(
        11,
        [("record.csv", "1,20,120,20", "1,20,121,21")],
        [("record.csv", 6, "vehicles_units", "121"), ("record.csv", 6, "queue_units", "21")],
    ),
]


@pytest.mark.parametrize("case", TWICE, ids=[str(case.number) for case in TWICE])
def test_two_faults_at_one_node(case: Case) -> None:
    """Both are named, or for 5 and 6 one of them; no other cell is; and the sentence speaks of the first."""
    refusal, _ = refusal_of(changed(case.base, *case.edits), case.command)
    named = cells_of(refusal)
    assert (refusal["refusal"], refusal["node"]) == (case.number, case.node)
    assert named and set(named) <= set(case.cells)
    assert case.number in (5, 6) or len(named) == 2
    figure = named[0][3]
    assert figure in refusal["told"] or f"{int(figure):,}" in refusal["told"]


# ---- figures that are alike ----


def test_a_limit_just_above_full_speed_is_told_apart_from_it() -> None:
    """55.92 miles per hour are 89.99 kilometres per hour, so a limit of 90 is too high: the figures must show it."""
    edits = [
        ("corridor.csv", "free_speed_kmh", "free_speed_mph"),
        ("corridor.csv", "30,Bridge,600,4500,90", "30,Bridge,600,4500,55.92"),
        ("plan-metered.csv", "72", "90"),
    ]
    refusal, _ = refusal_of(changed(VALLEY, *edits), METERED)
    assert (refusal["refusal"], cells_of(refusal)) == (6, [("plan-metered.csv", 4, "limit_kmh", "90")])
    limit, full = re.findall(r"([\d.]+) km/h", refusal["told"])
    assert Fraction(limit) > Fraction(full)


# ---- a later state of a record ----


def simulated(files: Files, plan: str, *options: str) -> list[dict[str, str]]:
    """The rows of the record of a plan, as `simulate` writes them."""
    with folder_of(files) as folder:
        run(folder, "simulate", ".", plan, "-o", "record.csv", *options)
        return list(csv.DictReader((folder / "record.csv").read_text().splitlines()))


def table(rows: list[dict[str, str]]) -> str:
    return "".join(",".join(row) + "\n" for row in [list(rows[0]), *(list(row.values()) for row in rows)])


LATER = {
    7: (6, 20, lambda row: {"flow_units": "1"}, "flow_units", "07:01:00"),
    8: (4, 30, lambda row: {"flow_units": "801"}, "flow_units", "07:00:40"),
    9: (2, 20, lambda row: {"ramp_flow_units": row(3) + 1}, "flow_units ramp_flow_units", "07:00:20"),
    10: (3, 20, lambda row: {"flow_units": 0, "ramp_flow_units": row(1) + 1}, "ramp_flow_units", "07:00:30"),
    11: (5, 30, lambda row: {"vehicles_units": row(0) + 1}, "vehicles_units", "07:00:50"),
}


@pytest.mark.parametrize("number", LATER)
@pytest.mark.parametrize("options", [(), ("--exits",)], ids=["kind 3", "kind 7"])
def test_a_refusal_of_a_later_state_names_its_row_and_time(number: int, options: tuple[str, ...]) -> None:
    state, identifier, change, columns, time = LATER[number]
    rows = simulated(VALLEY, "open", *options)
    place = 4 * state + identifier // 10 - 1
    row = rows[place]
    assert (row["state"], row["id"]) == (str(state), str(identifier))
    row |= {column: str(word) for column, word in change(lambda at: int(row[COLUMNS[at]])).items()}
    refusal, _ = refusal_of({**VALLEY, "record.csv": table(rows)}, CHECK)
    assert (refusal["refusal"], refusal["row"]) == (number, state - (number == 11))
    assert cells_of(refusal) == [("record.csv", place + 2, column, row[column]) for column in columns.split()]
    assert f"at {time} " in refusal["told"]


# ---- refusal 12 of a plan ----

TIGHT = [("corridor.csv", "200,900,25", "200,900,5"), ("plan-metered.csv", "360", "0")]
EARLY = [
    ("corridor.csv", "200,900,25", "200,900,3"),
    ("plan-metered.csv", "450", "0"),
    ("plan-metered.csv", "360", "0"),
]
SHORT = [*TIGHT, ("corridor.csv", "4500,none,,10", "4500,11,,10")]
LABELS = {"10": "Entry (10)", "20": "Mill Road (20)"}


def long_queues(rows: list[dict[str, str]], limits: dict[str, int]) -> dict[str, list[tuple[int, int]]]:
    """The states in which the queue of a ramp is above its limit, with the queue, as the record has them."""
    found: dict[str, list[tuple[int, int]]] = {}
    for row in rows:
        if int(row["queue_units"]) > limits.get(row["id"], 2**32):
            found.setdefault(row["id"], []).append((int(row["state"]), int(row["queue_units"])))
    return found


def vehicles(units: int) -> str:
    """To one decimal, halves up, without a zero at the end."""
    tenths = floor(Fraction(units, 64) * 10 + Fraction(1, 2))
    return f"{tenths // 10}.{tenths % 10}".removesuffix(".0")


def time(state: int) -> str:
    return f"07:{state // 6:02d}:{10 * state % 60:02d}"


@pytest.mark.parametrize("command", ["simulate", "normal"])
@pytest.mark.parametrize(
    "edits, limits, cell",
    [
        (EARLY, {"20": 192}, ("plan-metered.csv", 2, "rate_vph", "0")),
        (TIGHT, {"20": 320}, ("plan-metered.csv", 3, "rate_vph", "0")),
        (SHORT, {"10": 704, "20": 320}, ("corridor.csv", 2, "queue_limit_veh", "11")),
    ],
    ids=["the first row", "the row in force", "no row: the limit itself"],
)
def test_a_plan_with_a_long_queue(command: str, edits: list[Edit], limits: dict[str, int], cell: Any) -> None:
    """The first queue that passes its limit is told at the row that sets its rate, and all of them in the rest."""
    files = changed(VALLEY, *edits)
    long = long_queues(simulated(files, "metered"), limits)
    assert set(long) == set(limits)
    state, identifier, queue = min((states[0][0], int(name), states[0][1]) for name, states in long.items())
    refusal, printed = refusal_of(files, (command, ".", "metered"))
    assert (refusal["refusal"], refusal["row"], refusal["node"]) == (12, state - 1, identifier // 10 - 1)
    assert cells_of(refusal) == [cell]
    label, limit = LABELS[str(identifier)], limits[str(identifier)] // 64
    told = f"at {time(state)} the queue of {label} reaches {vehicles(queue)} vehicles, and its limit is {limit}"
    unmetered = "; it does so unmetered too, held up by the mainline or by its own capacity"
    assert refusal["told"] == told + (unmetered if cell[0] == "corridor.csv" else "")
    assert f"{cell[0]}:{cell[1]}: {refusal['told']} [refusal 12]" in printed
    assert len(refusal["rest"]) == len(long)
    for sentence, (name, states) in zip(refusal["rest"], long.items()):
        most, at = max((queue, -state) for state, queue in states)
        for part in (LABELS[name], time(states[0][0]), time(states[-1][0])):
            assert part in sentence
        assert sentence.endswith(f"most {vehicles(most)} at {time(-at)}") and sentence in printed


# ---- block files ----

LONG = changed(VALLEY, ("project.toml", "steps = 6", "steps = 40"))
ZEROS = {"demands": 40 * 4 * 2 + 40, "plan": 40 * 4 * 2, "record": 41 * 4 * 4 + 2, "exits": 41 * 4 * 5 + 2}
KINDS = {"demands": 5, "plan": 4, "record": 3, "exits": 7}
COMMANDS = {
    "plan": ("simulate", ".", "plan.blocks"),
    "record": ("check", ".", "record.blocks"),
    "exits": ("check", ".", "exits.blocks"),
    "demands": ("unpack", "corridor.blocks", "demands.blocks", "--into", "out", "--step", "10"),
}


def list_of(name: str) -> list[int]:
    """A list of the valley road with 40 steps, of zeros."""
    return [40] * (name == "demands") + [0] * ZEROS[name]


def spoilt(name: str, place: tuple[int, int], word: int) -> bytes:
    """A block file with one word replaced and, unless it is the check word, its check word made right."""
    blocks = block_words(KINDS[name], list_of(name))
    blocks[place] = word
    if place[1] != 127:
        seal(blocks)
    return file_of(blocks)


SPOILS: dict[int, Callable[[str], tuple[bytes, int, str]]] = {
    14: lambda name: (
        block_file(KINDS[name], list_of(name))[:-1],
        0,
        rf"{blocks_in(name) * 512 - 1:,} bytes.* {blocks_in(name) * 512:,}",
    ),
    15: lambda name: (spoilt(name, (1, 127), 1), 1, r"block 1\b.* check word"),
    16: lambda name: (spoilt(name, (1, 0), 1), 1, r"block 1\b.* kind 1\b.*expected"),
    17: lambda name: (spoilt(name, (1, 1), 2), 1, r"block 1\b.* number"),
    18: lambda name: (
        spoilt(name, (-1, 126), 1),
        blocks_in(name) - 1,
        rf"block {blocks_in(name) - 1}\b.* after the end",
    ),
}


def blocks_in(name: str) -> int:
    return -(-len(list_of(name)) // 125)


def corridor_file() -> bytes:
    """The corridor of the valley road as a block file."""
    with folder_of(LONG) as folder:
        run(folder, "pack", ".", "--into", "packed")
        return (folder / "packed" / "corridor.blocks").read_bytes()


@pytest.mark.parametrize("number", SPOILS)
@pytest.mark.parametrize("name", COMMANDS)
def test_a_block_file_that_is_refused(name: str, number: int) -> None:
    content, block, told = SPOILS[number](name)
    files = {**LONG, "corridor.blocks": corridor_file(), f"{name}.blocks": content}
    refusal, printed = refusal_of(files, COMMANDS[name])
    assert (refusal["refusal"], refusal["row"], refusal["node"]) == (number, block, 0)
    assert cells_of(refusal) == [(f"{name}.blocks", None, None, "")]
    assert re.search(told, refusal["told"]) and refusal["text"] == TEXTS[number]
    assert f"{name}.blocks: {refusal['told']} [refusal {number}]\n" in printed


@pytest.mark.parametrize("name", COMMANDS)
def test_a_block_file_as_it_is_written_is_read(name: str) -> None:
    """Its words are refused or not, but not by 14 to 18."""
    files = {**LONG, "corridor.blocks": corridor_file(), f"{name}.blocks": block_file(KINDS[name], list_of(name))}
    with folder_of(files) as folder:
        data = answer(folder, *COMMANDS[name])
    assert data["status"] in (0, REFUSED) and (data.get("refusal") or {"refusal": 0})["refusal"] < 14


@pytest.mark.parametrize("name, other", [("record", 7), ("exits", 3)])
def test_a_block_of_the_other_kind_of_record_is_told_apart(name: str, other: int) -> None:
    """Every block has its file's kind: the kind that is found is not among those that are expected."""
    refusal, _ = refusal_of({**LONG, f"{name}.blocks": spoilt(name, (1, 0), other)}, COMMANDS[name])
    assert (refusal["refusal"], refusal["row"]) == (16, 1)
    found, expected = refusal["told"].split("expected")
    assert re.search(rf"\b{other}\b", found) and re.search(rf"\b{KINDS[name]}\b", expected)
    assert not re.search(rf"\b{other}\b", expected)


@pytest.mark.parametrize("kind, name", [(4, "plan"), (3, "record"), (7, "exits")])
def test_a_word_of_a_block_file_is_named_by_its_block(kind: int, name: str) -> None:
    """The rate, or the ramp flow, of Mill Road in step 30 is far too great."""
    width = {4: 2, 3: 4, 7: 5}[kind]
    place = (4 * 30 + 1) * width + (0 if kind == 4 else 3)
    with folder_of(LONG) as folder:
        command = ("normal", ".", "open") if kind == 4 else ("simulate", ".", "open", *["--exits"] * (kind == 7))
        assert run(folder, *command, "-o", "good.blocks")[0] == 0
        blocks = np.frombuffer((folder / "good.blocks").read_bytes(), "<u4").reshape(-1, 128).astype(np.uint64)
    blocks[place // 125, 2 + place % 125] = 70_000
    blocks[:, 127] = 0
    seal(blocks)
    refusal, printed = refusal_of({**LONG, f"{name}.blocks": file_of(blocks)}, COMMANDS[name])
    assert (refusal["refusal"], refusal["row"], refusal["node"]) == (6 if kind == 4 else 9, 30, 1)
    file, line, column, _ = cells_of(refusal)[-1]
    assert (file, line) == (f"{name}.blocks", None)
    assert [int(number) for number in re.findall(r"\d+", str(column))] == [place // 125, 2 + place % 125]
    assert f"{name}.blocks: at 07:05:00 " in printed and "Mill Road (20)" in printed
