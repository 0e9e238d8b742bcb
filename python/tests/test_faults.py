"""Every fault that a text file can have, each alone in a project: the file, the line and the column that are named,
what stands there, and what was expected."""

import re
import sys
from collections.abc import Iterable
from typing import NamedTuple

import pytest
from projects import (
    FIRST_RATE,
    HEADINGS,
    MILL_ROAD,
    VALLEY,
    B,
    Edit,
    Files,
    answer,
    changed,
    folder_of,
    read_all,
    run,
    unread,
)

from gigorchid import Fault
from gigorchid.commands import main

FAULTY, USAGE = 3, 64


Place = tuple[int | None, str | None, str]
"""Line, column, and what stands there; None for a fault that no line or no column has."""


class Case(NamedTuple):
    """A project with one fault: its files, the file and the place at fault, and a pattern of what was expected."""

    files: Files
    file: str
    place: Place
    said: str
    record: str | None = None

    @property
    def command(self) -> tuple[str, ...]:
        """A command that reads the faulty file."""
        return ("lint", ".") if self.record is None else ("check", ".", self.record)


def of(file: str, edits: Iterable[tuple[str, str]], place: Place, said: str, also: Iterable[Edit] = ()) -> Case:
    """A case of a file in which some texts are replaced."""
    base, record = (B, file) if file in ("record.csv", "exits.csv") else (VALLEY, None)
    return Case(changed(base, *((file, *edit) for edit in edits), *also), file, place, said, record)


def whole(file: str, text: str | bytes, place: Place, said: str) -> Case:
    """A case of a file that is another one altogether."""
    base, record = (B, file) if file in ("record.csv", "exits.csv") else (VALLEY, None)
    return Case({**base, file: text}, file, place, said, record)


# ---- numbers and words ----

NUMBER = r"expected a number.* in veh/h"
# What looks like a number to a reader is told how a number is written.
WRITTEN = r"expected a number.*(such as|written|separator)"
NO_NUMBERS = {
    "a word": ("fast", "fast", NUMBER),
    "a negative number": ("-4500", "-4500", NUMBER),
    "a unit": ("4500 veh/h", "4500 veh/h", NUMBER),
    "infinity": ("inf", "inf", NUMBER),
    "not a number": ("nan", "nan", NUMBER),
    "the name of no limit": ("none", "none", NUMBER),
    "a sign": ("+4500", "+4500", WRITTEN),
    "a separator of thousands": ('"4,500"', "4,500", WRITTEN),
    "a comma for the point": ('"4500,5"', "4500,5", WRITTEN),
    "an exponent": ("4.5e3", "4.5e3", WRITTEN),
    "nothing after the point": ("4500.", "4500.", WRITTEN),
    "blanks within": ("4 500", "4 500", WRITTEN),
    "a line below": ("4_500", "4_500", WRITTEN),
    "digits of another script": ("４５００", "４５００", WRITTEN),
}
NUMBERS = {
    f"corridor: {name}": of(
        "corridor.csv", [("500,4500,90,18,200,900", f"500,{cell},90,18,200,900")], (3, "capacity_vph", text), said
    )
    for name, (cell, text, said) in NO_NUMBERS.items()
}
WHOLE = r"expected a whole number of 0 to 4,294,967,295"
NO_WORDS = {"decimals": "2.5", "a negative word": "-2", "an exponent": "2e1", "33 bits": "4294967296", "a word": "two"}
WORDS = {
    f"{file}, {name} in units": of(file, [(heading, units), (row, new.format(text))], (line, units, text), WHOLE)
    for name, text in NO_WORDS.items()
    for file, heading, units, row, new, line in (
        ("corridor.csv", "start_queue_veh", "start_queue_units", "25,20,2,,", "25,20,{},,", 3),
        ("arrivals.csv", "20_vph", "20_units", "3600,540", "3600,{}", 2),
        ("splits.csv", "20_pct", "20_units", "12.5\n07:00:20,25", "12\n07:00:20,{}", 3),
        ("plan-metered.csv", "rate_vph", "rate_units", "07:01,360", "07:01,{}", 3),
    )
}
WORDS |= {
    f"record, {name}": of("record.csv", [("1,20,120", f"1,20,{text}")], (6, "vehicles_units", text), WHOLE)
    for name, text in NO_WORDS.items()
}
TOO_GREAT = r"4,294,967,296 units.*expected at most 4,294,967,295"
GREAT = {
    "a queue limit": of("corridor.csv", [("900,25", "900,67108864")], (3, "queue_limit_veh", "67108864"), TOO_GREAT),
    "a capacity": of(
        "corridor.csv", [("90,18,200,900", "90,18,200,24159191038")], (3, "ramp_capacity_vph", "24159191038"), TOO_GREAT
    ),
    "arrivals": of("arrivals.csv", [("540", "24159191037.5")], (2, "20_vph", "24159191037.5"), TOO_GREAT),
    "arrivals rounded up by what came before": of(
        "arrivals.csv",
        [("07:00,3600,540\n", "07:00,3600,2.5\n07:00:10,3600,24159191037\n07:00:20,3600,0\n")],
        (3, "20_vph", "24159191037"),
        TOO_GREAT,
    ),
    "a split": of("splits.csv", [("12.5", "6553600")], (2, "20_pct", "6553600"), TOO_GREAT),
    "what may leave": of("downstream.csv", [("3150", "24159191038")], (3, "40_vph", "24159191038"), TOO_GREAT),
    "a rate": of("plan-metered.csv", [("450", "24159191038")], (2, "rate_vph", "24159191038"), TOO_GREAT),
}

# ---- the corridor ----

NEEDED_COLUMNS = ("capacity", "free_speed", "wave_speed", "jam_density", "ramp_capacity", "queue_limit")


def heading(stem: str) -> str:
    """The column of a quantity in the valley road, with its ending."""
    return next(name for name in HEADINGS if name.rpartition("_")[0] == stem)


def relabelled(stem: str, name: str) -> list[tuple[str, str]]:
    """The edit that gives a column of the corridor another name."""
    return [(f",{heading(stem)},", f",{name},")]


CORRIDOR = {
    "an unknown column": of(
        "corridor.csv", [("id,name", "id,label")], (1, "label", "label"), r"unknown column.*\bname\b"
    ),
    "a wrong ending": of(
        "corridor.csv",
        relabelled("start_queue", "start_queue_vph"),
        (1, "start_queue_vph", "start_queue_vph"),
        r"expected start_queue_veh or start_queue_units",
    ),
    "no ending": of(
        "corridor.csv",
        relabelled("start_queue", "start_queue"),
        (1, "start_queue", "start_queue"),
        r"unknown column.* start_queue(_| with _)veh",
    ),
    "a column twice": of(
        "corridor.csv",
        relabelled("start_vehicles", "start_queue_veh"),
        (1, "start_queue_veh", "start_queue_veh"),
        r"column of this name stands before",
    ),
    "a quantity twice": of(
        "corridor.csv",
        relabelled("start_vehicles", "start_queue_units"),
        (1, "start_queue_veh", "start_queue_veh"),
        r"start_queue_units.*expected one",
    ),
    "no identifiers": of(
        "corridor.csv", [("id,name", f"name,{unread('id')}")], (1, None, ""), r"column is missing: expected id"
    ),
    "one column of the drop": of(
        "corridor.csv", [("drop_density_vpkm", unread("density"))], (1, None, ""), r"drop.*expected both or none"
    ),
    "a blank identifier": of("corridor.csv", [("20,Mill", ",Mill")], (3, "id", ""), r"blank: expected an identifier"),
    "an identifier in letters": of(
        "corridor.csv", [("20,Mill", "A20,Mill")], (3, "id", "A20"), r"expected an identifier"
    ),
    "an identifier of 33 bits": of(
        "corridor.csv", [("20,Mill", "4294967296,Mill")], (3, "id", "4294967296"), r"identifier.* 4,294,967,295"
    ),
    "a ramp without a queue limit": of(
        "corridor.csv",
        [("900,25", "900,")],
        (3, "queue_limit_veh", ""),
        r"expected a number or none.*ramp_capacity_vph is 900",
    ),
    "a queue limit without a ramp": of(
        "corridor.csv", [("900,25", ",25")], (3, "ramp_capacity_vph", ""), r"expected a number.*queue_limit_veh is 25"
    ),
    "no queue limit without a ramp": of(
        "corridor.csv",
        [("900,25", ",none")],
        (3, "ramp_capacity_vph", ""),
        r"expected a number.*queue_limit_veh is none",
    ),
    "a dropped capacity without a density": of(
        "corridor.csv",
        [("3600,60", "3600,")],
        (4, "drop_density_vpkm", ""),
        r"expected a number.*dropped_capacity_vph is 3600",
    ),
    "a density without a dropped capacity": of(
        "corridor.csv",
        [("3600,60", ",60")],
        (4, "dropped_capacity_vph", ""),
        r"expected a number.*drop_density_vpkm is 60",
    ),
    "a dropped capacity of zero without a density": of(
        "corridor.csv",
        [("3600,60", "0,")],
        (4, "drop_density_vpkm", ""),
        r"expected a number.*dropped_capacity_vph is 0",
    ),
    "a density of zero without a dropped capacity": of(
        "corridor.csv",
        [("3600,60", ",0")],
        (4, "dropped_capacity_vph", ""),
        r"expected a number.*drop_density_vpkm is 0",
    ),
    "a negative length": of(
        "corridor.csv", [("Mill Road,500", "Mill Road,-500")], (3, "length_m", "-500"), r"expected a number"
    ),
    "no rows": whole("corridor.csv", ",".join(HEADINGS) + "\n", (None, None, ""), r"no node: expected a row for each"),
    "a name that opens a quote": of("corridor.csv", [("Mill Road", '"Mill Road')], (3, None, ""), r"no CSV"),
}
CORRIDOR |= {
    f"no column of the {stem}": of(
        "corridor.csv",
        relabelled(stem, unread("other")),
        (1, None, ""),
        rf"column is missing: expected {heading(stem)}.* or {stem}_units",
    )
    for stem in NEEDED_COLUMNS
}
CORRIDOR |= {
    f"a link with a blank {column}": of(
        "corridor.csv",
        [(MILL_ROAD, MILL_ROAD.replace(old, new, 1))],
        (3, column, ""),
        r"blank: expected a number.*link",
    )
    for column, old, new in (
        ("capacity_vph", "4500", ""),
        ("free_speed_kmh", "90,18", ",18"),
        ("wave_speed_kmh", "90,18", "90,"),
        ("jam_density_vpkm", "18,200", "18,"),
    )
}
# Each ending that needs a length, where no column before it does.
WITHOUT_A_LENGTH = [
    (f",{name},", f",{name.rpartition('_')[0]}_units,") for name in (heading("free_speed"), heading("wave_speed"))
]
CORRIDOR |= {
    f"no length for {column}": of(
        "corridor.csv", [("Mill Road,500", "Mill Road,"), *edits], (3, column, text), r"expected a length_m"
    )
    for column, text, edits in (
        ("free_speed_kmh", "90", []),
        ("free_speed_mph", "90", relabelled("free_speed", "free_speed_mph")),
        ("wave_speed_kmh", "18", WITHOUT_A_LENGTH[:1]),
        ("jam_density_vpkm", "200", WITHOUT_A_LENGTH),
    )
}
CORRIDOR |= {
    f"{column} at the entry": of("corridor.csv", [("10,Entry,,,,,", row)], (2, column, text), r"expected blank.*entry")
    for column, text, row in (
        ("free_speed_kmh", "90", "10,Entry,,,90,,"),
        ("jam_density_vpkm", "200", "10,Entry,,,,,200"),
    )
}
CORRIDOR["a length of zero"] = of(
    "corridor.csv", [("Mill Road,500", "Mill Road,0")], (3, "free_speed_kmh", "90"), r"expected a length_m"
)

# ---- series ----

ONE_COLUMN = r"expected one column, that of the last node, 40_vph or 40_units"
SERIES = {
    "a time off a step": of(
        "arrivals.csv", [("07:00:30", "07:00:35")], (3, "from", "07:00:35"), r"expected.* step, 07:00:30 or 07:00:40"
    ),
    "a time off a step by a little": of(
        "splits.csv",
        [("07:00:20", "07:00:20.001")],
        (3, "from", "07:00:20.001"),
        r"expected.* step, 07:00:20 or 07:00:30",
    ),
    "a row before the one above": of(
        "arrivals.csv", [("07:00:30", "06:59")], (3, "from", "06:59"), r"expected a time after 07:00\b"
    ),
    "two rows of one time": of(
        "arrivals.csv", [("07:00:30", "07:00")], (3, "from", "07:00"), r"expected a time after 07:00\b"
    ),
    "a first row after the start": of(
        "splits.csv",
        [("07:00,", "07:00:10,")],
        (2, "from", "07:00:10"),
        r"expected 07:00:00, the project's start, or a time before",
    ),
    "no row": whole("arrivals.csv", "from,10_vph\n", (None, None, ""), r"no row: expected one from 07:00:00"),
    "a blank time": of("arrivals.csv", [("07:00:30", "")], (3, "from", ""), r"blank: expected a time of day such as"),
    "no times": whole("arrivals.csv", "10_vph\n3600\n", (1, None, ""), r"column is missing: expected from"),
    "an unknown identifier": of(
        "arrivals.csv", [("20_vph", "25_vph")], (1, "25_vph", "25_vph"), r"unknown column.* 20(_| with _)vph"
    ),
    "an identifier without an ending": of(
        "arrivals.csv", [("20_vph", "20")], (1, "20", "20"), r"unknown column.* 20(_| with _)vph"
    ),
    "arrivals in percent": of(
        "arrivals.csv", [("20_vph", "20_pct")], (1, "20_pct", "20_pct"), r"expected 20_vph or 20_units"
    ),
    "a split in vehicles": of(
        "splits.csv", [("20_pct", "20_vph")], (1, "20_vph", "20_vph"), r"expected 20_pct or 20_units"
    ),
    "a node in two units": of(
        "arrivals.csv", [("20_vph", "10_units")], (1, "10_units", "10_units"), r"10_vph.*expected one"
    ),
    "a node twice": of(
        "arrivals.csv", [("20_vph", "10_vph")], (1, "10_vph", "10_vph"), r"column of this name stands before"
    ),
    "blank arrivals": of(
        "arrivals.csv", [("3600,540", "3600,")], (2, "20_vph", ""), r"blank: expected a number.* veh/h"
    ),
    "a blank split": of("splits.csv", [("12.5", "")], (2, "20_pct", ""), r"blank: expected a number.* %"),
    "blank downstream": of("downstream.csv", [("3150", "")], (3, "40_vph", ""), r"blank: expected a number.* veh/h"),
    "free arrivals": of(
        "arrivals.csv", [("3600,540", "3600,free")], (2, "20_vph", "free"), r"expected a number.* veh/h"
    ),
    "negative arrivals": of("arrivals.csv", [("540", "-540")], (2, "20_vph", "-540"), r"expected a number.* veh/h"),
    "downstream of another node": of("downstream.csv", [("40_vph", "30_vph")], (1, "30_vph", "30_vph"), ONE_COLUMN),
    "downstream of two nodes": of(
        "downstream.csv",
        [("40_vph", "40_vph,30_vph"), ("free", "free,0"), ("3150", "3150,0")],
        (1, "30_vph", "30_vph"),
        ONE_COLUMN,
    ),
    "downstream of no node": whole("downstream.csv", "from\n07:00\n", (1, None, ""), ONE_COLUMN),
}
NO_TIMES = ("7 o'clock", "07.00.30", "070030", "07:60", "07:00:60", "07:00:30 AM", "-07:00", "07", "07:00:30,5")
SERIES |= {
    f"the time {time}": of(
        "arrivals.csv", [("07:00:30", f'"{time}"')], (3, "from", time), r"expected a time of day such as 07:30"
    )
    for time in NO_TIMES
}

# ---- plans ----

PLANS = {
    name: of("plan-metered.csv", [(FIRST_RATE, row)], place, said)
    for name, row, place, said in (
        (
            "an unknown identifier",
            "25,07:00,07:00:20,450,",
            (2, "id", "25"),
            r"expected an identifier of the corridor.* 20\b",
        ),
        ("a blank identifier", ",07:00,07:00:20,450,", (2, "id", ""), r"blank: expected an identifier"),
        (
            "rates that overlap",
            "20,07:00,07:00:30,450,",
            (3, "rate_vph", "360"),
            r"line 2 .*07:00:20.*expected one row for each time",
        ),
        (
            "limits that overlap",
            "30,07:00,07:00:40,,90",
            (4, "limit_kmh", "72"),
            r"line 2 .*07:00:30.*expected one row for each time",
        ),
        ("until before from", "20,07:00:20,07:00:10,450,", (2, "until", "07:00:10"), r"expected a time after 07:00:20"),
        ("until at from", "20,07:00:10,07:00:10,450,", (2, "until", "07:00:10"), r"expected a time after 07:00:10"),
        (
            "from off a step",
            "20,07:00:05,07:00:20,450,",
            (2, "from", "07:00:05"),
            r"expected.* step, 07:00:00 or 07:00:10",
        ),
        (
            "until off a step",
            "20,07:00,07:00:15,450,",
            (2, "until", "07:00:15"),
            r"expected.* step, 07:00:10 or 07:00:20",
        ),
        ("from that is no time", "20,morning,07:00:20,450,", (2, "from", "morning"), r"expected a time of day such as"),
        ("until that is no time", "20,07:00,night,450,", (2, "until", "night"), r"expected a time of day such as"),
        ("a rate in words", "20,07:00,07:00:20,low,", (2, "rate_vph", "low"), r"expected a number.* veh/h"),
        ("a negative rate", "20,07:00,07:00:20,-450,", (2, "rate_vph", "-450"), r"expected a number.* veh/h"),
        ("a limit in words", "20,07:00,07:00:20,450,low", (2, "limit_kmh", "low"), r"expected a number.* km/h"),
        ("a limit at the entry", "10,07:00,07:00:20,450,80", (2, "limit_kmh", "80"), r"expected blank.*entry"),
    )
}
NO_LENGTHS: list[Edit] = [
    ("corridor.csv", "length_m", unread("length")),
    ("corridor.csv", "free_speed_kmh", "free_speed_units"),
    ("corridor.csv", "wave_speed_kmh", "wave_speed_units"),
    ("corridor.csv", "jam_density_vpkm", "jam_density_veh"),
    ("corridor.csv", "drop_density_vpkm", "drop_density_veh"),
]
PLANS |= {
    "a limit on a link without a length": of(
        "plan-metered.csv", [], (4, "limit_kmh", "72"), r"expected limit_units.*length_m", NO_LENGTHS
    ),
    "an unknown column": of(
        "plan-metered.csv",
        [("rate_vph", "flow_vph")],
        (1, "flow_vph", "flow_vph"),
        r"unknown column.* rate(_| with _)vph",
    ),
    "a wrong ending": of(
        "plan-metered.csv", [("rate_vph", "rate_veh")], (1, "rate_veh", "rate_veh"), r"expected rate_vph or rate_units"
    ),
    "a rate in two units": of(
        "plan-metered.csv", [("limit_kmh", "rate_units")], (1, "rate_units", "rate_units"), r"rate_vph.*expected one"
    ),
    "no identifiers": whole(
        "plan-metered.csv", "from,until,rate_vph\n", (1, None, ""), r"column is missing: expected id"
    ),
}

# ---- records ----

COST = r"expected the total cost.* 18,446,744,073,709,551,615"
RECORDS = {
    name: of("record.csv", [("1,10,0,30,0,0,\n", f"1,10,0,30,0,0,\n{row},0,30,0,0,\n")], place, said)
    for name, row, place, said in (
        ("a state twice", "0,20", (6, None, ""), r"line 3 has the same state and id: expected one row"),
        ("a state past the end", "2,10", (6, "state", "2"), r"expected a state of 0 to 1"),
        ("a state in words", "last,10", (6, "state", "last"), r"expected a state of 0 to 1"),
        ("an unknown identifier", "1,11", (6, "id", "11"), r"expected an identifier of the corridor"),
        ("a blank identifier", "1,", (6, "id", ""), r"expected an identifier of the corridor"),
    )
}
RECORDS |= {
    "a state that is missing": of(
        "record.csv", [("1,10,0,30,0,0,\n", "")], (None, None, ""), r"no row of state 1 .*Entry.*expected one"
    ),
    "a blank word": of(
        "record.csv", [("1,20,120", "1,20,")], (6, "vehicles_units", ""), r"blank: expected a whole number"
    ),
    "no cost": of("record.csv", [("370", "")], (7, "cost_units", ""), "blank: " + COST),
    "a cost of 65 bits": of("record.csv", [("370", str(2**64))], (7, "cost_units", str(2**64)), COST),
    "a cost with decimals": of("record.csv", [("370", "370.0")], (7, "cost_units", "370.0"), COST),
    "a cost in another row": of(
        "record.csv",
        [("1,20,120,20,0,0,", "1,20,120,20,0,0,370")],
        (6, "cost_units", "370"),
        r"expected blank.*last state and node",
    ),
    "an unknown column": of(
        "exits.csv", [("exit_flow_units", "exits")], (1, "exits", "exits"), r"unknown column.*exit_flow_units"
    ),
    "no column of the cost": of(
        "record.csv", [("cost_units", unread("cost"))], (1, None, ""), r"column is missing: expected cost_units"
    ),
    "no column of flows": of(
        "record.csv", [(",flow_units", f",{unread('flow')}")], (1, None, ""), r"column is missing: expected flow_units"
    ),
    "an exit with decimals": of(
        "exits.csv",
        [("80,40,20", "80,40,20.5")],
        (3, "exit_flow_units", "20.5"),
        r"expected a whole number of 0 to 4,294,967,295",
    ),
}

# ---- any table ----

TABLES = ("corridor.csv", "arrivals.csv", "splits.csv", "downstream.csv", "plan-metered.csv", "record.csv")


def text_of(file: str) -> str:
    """A table as it stands without a fault."""
    return str(B[file] if file == "record.csv" else VALLEY[file])


def forms_of(file: str) -> dict[str, Case]:
    """The faults that any table can have."""
    text, last = text_of(file), text_of(file).count("\n")
    columns = text.partition("\n")[0].count(",") + 1
    empty, ragged = r"empty: expected a line that names the columns", f"{{}} cells: expected {columns}"
    nameless = text.replace("\n", ",\n").rstrip("\n") + "7\n"
    cases = {
        "empty": whole(file, "", (None, None, ""), empty),
        "comments alone": whole(file, "# nothing\n\n", (None, None, ""), empty),
        "semicolons": whole(file, text.replace(",", ";"), (1, None, ""), r"semicolons: expected commas"),
        "a cell too many": whole(file, text.rstrip("\n") + ",7\n", (last, None, ""), ragged.format(columns + 1)),
        "a cell too few": whole(
            file, text.rstrip("\n").rpartition(",")[0] + "\n", (last, None, ""), ragged.format(columns - 1)
        ),
        "another encoding": whole(file, text.encode() + b"# Stra\xdfe\n", (last + 1, None, ""), r"not UTF-8: expected"),
        "a cell below no name": whole(
            file, nameless, (1, f"column {columns + 1}", ""), rf"no name: expected one, since line {last} has a cell"
        ),
    }
    return {f"{file}: {name}": case for name, case in cases.items()}


FORMS = {name: case for file in TABLES for name, case in forms_of(file).items()}
FORMS["a separator of thousands without quotes"] = of(
    "corridor.csv", [(MILL_ROAD, MILL_ROAD.replace("4500", "4,500"))], (3, None, ""), r"14 cells: expected 13"
)

# Lines are those of the file, whatever stands in them.
BEFORE = {
    "comments and blank lines": ("20,Mill", "# seen,\n\n,,\n20,Mill", 7),
    "a name of three lines": ("Mill Road", '"Mill\n# old\nRoad"', 6),
    "a comment with a quote": ("20,Mill", '# the "old,"road\n20,Mill', 5),
}
LINES = {
    f"after {name}": of("corridor.csv", [(old, new), ("600,4500", "600,fast")], (line, "capacity_vph", "fast"), NUMBER)
    for name, (old, new, line) in BEFORE.items()
}
LINES["after line ends of another system"] = whole(
    "corridor.csv",
    text_of("corridor.csv").replace("600,4500", "600,fast").replace("\n", "\r\n"),
    (4, "capacity_vph", "fast"),
    NUMBER,
)

# ---- project.toml ----

FILES_TABLE = str(VALLEY["project.toml"]).partition("[files]\n")[2].partition("\n\n")[0]
TEXT, FILE_NAME, WHOLE_STEPS = (
    r"expected a text",
    r"expected the name of a file",
    r"expected a whole number.* 1 to 1,440",
)
SECONDS, TIME, NO_FILE = (
    r"expected a number of seconds above 0",
    r"expected a time of day such as",
    r"expected a file.* none of this name",
)
PROJECT = {
    name: of("project.toml", [(old, new)], place, said)
    for name, old, new, place, said in (
        (
            "an unknown key",
            "steps = 6",
            "steps = 6\nlanes = 3",
            (5, "lanes", "3"),
            r"unknown key: expected one of title, start",
        ),
        ("an unknown table", "[plans]", "[plan]", (12, "plan", ""), r"unknown key: expected one of .*plans"),
        (
            "an unknown file",
            "splits = ",
            "exits = ",
            (9, "exits", "splits.csv"),
            r"unknown key: expected one of .*splits",
        ),
        ("no start", 'start = "07:00"\n', "", (None, "start", ""), TIME),
        ("no length of a step", "step_s = 10\n", "", (None, "step_s", ""), SECONDS),
        ("no steps", "steps = 6\n", "", (None, "steps", ""), WHOLE_STEPS),
        ("no corridor", 'corridor = "corridor.csv"\n', "", (6, None, ""), r"no corridor: expected the name"),
        ("no arrivals", 'arrivals = "arrivals.csv"\n', "", (6, None, ""), r"no arrivals: expected the name"),
        ("no files", f"[files]\n{FILES_TABLE}\n", "", (None, None, ""), r"\[files\].*corridor: expected the name"),
        (
            "files that are no table",
            f"[files]\n{FILES_TABLE}",
            'files = "all"',
            (6, "files", "all"),
            r"expected a table, \[files\]",
        ),
        ("a title in figures", '"Valley road"', "7", (1, "title", "7"), TEXT),
        ("a start in words", '"07:00"', '"seven"', (2, "start", "seven"), TIME),
        ("a start in figures", '"07:00"', "7", (2, "start", "7"), TIME),
        ("a start with a date", '"07:00"', "2024-05-01T07:00:00", (2, "start", "2024-05-01T07:00:00"), TIME),
        ("a corridor in figures", '"corridor.csv"', "7", (7, "corridor", "7"), FILE_NAME),
        ("a corridor without a name", '"corridor.csv"', '""', (7, "corridor", ""), FILE_NAME),
        ("a plan in figures", '"plan-open.csv"', "7", (13, "open", "7"), FILE_NAME),
        ("a corridor that is not there", '"corridor.csv"', '"road.csv"', (7, "corridor", "road.csv"), NO_FILE),
        ("arrivals that are not there", '"arrivals.csv"', '"road.csv"', (8, "arrivals", "road.csv"), NO_FILE),
        ("splits that are not there", '"splits.csv"', '"road.csv"', (9, "splits", "road.csv"), NO_FILE),
        ("a plan that is not there", '"plan-open.csv"', '"road.csv"', (13, "open", "road.csv"), NO_FILE),
        ("no TOML", "steps = 6", "steps: 6", (4, None, ""), r"no TOML"),
        ("a key twice", "steps = 6", "steps = 6\nsteps = 6", (5, None, ""), r"no TOML"),
    )
}
PROJECT |= {
    f"a step of {value} seconds": of(
        "project.toml", [("step_s = 10", f"step_s = {value}")], (3, "step_s", value), SECONDS
    )
    for value in ("0", "-10", "true", "nan", "inf", "0.0")
}
PROJECT |= {
    f"{value} steps": of("project.toml", [("steps = 6", f"steps = {value}")], (4, "steps", value), WHOLE_STEPS)
    for value in ("6.5", "6.0", "true", "-6", "nan")
}
PROJECT["a plan of another form"] = Case(
    {**changed(VALLEY, ("project.toml", "plan-open.csv", "plan-open.txt")), "plan-open.txt": VALLEY["plan-open.csv"]},
    "project.toml",
    (13, "open", "plan-open.txt"),
    r"expected.*\.csv.*\.blocks",
)
PROJECT["another encoding"] = whole(
    "project.toml", str(VALLEY["project.toml"]).encode() + b"# Stra\xdfe\n", (None, None, ""), r"not UTF-8: expected"
)

GROUPS = {
    "numbers": NUMBERS,
    "words": WORDS,
    "too great": GREAT,
    "corridor": CORRIDOR,
    "series": SERIES,
    "plans": PLANS,
    "records": RECORDS,
    "any table": FORMS,
    "lines": LINES,
    "project.toml": PROJECT,
}
CASES = {f"{group}: {name}": case for group, cases in GROUPS.items() for name, case in cases.items()}
each_case = pytest.mark.parametrize("case", CASES.values(), ids=CASES)


def test_the_projects_have_no_fault_of_their_own() -> None:
    """So that the one in each case is the only one."""
    for files, record in ((VALLEY, None), (B, "record.csv"), (B, "exits.csv")):
        with folder_of(files) as folder:
            read_all(folder, record)
            assert run(folder, *Case(files, "", (None, None, ""), "", record).command)[0] == 0


@each_case
def test_a_fault_names_its_cell_and_what_was_expected(case: Case) -> None:
    with folder_of(case.files) as folder, pytest.raises(Fault) as raised:
        read_all(folder, case.record)
    cell = raised.value.cell
    assert (cell.file, cell.line or None, cell.column or None, cell.text) == (case.file, *case.place)
    assert re.search(case.said, raised.value.wrong)


@each_case
def test_the_command_tells_file_line_and_column(case: Case) -> None:
    with folder_of(case.files) as folder:
        status, printed = run(folder, *case.command)
    line, column, _ = case.place
    place = case.file + (f":{line}" if line else "") + ": " + (f"{column}: " if column else "")
    assert status == FAULTY
    assert re.search(re.escape(place) + ".*" + case.said, printed)


@each_case
def test_the_object_has_the_cell(case: Case) -> None:
    with folder_of(case.files) as folder:
        data = answer(folder, *case.command)
    assert data["status"] == FAULTY
    fault = data["fault"]
    assert (fault["file"], fault["line"], fault["column"], fault["text"]) == (case.file, *case.place)
    assert re.search(case.said, fault["wrong"])


@pytest.mark.parametrize("key, value", [("step_s = 10", 'step_s = "10"'), ("steps = 6", 'steps = "6"')])
def test_a_number_in_quotation_marks_is_told_as_such(key: str, value: str) -> None:
    """Without the marks nobody could see what is wrong with it."""
    line = {"step_s = 10": 3, "steps = 6": 4}[key]
    with folder_of(changed(VALLEY, ("project.toml", key, value))) as folder:
        status, printed = run(folder, "lint", ".")
    assert status == FAULTY and f"project.toml:{line}: " in printed
    assert value.partition(" = ")[2] in printed or "quotation marks" in printed


@pytest.mark.parametrize(
    "arguments, named",
    [
        (("lint", "valley"), "valley"),
        (("simulate", ".", "shut"), "shut"),
        (("simulate", ".", "shut.csv"), "shut.csv"),
        (("check", ".", "record.csv"), "record.csv"),
    ],
)
def test_a_file_of_the_command_line_that_is_not_there_is_no_fault(
    arguments: tuple[str, ...], named: str, monkeypatch: pytest.MonkeyPatch, capsys: pytest.CaptureFixture[str]
) -> None:
    with folder_of(VALLEY) as folder, monkeypatch.context() as patched, pytest.raises(SystemExit) as ended:
        patched.chdir(folder)
        patched.setattr(sys, "argv", ["gigorchid", *arguments])
        main()
    assert ended.value.code == USAGE
    assert re.search(rf"there is no .*{named}", capsys.readouterr().err)
