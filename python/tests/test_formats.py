"""Tables become words as docs/FORMATS.md says: units, rounding, arrivals, times, the forms a text file may have, and
block files that come back the same."""

from collections.abc import Callable
from fractions import Fraction
from math import floor
from pathlib import Path

import numpy as np
import pytest
from conftest import worked_words
from hypothesis import example, given, settings
from hypothesis import strategies as st
from hypothesis.extra.numpy import arrays
from projects import (
    VALLEY,
    B,
    Edit,
    Files,
    answer,
    block_file,
    changed,
    folder_of,
    loaded,
    plan_words,
    project_words,
    run,
    unread,
    without,
)

from gigorchid import Project


def steady(examples: int) -> settings:
    """The same examples in every run, so many of them."""
    return settings(derandomize=True, deadline=None, database=None, max_examples=examples)


GREATEST = 2**32 - 1
FULL = 65_536
NO_LIMIT = 134_217_728
HALF = Fraction(1, 2)

# ---- a figure and its word ----

NODE_WORDS = (
    "id",
    "capacity",
    "free_speed",
    "wave_speed",
    "jam_density",
    "ramp_capacity",
    "queue_limit",
    "start_vehicles",
    "start_queue",
    "dropped_capacity",
    "drop_density",
)
OF_RAMPS = ("ramp_capacity", "queue_limit", "start_queue")
# The endings of each quantity, by its table.
ENDINGS = {
    "corridor.csv": {
        "capacity": "vph units",
        "free_speed": "kmh mph units",
        "wave_speed": "kmh mph units",
        "jam_density": "vpkm veh units",
        "ramp_capacity": "vph units",
        "queue_limit": "veh units",
        "start_vehicles": "veh vpkm units",
        "start_queue": "veh units",
        "dropped_capacity": "vph units",
        "drop_density": "vpkm veh units",
    },
    "splits.csv": {"20": "pct units"},
    "downstream.csv": {"20": "vph units"},
    "plan.csv": {"rate": "vph units", "limit": "kmh mph units"},
}
COLUMNS = [
    (file, stem, ending)
    for file, stems in ENDINGS.items()
    for stem, endings in stems.items()
    for ending in endings.split()
]
IN_FIELD_UNITS = [column for column in COLUMNS if column[2] != "units"]

figures = st.decimals(0, 20_000, places=3).map("{:f}".format)
words = st.integers(0, GREATEST)
step_lengths = st.sampled_from(["10", "7.5", "6", "0.25"]) | st.decimals("0.1", 60, places=3).map("{:f}".format)
lengths = st.decimals(20, 5_000, places=1).map("{:f}".format)


def exact_word(figure: Fraction, ending: str, step: Fraction, metres: Fraction) -> Fraction:
    """What a figure is in words before it is rounded."""
    speed = Fraction(10, 36) * step / metres * FULL
    per_unit = {
        "veh": Fraction(64),
        "vph": step / 3_600 * 64,
        "vpkm": metres / 1_000 * 64,
        "kmh": speed,
        "mph": speed * Fraction("1.609344"),
        "pct": Fraction(FULL, 100),
        "units": Fraction(1),
    }
    return figure * per_unit[ending]


def table(columns: dict[str, list[str]]) -> str:
    """A table, by its columns."""
    rows = zip(*columns.values(), strict=True)
    return "".join(",".join(row) + "\n" for row in [tuple(columns), *rows])


def one_link(file: str, column: str, text: str, step: str, metres: str) -> Files:
    """A project of one link and one step with a figure in one column, and zeros in exact units elsewhere."""
    corridor = {"id": ["10", "20"], "length_m": ["", metres]}
    corridor |= {f"{stem}_units": ["0", "0"] for stem in NODE_WORDS[1:]}
    stem = column.rpartition("_")[0]
    if file == "corridor.csv":
        del corridor[f"{stem}_units"]
        corridor[column] = [text, "0"] if stem in OF_RAMPS else ["0", text]
    node = "10" if stem == "rate" else "20"
    files: Files = {"corridor.csv": table(corridor), "arrivals.csv": "from\n07:00\n"}
    if file in ("splits.csv", "downstream.csv"):
        files[file] = table({"from": ["07:00"], column: [text]})
    named = "".join(f'{name.removesuffix(".csv")} = "{name}"\n' for name in files)
    if file == "plan.csv":
        files[file] = table({"id": [node], "from": [""], "until": [""], column: [text]})
        named += '[plans]\nplan = "plan.csv"\n'
    files["project.toml"] = f'start = "07:00"\nstep_s = {step}\nsteps = 1\n[files]\n{named}'
    return files


def word_of(file: str, column: str, text: str, step: str, metres: str) -> int:
    """The word that a figure becomes in a column of a table, on a link of so many metres."""
    lists = project_words(one_link(file, column, text, step, metres))
    stem = column.rpartition("_")[0]
    if file == "corridor.csv":
        node = 0 if stem in OF_RAMPS else 1
        return lists["corridor"][1 + 11 * node + NODE_WORDS.index(stem)]
    if file == "plan.csv":
        return lists["plan"][0 if stem == "rate" else 3]
    return lists["demands"][4 if file == "splits.csv" else 5]


@pytest.mark.parametrize("file, stem, ending", COLUMNS, ids=map(" ".join, COLUMNS))
@steady(25)
@given(data=st.data(), step=step_lengths, metres=lengths)
def test_a_figure_becomes_the_nearest_word(
    file: str, stem: str, ending: str, data: st.DataObject, step: str, metres: str
) -> None:
    text = str(data.draw(words)) if ending == "units" else data.draw(figures)
    exact = exact_word(Fraction(text), ending, Fraction(step), Fraction(metres))
    assert word_of(file, f"{stem}_{ending}", text, step, metres) == floor(exact + HALF)


def decimal_text(value: Fraction) -> str:
    """A figure that has an end in decimals, written out."""
    places = next(places for places in range(40) if (value * 10**places).denominator == 1)
    whole, rest = divmod(int(value * 10**places), 10**places)
    return f"{whole}.{rest:0{places}d}" if places else str(whole)


@pytest.mark.parametrize("file, stem, ending", IN_FIELD_UNITS, ids=map(" ".join, IN_FIELD_UNITS))
@steady(8)
@given(word=st.integers(0, FULL))
def test_halves_are_rounded_up(file: str, stem: str, ending: str, word: int) -> None:
    """A word and a half is the next word, and just below it is the word itself."""
    # A length on which half a unit of speed in miles per hour can be written in decimals.
    metres = "1257.3" if ending == "mph" else "500"
    half = (word + HALF) / exact_word(Fraction(1), ending, Fraction(10), Fraction(metres))
    below = half - Fraction(1, 10**30)
    column = f"{stem}_{ending}"
    assert word_of(file, column, decimal_text(half), "10", metres) == word + 1
    assert word_of(file, column, decimal_text(below), "10", metres) == word


def test_corridor_b_in_the_fields_units_has_the_words_of_the_model() -> None:
    worked = worked_words()
    lists = project_words(B)
    assert lists["corridor"] == worked["corridor"].tolist()
    assert lists["demands"] == worked["demands"].tolist()
    assert lists["full"] == worked["plan"].tolist()
    with folder_of(B) as folder:
        project = Project.load(folder)
        for name, kind in (("record", 3), ("exits", 7)):
            record = project.record(folder / f"{name}.csv")
            assert (record.kind, record.words.tolist()) == (kind, worked[name].tolist())


# ---- what a table may leave out ----


def node_words(files: Files, node: int) -> dict[str, int]:
    """The words of a node, by the names of the columns."""
    corridor = loaded(files).corridor.words.tolist()
    width = (len(corridor) - 1) // (corridor[0] + 1)
    return dict(zip(NODE_WORDS, corridor[1 + width * node : 1 + width * (node + 1)]))


def test_no_limit_of_a_queue_is_the_greatest() -> None:
    in_units = changed(VALLEY, ("corridor.csv", "queue_limit_veh", "queue_limit_units"))
    assert node_words(VALLEY, 0)["queue_limit"] == node_words(in_units, 0)["queue_limit"] == NO_LIMIT


def test_a_link_without_figures_of_a_drop_does_not_drop() -> None:
    plain, dropping = node_words(VALLEY, 1), node_words(VALLEY, 2)
    assert (
        (plain["dropped_capacity"], plain["drop_density"]) == (plain["capacity"], plain["jam_density"]) == (800, 6_400)
    )
    assert (dropping["dropped_capacity"], dropping["drop_density"]) == (640, 2_304)


def test_the_columns_of_a_drop_make_kind_10_even_where_all_are_blank() -> None:
    blank = changed(VALLEY, ("corridor.csv", "3600,60", ","))
    drops = ("dropped_capacity_vph", "drop_density_vpkm")
    left_out = changed(blank, *(("corridor.csv", column, unread(column)) for column in drops))
    assert (loaded(blank).corridor.kind, loaded(left_out).corridor.kind) == (10, 1)
    assert node_words(blank, 2) == node_words(left_out, 2) | {"dropped_capacity": 800, "drop_density": 7_680}


def test_what_is_not_there_is_zero() -> None:
    words = node_words(VALLEY, 2)
    assert (words["ramp_capacity"], words["queue_limit"], words["start_queue"]) == (0, 0, 0)
    assert {name for name, word in node_words(VALLEY, 0).items() if word} == {
        "id",
        "ramp_capacity",
        "queue_limit",
        "start_queue",
    }


@pytest.mark.parametrize(
    "old, new",
    [
        ("10,Entry,,,,,,4500,none,,10,,", "10,Entry,0,0,0,0,0,4500,none,0,10,0,0"),
        ("10,Entry,,,,,,4500,none,,10,,", "10,Entry,,0,,0.0,,4500,none,,10,0,"),
        ("40,Harbour,500,4500,90,18,200,,,11,,,", "40,Harbour,500,4500,90,18,200,0,0,11,0,,"),
        ("40,Harbour,500,4500,90,18,200,,,11,,,", "40,Harbour,500,4500,90,18,200,,0,11,,,"),
    ],
    ids=["all of the entry's link", "some of the entry's link", "all of the end's ramp", "some of the end's ramp"],
)
def test_what_is_not_there_may_be_written_as_zero(old: str, new: str) -> None:
    assert project_words(changed(VALLEY, ("corridor.csv", old, new))) == project_words(VALLEY)


def demands_of(files: Files) -> tuple[np.ndarray, list[int]]:
    """Arrivals and splits by step and node, and what may leave downstream in each step."""
    project = loaded(files)
    demands = project.demands.words.tolist()
    steps, nodes = demands[0], project.links + 1
    end = 1 + 2 * steps * nodes
    return np.array(demands[1:end]).reshape(steps, nodes, 2), demands[end:]


def test_splits_and_downstream_may_be_left_out() -> None:
    whole, free = demands_of(VALLEY)
    assert whole[:, 1, 1].tolist() == [8_192, 8_192, 16_384, 16_384, 16_384, 16_384]
    assert free == [FULL, FULL, FULL, 560, 560, 560]
    rest, none = demands_of(without(VALLEY, "splits.csv", "downstream.csv"))
    assert none == [] and not rest[:, :, 1].any()
    assert rest[:, :, 0].tolist() == whole[:, :, 0].tolist()


def test_a_node_without_a_column_has_no_arrivals_and_no_exit() -> None:
    steps, _ = demands_of(VALLEY)
    assert not steps[:, 2:, :].any() and not steps[:, 0, 1].any()


# ---- arrivals ----


def time_text(seconds: Fraction) -> str:
    """A time of day, with decimals where it has some."""
    whole, rest = divmod(seconds, 1)
    decimals = decimal_text(rest)[1:]
    return f"{whole // 3600:02d}:{whole // 60 % 60:02d}:{whole % 60:02d}{decimals}"


def arriving(rows: dict[int, str], column: str, step: str, steps: int) -> list[int]:
    """The words that arrive in each step, where each row of the table starts with this step."""
    times = [time_text(25_200 + first * Fraction(step)) for first in sorted(rows)]
    files = changed(VALLEY, ("project.toml", "step_s = 10\nsteps = 6", f"step_s = {step}\nsteps = {steps}"))
    files["arrivals.csv"] = table({"from": times, column: [rows[first] for first in sorted(rows)]})
    files = without(files, "splits.csv", "downstream.csv", "plan-open.csv", "plan-metered.csv")
    return [int(word) for word in demands_of(files)[0][:, 0, 0]]


def held(rows: dict[int, str], steps: int) -> list[Fraction]:
    """The figure that holds in each step."""
    return [Fraction(rows[max(first for first in rows if first <= step)]) for step in range(steps)]


def series_of(texts: st.SearchStrategy[str]) -> st.SearchStrategy[dict[int, str]]:
    """Rows by the step that they start with, the first at the start of the project or before it."""
    return st.tuples(st.integers(-3, 0), texts, st.dictionaries(st.integers(1, 30), texts, max_size=8)).map(
        lambda drawn: {drawn[0]: drawn[1]} | drawn[2]
    )


@steady(120)
@given(rows=series_of(figures), step=step_lengths, steps=st.integers(1, 40))
@example(rows={0: "600", 2: "0", 3: "33.333"}, step="7.5", steps=24)
@example(rows={0: "0.1"}, step="0.25", steps=40)
def test_arrivals_are_within_half_a_unit_at_every_moment(rows: dict[int, str], step: str, steps: int) -> None:
    found = arriving(rows, "10_vph", step, steps)
    given_so_far, words_so_far = Fraction(0), 0
    assert len(found) == steps and max(found) < 2**31
    for figure, word in zip(held(rows, steps), found):
        given_so_far += exact_word(figure, "vph", Fraction(step), Fraction(1))
        words_so_far += word
        assert abs(words_so_far - given_so_far) <= HALF


@steady(25)
@given(rows=series_of(words.map(str)), step=step_lengths, steps=st.integers(1, 40))
def test_arrivals_in_units_are_exact(rows: dict[int, str], step: str, steps: int) -> None:
    assert arriving(rows, "10_units", step, steps) == held(rows, steps)


# ---- block files ----


def any_words(count: int) -> st.SearchStrategy[list[int]]:
    """So many words, of which many are alike."""
    return arrays(np.uint32, count, elements=words, fill=words).map(lambda array: [int(word) for word in array])


@st.composite
def lists(draw: st.DrawFn) -> dict[str, tuple[int, list[int]]]:
    """A corridor, demands, a plan and a record, each of any kind: the kind, and any words."""
    links, steps = draw(st.integers(1, 3)), draw(st.integers(1, 5))
    nodes, kinds = links + 1, draw(st.tuples(*map(st.sampled_from, ((1, 10), (2, 5), (3, 7)))))
    width = 9 if kinds[0] == 1 else 11
    corridor = np.array(draw(any_words(nodes * width)), np.uint32).reshape(nodes, width)
    corridor[:, 0] = draw(st.lists(words, min_size=nodes, max_size=nodes, unique=True))
    demands = draw(any_words(2 * steps * nodes + (steps if kinds[1] == 5 else 0)))
    record = draw(any_words((4 if kinds[2] == 3 else 5) * (steps + 1) * nodes + 2))
    return {
        "corridor": (kinds[0], [links, *corridor.reshape(-1).tolist()]),
        "demands": (kinds[1], [steps, *demands]),
        "plan-one": (4, draw(any_words(2 * steps * nodes))),
        "record": (kinds[2], record),
    }


def through_tables(files: dict[str, bytes], *options: str) -> dict[str, bytes]:
    """Block files, unpacked into the tables of a project and packed again."""
    with folder_of(files) as folder:
        status, printed = run(folder, "unpack", *files, "--into", "tables", *options)
        assert status == 0, printed
        tables = folder / "tables"
        assert {path.suffix for path in tables.iterdir()} == {".csv", ".toml"}
        status, printed = run(folder, "pack", "tables", "--into", "again", "--record", "tables/record.csv")
        assert status == 0, printed
        return {path.name: path.read_bytes() for path in (folder / "again").iterdir()}


@steady(100)
@given(lists=lists(), step=step_lengths)
def test_block_files_come_back_the_same(lists: dict[str, tuple[int, list[int]]], step: str) -> None:
    files = {f"{name}.blocks": block_file(kind, words) for name, (kind, words) in lists.items()}
    assert through_tables(files, "--step", step, "--start", "22:59:30") == files


def blocks_of(files: Files, plan: str) -> dict[str, bytes]:
    """The lists of a project as block files, with the record of a plan."""
    with folder_of(files) as folder:
        assert run(folder, "simulate", ".", plan, "-o", "record.blocks")[0] == 0
        assert run(folder, "pack", ".", "--into", "packed", "--record", "record.blocks")[0] == 0
        return {path.name: path.read_bytes() for path in (folder / "packed").iterdir()}


def test_pack_writes_the_lists_as_the_header_has_them() -> None:
    worked, kinds = worked_words(), {"corridor": 1, "demands": 2, "plan": 4, "record": 3}
    expected = {f"{name}.blocks": block_file(kind, worked[name]) for name, kind in kinds.items()}
    expected["plan-full.blocks"] = expected.pop("plan.blocks")
    assert blocks_of(B, "full") == expected


@pytest.mark.parametrize("step, start", [("7.123456789", "07:00"), ("10", "07:00:00.1234567")])
def test_times_of_many_decimals_come_back_too(step: str, start: str) -> None:
    files = blocks_of(VALLEY, "metered")
    assert through_tables(files, "--step", step, "--start", start) == files


def test_unpack_takes_names_lengths_and_times_from_a_project() -> None:
    names = changed(
        B, ("corridor.csv", "Mill Road", '"Älvsjö, ""norra"""'), ("project.toml", "step_s = 10", "step_s = 7.5")
    )
    files = blocks_of(B, "full")
    with folder_of({**names, **files}) as folder:
        status, printed = run(folder, "unpack", *files, "--into", "tables", "--like", ".")
        assert status == 0, printed
        model, project = Project.load(folder), Project.load(folder / "tables")
    assert project.clock == model.clock and project.title == "Corridor B"
    assert [node.label for node in project.corridor.nodes] == ["Entry (10)", 'Älvsjö, "norra" (20)', "Harbour (30)"]
    assert [node.length for node in project.corridor.nodes] == [None, 500, 500]


@pytest.mark.parametrize("name, kind", [("plan-one", 4), ("arrivals", 3), ("plan-one", 3)])
def test_a_file_that_would_take_the_place_of_another_is_not_lost(name: str, kind: int) -> None:
    """Two files that would become one table, such as a record that is called as the arrivals are."""
    worked = worked_words()
    lists = {"corridor": (1, "corridor"), "demands": (2, "demands"), "plan-one": (4, "plan")}
    files = {f"{stem}.blocks": block_file(number, worked[words]) for stem, (number, words) in lists.items()}
    with folder_of(files) as place:
        (place / "other").mkdir()
        second = Path("other", f"{name}.blocks")
        (place / second).write_bytes(block_file(kind, worked["normal form" if kind == 4 else "record"]))
        status, printed = run(place, "unpack", *files, str(second), "--into", "tables", "--step", "10")
    assert status != 0 and name in printed


@pytest.mark.parametrize("command, given", [("normal", "metered"), ("convert", "record.blocks")])
def test_a_plan_that_is_written_reads_back_the_same(command: str, given: str) -> None:
    """As a table and as a block file."""
    with folder_of(VALLEY) as folder:
        assert run(folder, "simulate", ".", "metered", "-o", "record.blocks")[0] == 0
        for name in ("plan.csv", "plan.blocks"):
            assert run(folder, command, ".", given, "-o", name)[0] == 0
        project = Project.load(folder)
        tables, blocks = (project.plan(folder / name).words.tolist() for name in ("plan.csv", "plan.blocks"))
        assert (folder / "plan.blocks").read_bytes() == block_file(4, blocks)
    assert tables == blocks != project_words(VALLEY)["metered"]


@pytest.mark.parametrize("kind, options", [(3, ()), (7, ("--exits",))])
def test_a_record_that_is_written_reads_back_the_same(kind: int, options: tuple[str, ...]) -> None:
    """As a table and as a block file, with the exits and without."""
    with folder_of(VALLEY) as folder:
        for name in ("record.csv", "record.blocks"):
            assert run(folder, "simulate", ".", "metered", "-o", name, *options)[0] == 0
            assert answer(folder, "check", ".", name)["kind"] == kind
        tables, blocks = (Project.load(folder).record(folder / name) for name in ("record.csv", "record.blocks"))
        assert (folder / "record.blocks").read_bytes() == block_file(kind, blocks.words)
    assert tables.words.tolist() == blocks.words.tolist()


# ---- the forms that a text file may have ----


def every_table(form: Callable[[str], str | bytes]) -> Files:
    """The valley road with each of its tables in another form."""
    return {name: form(str(text)) if name.endswith(".csv") else text for name, text in VALLEY.items()}


def reordered(text: str) -> str:
    """The columns in the reverse order."""
    return "".join(",".join(reversed(line.split(","))) + "\n" for line in text.splitlines())


def each_line(form: str) -> Callable[[str], str]:
    """Every line of a table in a form such as `{},,`."""
    return lambda text: "".join(form.format(line) + "\n" for line in text.splitlines())


def quoted(text: str) -> str:
    """Every cell in double quotes."""
    lines = (line.split(",") for line in text.splitlines())
    return "".join(",".join(f'"{cell}"' for cell in line) + "\n" for line in lines)


def between_lines(line: str) -> Callable[[str], str]:
    """A line before the names of the columns, after them and at the end."""
    return lambda text: line + text.replace("\n", "\n" + line)


FORMS: dict[str, Callable[[str], str | bytes]] = {
    "line ends of other systems": lambda text: text.replace("\n", "\r\n"),
    "no line end at the end": lambda text: text.removesuffix("\n"),
    "a byte order mark": lambda text: text.encode("utf-8-sig"),
    "a byte order mark before a comment": lambda text: ("# written by hand\n" + text).encode("utf-8-sig"),
    "columns in another order": reordered,
    "cells in quotes": quoted,
    "blank columns without a name": each_line("{},,"),
    "blanks around cells": lambda text: text.replace(",", " , "),
    "blank lines": between_lines("\n"),
    "lines of blank cells": between_lines(",,,,\n"),
    "comments": between_lines("# a remark, with commas,,,\n"),
    "comments with quotes": between_lines('# the "old" plan,"and the new\n'),
    "comments with a quote at the end": between_lines('#,"\n'),
    "a column that is not read": lambda text: each_line("{},-1")(text).replace("-1", unread("note"), 1),
}


@pytest.mark.parametrize("form", FORMS.values(), ids=FORMS)
def test_a_table_in_another_form_has_the_same_words(form: Callable[[str], str | bytes]) -> None:
    files = every_table(form)
    assert all(files[name] != text for name, text in VALLEY.items() if name.endswith(".csv"))
    assert project_words(files) == project_words(VALLEY)


SAME: dict[str, list[Edit]] = {
    "a column that is not read": [
        ("arrivals.csv", "from,10_vph,20_vph", f"from,10_vph,{unread('seen')},{unread('seen')},20_vph"),
        ("arrivals.csv", "07:00,3600,540", '07:00,3600,wet,"-1,5",540'),
        ("arrivals.csv", "07:00:30,4050,720", "07:00:30,4050,,,720"),
    ],
    "names left out": [("corridor.csv", "id,name", f"id,{unread('name')}")],
    "blank names": [("corridor.csv", "Entry", ""), ("corridor.csv", "Bridge", "")],
    "a name with a comma and quotes": [("corridor.csv", "Mill Road", '"Mill ""Old"" Road, north"')],
    "decimals of zero": [("corridor.csv", "20,Mill Road,500,4500", "20,Mill Road,500.0,4500.000")],
    "the start as a time of TOML": [("project.toml", '"07:00"', "07:00:00")],
    "a step with decimals": [("project.toml", "step_s = 10", "step_s = 10.00")],
    "no title": [("project.toml", 'title = "Valley road"\n', "")],
    "comments in project.toml": [("project.toml", "steps = 6", "steps = 6 # a minute")],
}


@pytest.mark.parametrize("edits", SAME.values(), ids=SAME)
def test_what_is_written_otherwise_has_the_same_words(edits: list[Edit]) -> None:
    assert project_words(changed(VALLEY, *edits)) == project_words(VALLEY)


def test_a_project_needs_no_plans() -> None:
    lists = project_words(
        without(changed(VALLEY, ("project.toml", "[plans]\n", "")), "plan-open.csv", "plan-metered.csv")
    )
    assert lists == {name: project_words(VALLEY)[name] for name in ("corridor", "demands")}


def test_names_may_have_any_letters() -> None:
    files = changed(VALLEY, ("corridor.csv", "Mill Road", "Łódź – 西"), ("project.toml", "Valley road", "Dolina Łódź"))
    with folder_of(files) as folder:
        status, printed = run(folder, "simulate", ".", "open")
    assert status == 0 and "Dolina Łódź" in printed and "Łódź – 西 (20)" in printed


# ---- times ----

OPEN = [(800, 0), (160, 32_768), (0, 27_307), (0, 32_768)]


def mill_road_rates(files: Files) -> list[int]:
    """The rates of Mill Road by step in the plan that meters it."""
    return [rate for rate, _ in plan_words(files, "metered")[1::4]]


def rates_of(rows: str) -> list[int]:
    """The rates of Mill Road by step in a plan with these rows."""
    return mill_road_rates({**VALLEY, "plan-metered.csv": f"id,from,until,rate_units\n{rows}"})


TIMES = {
    "07:00:20": 2,
    "07:00:20.0": 2,
    "07:00": 0,
    "07:01": 6,
    "06:00": 0,
    "06:59:57.5": 0,
    "08:30:12": 6,
    "31:00": 6,
    "": 0,
}


@pytest.mark.parametrize("time, step", TIMES.items())
def test_a_row_of_a_plan_holds_from_its_time_on(time: str, step: int) -> None:
    assert rates_of(f"20,{time},,7\n") == [160] * step + [7] * (6 - step)


@pytest.mark.parametrize("time, step", [(time, step) for time, step in TIMES.items() if time] + [("", 6)])
def test_a_row_of_a_plan_holds_until_its_time(time: str, step: int) -> None:
    assert rates_of(f"20,,{time},7\n") == [7] * step + [160] * (6 - step)


@pytest.mark.parametrize(
    "start, step, time",
    [
        ('"23:59:50"', "10", "24:00:10"),
        ('"25:00"', "10", "25:00:20"),
        ('"07:00:07.5"', "7.5", "07:00:22.5"),
        ('"07:00"', "0.25", "07:00:00.50"),
        ('"07:00"', "1800", "08:00"),
        ("07:00:07.500", "7.5", "07:00:22.5"),
    ],
)
def test_times_are_exact_after_midnight_and_with_decimals(start: str, step: str, time: str) -> None:
    edits = [("project.toml", '"07:00"', start), ("project.toml", "step_s = 10", f"step_s = {step}")]
    files = changed(VALLEY, *edits, ("corridor.csv", "ramp_capacity_vph", "ramp_capacity_units"))
    files = without(files, "splits.csv", "downstream.csv", "plan-open.csv")
    files["arrivals.csv"] = f"from,10_units\n00:00,1\n{time},5\n"
    files["plan-metered.csv"] = f"id,from,until,rate_units\n20,{time},,7\n"
    assert demands_of(files)[0][:, 0, 0].tolist() == [1, 1, 5, 5, 5, 5]
    assert mill_road_rates(files) == [900, 900, 7, 7, 7, 7]


@pytest.mark.parametrize(
    "rows, expected",
    [
        ("07:00,1\n", [1, 1, 1, 1, 1, 1]),
        ("05:00,1\n06:00,2\n06:59:50,3\n", [3, 3, 3, 3, 3, 3]),
        ("06:59:51,1\n06:59:55,2\n07:00:10,3\n", [2, 3, 3, 3, 3, 3]),
        ("06:59:51,1\n07:00,2\n", [2, 2, 2, 2, 2, 2]),
        ("07:00,1\n07:00:50,2\n07:01,3\n09:00,4\n", [1, 1, 1, 1, 1, 2]),
        ("07:00,1\n07:01:03,2\n07:01:07,3\n", [1, 1, 1, 1, 1, 1]),
    ],
    ids=["one row", "rows before", "rows in the step before", "one row before", "rows past", "rows in a step past"],
)
@pytest.mark.parametrize("file, column, node, place", [("arrivals.csv", "10", 0, 0), ("splits.csv", "20", 1, 1)])
def test_rows_of_a_series_outside_the_steps(
    rows: str, expected: list[int], file: str, column: str, node: int, place: int
) -> None:
    files = {**VALLEY, file: f"from,{column}_units\n{rows}"}
    assert demands_of(files)[0][:, node, place].tolist() == expected


# ---- plans ----


def test_a_plan_without_rows_is_full_speed_at_the_ramps_capacity() -> None:
    assert plan_words(VALLEY, "open") == OPEN * 6


def test_what_a_row_does_not_say_stays_full() -> None:
    """Mill Road is metered at 80 and then at 64 units, and the link to Bridge has a limit of 72 km/h from step 3 on."""
    slow = floor(exact_word(Fraction(72), "kmh", Fraction(10), Fraction(600)) + HALF)
    expected = OPEN * 6
    for step in range(6):
        expected[4 * step + 1] = (80 if step < 2 else 64, 32_768)
        expected[4 * step + 2] = (0, 27_307 if step < 3 else slow)
    assert plan_words(VALLEY, "metered") == expected


@pytest.mark.parametrize(
    "rows, expected",
    [
        ("20,06:00,06:59:50,7\n", [160] * 6),
        ("20,07:01,07:02,7\n", [160] * 6),
        ("20,06:00:01,06:00:05,7\n", [160] * 6),
        ("20,07:01:01,07:01:05,7\n", [160] * 6),
        ("20,06:00,07:00:10,7\n20,07:00:50,08:00,8\n", [7, 160, 160, 160, 160, 8]),
        ("20,05:00,06:30,7\n20,06:00,06:45,8\n", [160] * 6),
        ("20,07:00:30,,9\n20,,07:00:30,8\n", [8, 8, 8, 9, 9, 9]),
        ("20,07:00:10,07:00:20,0\n", [160, 0, 160, 160, 160, 160]),
        ("40,,,7\n", [160] * 6),
    ],
    ids=[
        "before",
        "past",
        "within a step before",
        "within a step past",
        "across start and end",
        "two rows before that overlap",
        "rows in another order",
        "a rate of zero",
        "another node",
    ],
)
def test_rows_of_a_plan_and_the_steps(rows: str, expected: list[int]) -> None:
    assert rates_of(rows) == expected


def test_a_plan_of_the_project_may_be_a_block_file() -> None:
    files = changed(VALLEY, ("project.toml", "plan-open.csv", "plan-open.blocks"))
    files["plan-open.blocks"] = block_file(4, range(48))
    assert project_words(files)["open"] == [*range(48)]


def test_two_rows_may_say_different_things_of_one_time() -> None:
    rows = "id,from,until,rate_units,limit_units\n20,07:00,,7,\n20,07:00,,,8\n"
    assert plan_words({**VALLEY, "plan-open.csv": rows}, "open")[1] == (7, 8)


# ---- records ----


@pytest.mark.parametrize(
    "form",
    [
        lambda lines: [lines[0], *reversed(lines[1:])],
        lambda lines: [lines[0], *lines[1:][::2], "# the rest", *lines[1:][1::2]],
        lambda lines: [line + end for line, end in zip(lines, [f",{unread('by')},", *[",hand,"] * 6])],
    ],
    ids=["reversed", "mixed", "with other columns"],
)
@pytest.mark.parametrize("name", ["record", "exits"])
def test_the_rows_of_a_record_may_be_in_any_order(form: Callable[[list[str]], list[str]], name: str) -> None:
    other = "\n".join(form(str(B[f"{name}.csv"]).splitlines()))
    with folder_of({**B, "other.csv": other}) as folder:
        assert Project.load(folder).record(Path(folder, "other.csv")).words.tolist() == worked_words()[name].tolist()


def test_a_record_may_have_any_words_and_a_cost_of_64_bits() -> None:
    edits = [("record.csv", "0,20,200,50", f"0,20,{GREATEST},{GREATEST}"), ("record.csv", "370", str(2**64 - 2))]
    with folder_of(changed(B, *edits)) as folder:
        record = Project.load(folder).record(folder / "record.csv")
    assert record.words[4:6].tolist() == [GREATEST, GREATEST]
    assert record.words[-2:].tolist() == [GREATEST - 1, GREATEST] and record.cost == 2**64 - 2
