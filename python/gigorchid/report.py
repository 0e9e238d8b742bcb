"""A page to sign: one HTML file that needs nothing else, with the verdict, the ramps, the maps, what is posted, and what it was made from."""

from __future__ import annotations

import base64
import hashlib
from collections.abc import Mapping, Sequence
from pathlib import Path
from typing import Any, NamedTuple

import jinja2

from . import __version__, calls, differences, drawing, layout, library, maps, pictures
from .compare import NOT_COMPARABLE, SAME, Comparison, Side
from .corridor import NO_LIMIT
from .figures import MARK, NOT_PROVED, greatest_queues
from .layout import Words
from .maps import QUANTITIES, QUEUE, Map
from .pictures import NARROW, WIDE, Layout
from .plans import Plan
from .records import NARROW as RECORD_WORDS
from .settings import by_node
from .subjects import Column, Subject
from .units import ONE, SYMBOLS, factor
from .summaries import POSTED_COLUMNS, QUEUE_COLUMNS, limit_text, per_hour, posted_rows, queue_rows, travel_lines

FOLDER = Path(__file__).resolve().parent / "page"
MOST_POSTED = 120
"""Of more rows than this a page shows what is set at each node, and not each run of steps."""
MOST_WRITTEN = 40


class Part(NamedTuple):
    """A table of the page: its first columns in words, the others in figures, and of some rows the columns that are marked."""

    title: str
    columns: Sequence[str]
    rows: Sequence[Sequence[str]]
    words: int = 1
    alert: Mapping[int, Sequence[int]] = {}
    after: str = ""


class Lines(NamedTuple):
    """A list of the page."""

    title: str
    lines: Sequence[str]


class Row(NamedTuple):
    """The maps of one quantity."""

    title: str
    maps: Sequence[dict[str, object]]


def page(shown: Subject) -> str:
    """The page of a plan, or of two."""
    environment = jinja2.Environment(
        loader=jinja2.FileSystemLoader(FOLDER), autoescape=True, undefined=jinja2.StrictUndefined, trim_blocks=True
    )
    environment.globals["tabled"] = environment.get_template("tables.html").module.tabled  # type: ignore[attr-defined]
    rows, data = _maps(shown)
    return environment.get_template("report.html").render(
        title=shown.title,
        many=shown.comparison is not None,
        verdict=shown.verdict,
        stopping=shown.stopping,
        badge=shown.badge,
        beneath=_beneath(shown),
        facts=_facts(shown),
        differences=_differences(shown.comparison),
        difference_tables=_difference_tables(shown.comparison),
        ramps=_ramps(shown),
        window=_window(shown),
        rows=rows,
        signs=_signs(shown),
        settings=[_posted(shown, key, side.plan) for key, side in shown.sides.items()],
        figures=[Lines(_titled(shown, key), travel_lines(side.record)[:-1]) for key, side in shown.sides.items()],
        signed=_signed(shown),
        not_proved=NOT_PROVED,
        hashes=_hashes(shown),
        data=data,
        css=_source("report.css"),
        js=_source("report.js"),
    )


def _source(name: str) -> str:
    """A file of the page that stands in it as it is."""
    return (FOLDER / name).read_text()


def _titled(shown: Subject, key: str) -> str:
    """The heading of what is said of one of two plans."""
    return "" if shown.comparison is None else f"{key}, {shown.names[key]}"


def _beneath(shown: Subject) -> list[tuple[bool, str]]:
    """What belongs to the verdict, each line with whether it must not be passed over."""
    lines = [(True, line) for line in shown.not_valid()] + [(False, line) for line in shown.rewritten()]
    for key, side in shown.sides.items():
        if shown.comparison is not None and side.refusal is None:
            lines.append((False, f"{key}: {differences.named(side, shown.names[key])}"))
        lines += [(False, f"{line} {MARK}") for line in (side.refusal.rest if side.refusal else [])]
        lines += [(False, f"warning: {each}") for each in side.plan.outside()]
    return lines


def _facts(shown: Subject) -> list[tuple[str, str]]:
    """The road and the time that were simulated."""
    found = []
    for key, side in shown.sides.items():
        project, clock = side.project, side.project.clock
        road = f"{project.links} links, {project.corridor.nodes[0].label} to {project.corridor.nodes[-1].label}"
        time = f"{clock.at(0)} to {clock.at(clock.steps)} in {clock.steps:,} steps of {float(clock.step):g} s"
        if shown.one_road:
            return [("Road", road), ("Time", time)]
        found += [(f"Road of {key}", road), (f"Time of {key}", time)]
    return found


def _differences(found: Comparison | None) -> list[str]:
    """Where two plans differ, in sentences."""
    if found is None:
        return []
    if found.verdict == NOT_COMPARABLE:
        lines = differences.only_in_one(found)
        lines += [] if differences.in_time(found) else [differences.NOT_IN_TIME]
        return [*lines, differences.shared_line(found)]
    alike = found.verdict == SAME and not found.only_written
    return differences.first_lines(found) + ([differences.WRITTEN_ALIKE] if alike else [])


def _difference_tables(found: Comparison | None) -> list[Part]:
    if found is None:
        return []
    if found.verdict == NOT_COMPARABLE:
        rows = differences.shared_rows(found)
        return [Part(_heading(differences.BY_IDENTIFIER), differences.SHARED_COLUMNS, rows, 2)] if rows else []
    rows = differences.written_rows(found)
    more = f"and {len(rows) - MOST_WRITTEN:,} more" if len(rows) > MOST_WRITTEN else ""
    part = Part(_heading(differences.ONLY_WRITTEN), differences.WRITTEN_COLUMNS, rows[:MOST_WRITTEN], 5, after=more)
    return [part] if rows else []


def _heading(text: str) -> str:
    """A sentence that leads to a table, as the table's heading."""
    return text[0].upper() + text[1:].removesuffix(":")


def _ramps(shown: Subject) -> list[Part]:
    """The table of ramps, with those marked whose queue passes its limit: one for two plans on one road."""
    over = {key: _over(side) for key, side in shown.sides.items()}
    if shown.comparison is None or not shown.one_road:
        every = range(len(QUEUE_COLUMNS))
        return [
            Part(_titled(shown, key), QUEUE_COLUMNS, queue_rows(side.record), 1, {row: every for row in over[key]})
            for key, side in shown.sides.items()
        ]
    marked = {
        row: [0, 1, *((2, 3) if row in over["A"] else ()), *((4, 5) if row in over["B"] else ())]
        for row in sorted({*over["A"], *over["B"]})
    }
    return [Part("", RAMP_COLUMNS, _both_queues(shown), 1, marked)]


def _over(side: Side) -> list[int]:
    """The rows of the table of ramps whose queue passes its limit."""
    return [at for at, most in enumerate(greatest_queues(side.record)) if most.queue > most.limit]


RAMP_COLUMNS = ["ramp", "limit, veh", f"A longest, veh {MARK}", f"at {MARK}", f"B longest, veh {MARK}", f"at {MARK}"]


def _both_queues(shown: Subject) -> list[list[str]]:
    """The longest queue of each ramp in A and in B, which have the same ramps: a node that no plan can meter has the same queue in both."""
    both = [queue_rows(side.record) for side in shown.sides.values()]
    return [[a[0], a[2], a[1], a[4], b[1], b[4]] for a, b in zip(*both, strict=True)]


def _window(shown: Subject) -> str:
    """What part of the record the maps show."""
    cut = shown.cut()
    whole = "All links, at all times that were simulated."
    return f"Only {cut}; the verdict and the tables are on the whole." if cut else whole


def _signs(shown: Subject) -> list[dict[str, str]]:
    rows = [[column.map(quantity) for column in shown.columns] for quantity in QUANTITIES]
    names = pictures.sign_names(rows, shown.columns)
    return [{"name": name, "label": pictures.SIGNS[name]["label"]} for name in names]


def _posted(shown: Subject, key: str, plan: Plan) -> Part:
    """What a plan posts: each run of steps or, of very many, what is set at each node."""
    rows = posted_rows(plan)
    title = _titled(shown, key)
    if not rows:
        return Part(title, POSTED_COLUMNS, [], after="Nothing is metered, and no limit below full speed is posted.")
    if len(rows) <= MOST_POSTED:
        after = "A blank rate is the ramp's capacity, a blank limit full speed; so is all that no row says."
        return Part(title, POSTED_COLUMNS, rows, 3, after=after)
    said = f"The plan has {len(rows):,} settings below full speed or the ramp's capacity: what is set at each node, in short."
    columns = [
        "node",
        f"least rate, veh/h {MARK}",
        f"lowest limit {MARK}",
        f"limited in steps {MARK}",
        f"changes {MARK}",
    ]
    return Part(title, columns, [_node_row(plan, each) for each in by_node(plan)], 1, after=said)


def _node_row(plan: Plan, found: Any) -> list[str]:
    limit = limit_text(found.least_limit, found.node, plan) if found.held_steps else ""
    rate = per_hour(found.least_rate, plan) if found.greatest_rate else ""
    return [plan.corridor.nodes[found.node].label, rate, limit, f"{found.held_steps:,}", f"{found.changes:,}"]


def _signed(shown: Subject) -> str:
    """What a signature is put to."""
    plans = " and ".join(shown.names.values())
    many = "plans" if len(shown.sides) > 1 else "plan"
    seen = " A signature says that this was seen, not that a plan may run that is not valid."
    invalid = any(side.refusal is not None for side in shown.sides.values())
    return f"For the {many} {plans}, word for word as the SHA-256 below tells.{seen if invalid else ''}"


def _hashes(shown: Subject) -> list[tuple[str, str]]:
    """What the page was made from: the library, and the lists as block files, as `gigorchid pack` writes them."""
    found = {"library": f"gigorchid {__version__}", "its SHA-256": library.digest()}
    for key, side in shown.sides.items():
        project, mine = side.project, "" if shown.one_road else f" of {key}"
        links, steps = project.links, project.steps
        written = {
            f"corridor{mine}": calls.write_corridor(links, steps, project.corridor.words),
            f"demands{mine}": calls.write_demands(links, steps, project.demands.words),
            f"plan {_titled(shown, key) or side.plan.name}": calls.write_plan(links, steps, side.plan.words),
        }
        for name, content in written.items():
            digest = hashlib.sha256(content.tobytes()).hexdigest()
            # Lists of two kinds can be of one road.
            found[name if found.get(name, digest) == digest else f"{name} of {key}"] = digest
    return list(found.items())


def _as_text(words: Words) -> str:
    """Words as text that the page takes apart again."""
    return base64.b64encode(words.astype("<u4").tobytes()).decode()


def _side_data(side: Side) -> dict[str, object]:
    clock, corridor, record = side.record.clock, side.record.corridor, side.record.states[:, :, :RECORD_WORDS]
    sections = [corridor.speed(ONE, node, clock.step) if node else None for node in range(len(corridor.nodes))]
    return {
        "perHour": float(1 / factor("vph", clock.step)),
        "capacities": _corridor_words(side, layout.RAMP_CAPACITY),
        "full": _corridor_words(side, layout.FULL_SPEED),
        "limits": [None if word == NO_LIMIT else word for word in _corridor_words(side, layout.QUEUE_LIMIT)],
        "kilometres": [None if node.length is None else float(node.length / 1000) for node in corridor.nodes],
        "sections": [None if speed is None else float(speed) for speed in sections],
        "speeds": SYMBOLS[corridor.speeds],
        "toLength": maps.to_length(side.record),
        "times": [clock.at(state) for state in range(clock.steps + 1)],
        "nodes": [node.label for node in corridor.nodes],
        "record": _as_text(record.reshape(-1)),
        "plan": _as_text(side.plan.words),
    }


def _corridor_words(side: Side, place: int) -> list[int]:
    """A word of each node."""
    corridor = side.record.corridor
    return [corridor.word(node, place) for node in range(len(corridor.nodes))]


def _maps(shown: Subject) -> tuple[list[Row], dict[str, object]]:
    """The pictures of the maps, row by row, and what the page needs to find the words of a place."""
    rows: list[Row] = []
    data: list[dict[str, object]] = []
    all_maps = [[column.map(quantity) for column in shown.columns] for quantity in QUANTITIES]
    rights = {name: pictures.names_width(all_maps, shown.columns, look) for name, look in _LOOKS.items()}
    for found in all_maps:
        made = []
        for at, column in enumerate(shown.columns):
            drawn = {
                name: pictures.map_picture(shown.columns, at, found, look, rights[name])
                for name, look in _LOOKS.items()
            }
            told = f"{drawing.title_of(found[at])}{f' of {column.title}' if column.title and not column.less else ''}"
            made.append(
                {"number": len(data), "told": told} | {name: _address(each.svg) for name, each in drawn.items()}
            )
            data.append(
                _map_data(column, found[at]) | {name: each._asdict() | {"svg": None} for name, each in drawn.items()}
            )
        rows.append(Row(drawing.title_of(found[0]), made))
    return rows, {"sides": {key: _side_data(side) for key, side in shown.sides.items()}, "maps": data}


_LOOKS: dict[str, Layout] = {"wide": WIDE, "narrow": NARROW}


def _address(svg: bytes) -> str:
    """A picture as an address that holds all of it."""
    return f"data:image/svg+xml;base64,{base64.b64encode(svg).decode()}"


def _map_data(column: Column, shown: Map) -> dict[str, object]:
    """Where the words of a map's places stand, and where its rows are from below, as shares of its height."""
    edges = drawing.edges_of(shown, column.side.record)
    low, high = (edges[0][0], edges[-1][1]) if edges else (0.0, 1.0)
    levels = [low, *(top for _, top in edges)] if edges else []
    return {
        "sides": [column.key] if column.less is None else ["A", "B"],
        "place": maps.PLACES[shown.quantity],
        "ramps": shown.quantity == QUEUE,
        "quantity": shown.quantity,
        "first": shown.first,
        "columns": column.window.last + 1 - column.window.first,
        "filled": len(shown.states),
        "nodes": shown.nodes,
        "edges": [(level - low) / (high - low) for level in levels],
    }
