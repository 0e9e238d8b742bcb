"""gigorchid compare: whether two plans do the same on the road."""

from __future__ import annotations

from pathlib import Path

import click

from ..compare import DIFFERENT, NOT_COMPARABLE, SAME, Comparison, First, Side, Written, compare, side
from ..differences import (
    BY_IDENTIFIER,
    NOT_IN_TIME,
    ONLY_WRITTEN,
    SHARED_COLUMNS,
    WRITTEN_ALIKE,
    WRITTEN_COLUMNS,
    first_lines,
    in_time,
    named,
    only_in_one,
    shared_line,
    shared_rows,
    written_rows,
)
from ..figures import NOT_PROVED, travel
from ..layout import LIMIT, RATE
from ..plans import Plan
from ..project import FILE, Project
from ..records import COLUMNS
from ..verdicts import of_comparison
from .base import ACCEPTED, Outcome, Shown, Unusable, command as make_command, load_plan, load_project, table, warned
from .base import DIFFERENT as STATUS_DIFFERENT, NOT_COMPARABLE as STATUS_NOT_COMPARABLE

STATUS = {SAME: ACCEPTED, DIFFERENT: STATUS_DIFFERENT, NOT_COMPARABLE: STATUS_NOT_COMPARABLE}
MOST_SHOWN = 20


def operand(text: str, project: Project | None) -> tuple[Project, Plan]:
    """A plan of a project: PROJECT:PLAN, the file of a plan in a project's folder, or a plan of the project that is known already."""
    folder, colon, name = text.rpartition(":")
    if colon and folder:
        found = load_project(folder)
        return found, load_plan(found, name)
    if project is not None and (text in project.plans or Path(text).is_file()):
        return project, load_plan(project, text)
    if Path(text).is_file():
        for parent in Path(text).resolve().parents:
            if (parent / FILE).is_file():
                found = load_project(str(parent))
                return found, load_plan(found, text)
    raise Unusable(
        f"{text}: expected PROJECT:PLAN, a plan of the project before it, or the file of a plan in a project's folder"
    )


@make_command("compare", short_help="Whether two plans do the same on the road.")
@click.argument("first", metavar="A")
@click.argument("second", metavar="B")
def command(first: str, second: str) -> Outcome:
    """Compare the plans A and B by what they do on the road.

    A and B are each PROJECT:PLAN, or the file of a plan in a project's folder; B may also be the name of a plan in A's project.

    Where both plans are valid their normal forms decide, which are equal exactly when their records are, in every word. The equivalence
    covers valid plans: where one lets a queue pass its limit, the records are compared, and this is said. Where the corridors or what
    arrives differ, as when a link was inserted, the plans are not comparable, and what can be said is said by identifier.
    """
    project, plan = operand(first, None)
    other, plan_b = operand(second, project)
    found = compare(side(project, plan), side(other, plan_b))
    lines = _by_identifier(found) if found.verdict == NOT_COMPARABLE else _on_one_road(found)
    warnings = warned(plan, plan_b)
    return Outcome(
        _data(found, first, second),
        [str(of_comparison(found)), f"A: {named(found.a, first)}", f"B: {named(found.b, second)}", *warnings, *lines],
        STATUS[found.verdict],
    )


def _on_one_road(found: Comparison) -> list[Shown]:
    lines: list[Shown] = [*first_lines(found)]
    rows = written_rows(found)
    if rows:
        lines += ["", ONLY_WRITTEN, table(WRITTEN_COLUMNS, rows[:MOST_SHOWN], words=5)]
        if len(rows) > MOST_SHOWN:
            lines.append(f"and {len(rows) - MOST_SHOWN:,} more; --json lists them all")
    elif found.verdict == SAME:
        lines.append(WRITTEN_ALIKE)
    return lines + ([NOT_PROVED] if found.first_word is not None else [])


def _by_identifier(found: Comparison) -> list[Shown]:
    lines: list[Shown] = [*only_in_one(found), "" if in_time(found) else NOT_IN_TIME]
    rows = shared_rows(found)
    if rows:
        lines += [BY_IDENTIFIER, table(SHARED_COLUMNS, rows, words=2)]
    return lines + [shared_line(found), NOT_PROVED]


def _first_data(found: Comparison, first: First | None, names: tuple[str, ...]) -> dict[str, object] | None:
    if first is None:
        return None
    node = found.a.project.corridor.nodes[first.node]
    time = found.a.project.clock.at(first.state)
    return {
        "time": time,
        "state": first.state,
        "id": node.identifier,
        "word": names[first.place],
        "a": first.a,
        "b": first.b,
    }


def _data(found: Comparison, first: str, second: str) -> dict[str, object]:
    sides = {"a": found.a, "b": found.b}
    data: dict[str, object] = {
        "a": first,
        "b": second,
        "verdict": found.verdict,
        "by": found.by,
        "reasons": found.reasons,
        "valid": {name: each.refusal is None for name, each in sides.items()},
        "refusals": {name: each.refusal.as_json() if each.refusal else None for name, each in sides.items()},
        "warnings": {name: each.plan.outside() for name, each in sides.items()},
    }
    if found.verdict == NOT_COMPARABLE:
        return data | _data_by_identifier(found)
    hours = {f"vehicle_hours_{name}": travel(each.record).hours for name, each in sides.items()}
    return data | {
        "first_in_normal_forms": _first_data(found, found.first_setting, ("rate_units", "limit_units")),
        "first_in_records": _first_data(found, found.first_word, COLUMNS),
        "only_written_differently": [_written_data(found, run) for run in found.only_written],
        "not_proved": {"places_different": found.places_different} | hours,
    }


def _written_data(found: Comparison, run: Written) -> dict[str, object]:
    clock, node = found.a.project.clock, found.a.project.corridor.nodes[run.node]
    both = {
        name: {"rate_units": words[RATE], "limit_units": words[LIMIT]} for name, words in (("a", run.a), ("b", run.b))
    }
    return {"id": node.identifier, "from": clock.at(run.start), "until": clock.at(run.end), **both}


def _data_by_identifier(found: Comparison) -> dict[str, object]:
    clock = found.a.project.clock

    def identifiers(each: Side, places: list[int]) -> list[int]:
        return [each.project.corridor.nodes[place].identifier for place in places]

    shared = [
        {
            "id": each.identifier,
            "corridor": each.columns,
            "first_difference": {name: None if at is None else clock.at(at) for name, at in each.firsts.items()},
        }
        for each in found.shared
    ]
    return {
        "only_in_a": identifiers(found.a, found.only_in_a),
        "only_in_b": identifiers(found.b, found.only_in_b),
        "shared": shared,
    }
