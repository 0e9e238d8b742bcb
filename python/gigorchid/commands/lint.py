"""gigorchid lint: what a project gave, in words and back, and what looks wrong."""

from __future__ import annotations

from collections.abc import Iterable
from fractions import Fraction

from rich.table import Table

from .. import lint
from ..figures import MARK, NOT_PROVED
from ..plans import Plan
from ..project import Project
from ..sheets import Fault
from ..tell import Told
from ..units import SYMBOLS, decimal, factor, tidy
from .base import (
    ACCEPTED,
    FAULTY,
    REFUSED,
    Outcome,
    Shown,
    command as make_command,
    load_project,
    project_argument,
    refused,
    table,
)

OVER_A_LIMIT = 12


def _lines_text(lines: list[int]) -> str:
    """Line numbers, runs of them joined."""
    parts: list[list[int]] = []
    for line in lines:
        if parts and parts[-1][-1] + 1 == line:
            parts[-1].append(line)
        else:
            parts.append([line])
    return ", ".join(str(part[0]) if len(part) == 1 else f"{part[0]}-{part[-1]}" for part in parts)


def _change(each: lint.Rounded) -> str:
    if not each.change:
        return "exact"
    share = abs(each.change) * 100
    sign = "-" if each.change < 0 else "+"
    return f"{sign}{decimal(share, 2)} %" if share >= Fraction(1, 100) else "under 0.01 %"


def _figures(figures: list[lint.Rounded]) -> list[Shown]:
    """A table for each file, of the figures that were converted."""
    shown: list[Shown] = []
    for file in dict.fromkeys(each.file for each in figures):
        rows = [
            [
                each.column,
                _lines_text(each.lines),
                each.text,
                f"{each.word:,}",
                f"{tidy(decimal(each.back, 2))} {SYMBOLS[each.ending]}",
                _change(each),
            ]
            for each in figures
            if each.file == file
        ]
        shown += [
            "",
            table([file, "lines", "given", f"units {MARK}", f"which is {MARK}", f"rounding {MARK}"], rows, words=2),
        ]
    return shown or ["", "every figure is given in exact units"]


def _plans(project: Project) -> tuple[list[Plan], list[Fault]]:
    """The plans that can be read, and the faults of the others."""
    plans, faults = [], []
    for name in project.plans:
        try:
            plans.append(project.plan(name))
        except Fault as fault:
            faults.append(fault)
    return plans, faults


def _verdicts(project: Project, plans: list[Plan]) -> tuple[list[str], dict[str, object], bool]:
    """What the library says of each plan: a line and data, and whether one is refused by 1 to 6."""
    lines: list[str] = []
    data: dict[str, object] = {}
    bad = False
    for plan in plans:
        try:
            project.normal(plan)
        except Told as told:
            bad = bad or told.number != OVER_A_LIMIT
            lines.append(f"plan {plan.name}: not valid: {told}")
            data[plan.name] = told.as_json()
        else:
            lines.append(f"plan {plan.name}: valid")
            data[plan.name] = None
    return lines, data, bad


def _kinds(road: Project) -> str:
    """What the tables say of drops and of what lies downstream, and how coarse a unit of flow is."""
    drops = (
        "some links may drop (corridor of kind 10)"
        if road.corridor.kind == 10
        else "no link drops (corridor of kind 1)"
    )
    beyond = "less may leave downstream (demands of kind 5)"
    free = "traffic past the last link is free (demands of kind 2)"
    unit = tidy(decimal(1 / factor("vph", road.clock.step), 3))
    return f"{drops}; {beyond if road.demands.kind == 5 else free}; one unit of flow is {unit} veh/h"


def _arrivals(arrivals: list[lint.Arrived]) -> Table:
    rows = [[each.column, decimal(each.vehicles_given, 3), decimal(each.vehicles_rounded, 3)] for each in arrivals]
    return table(["arrivals", f"given, veh {MARK}", f"after rounding, veh {MARK}"], rows)


def _figure_data(figures: Iterable[lint.Rounded]) -> list[dict[str, object]]:
    return [
        {
            "file": each.file,
            "lines": each.lines,
            "column": each.column,
            "given": each.text,
            "word": each.word,
            "is": each.back,
            "rounding": each.change,
        }
        for each in figures
    ]


def _data(road: Project, figures: list[lint.Rounded], arrivals: list[lint.Arrived]) -> dict[str, object]:
    return {
        "links": road.links,
        "steps": road.steps,
        "corridor_kind": road.corridor.kind,
        "demands_kind": road.demands.kind,
        "not_proved": {"figures": _figure_data(figures), "arrivals": [each._asdict() for each in arrivals]},
    }


def _faults_data(faults: list[Fault]) -> dict[str, object]:
    if not faults:
        return {}
    return {"verdict": "FAULTY", "fault": faults[0].as_json(), "faults": [fault.as_json() for fault in faults]}


@make_command("lint", short_help="What a project gave, in units and back, with warnings.")
@project_argument
def command(project: str) -> Outcome:
    """Show every figure of PROJECT with the word that it becomes and what that word is in the figure's unit; then warnings.

    The library is asked about corridor and demands, and about each plan. Every plan is read, also where one is faulty. Warnings do not
    change the exit status; a fault and a refusal by 1 to 6 do.
    """
    road = load_project(project)
    try:
        road.simulate(road.full_plan())
    except Told as told:
        return refused(told)
    plans, faults = _plans(road)
    verdicts, told_plans, bad = _verdicts(road, plans)
    warned = lint.warnings(road, plans)
    figures = lint.corridor_figures(road) + lint.split_figures(road)
    figures += [each for plan in plans for each in lint.plan_figures(plan)]
    arrivals = lint.arrived(road)
    span = f"{road.clock.at(0)} to {road.clock.at(road.steps)}"
    lines: list[Shown] = [
        f"{road.title}: {road.links} links, {road.steps:,} steps of {float(road.clock.step):g} s, {span}",
        _kinds(road),
        *_figures(figures),
        "",
        _arrivals(arrivals),
        NOT_PROVED,
        "",
        *verdicts,
        *[str(fault) for fault in faults],
        *[f"warning: {each}" for each in warned],
        f"{len(warned)} warning" + ("" if len(warned) == 1 else "s"),
    ]
    data = _data(road, figures, arrivals) | {"plans": told_plans, "warnings": warned} | _faults_data(faults)
    return Outcome(data, lines, FAULTY if faults else REFUSED if bad else ACCEPTED)
