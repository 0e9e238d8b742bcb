"""What a project gave, in words and back, and what in it looks wrong to an engineer though the library may take it."""

from __future__ import annotations

from collections.abc import Iterable
from fractions import Fraction
from typing import NamedTuple

from . import layout
from .demands import Series
from .plans import Plan, SheetSource
from .project import Project
from .sheets import Cell
from .tell import vehicles
from .units import ONE, SYMBOLS, UNITS_PER_VEHICLE, decimal, factor, tidy

LEAST_SHARE, GREATEST_SHARE = Fraction(1, 2), Fraction(2)
"""A capacity outside these shares of what speeds and jam make is probably a slip."""

COARSE = Fraction(1, 100)
"""A figure that rounding changes by more than this is worth a warning."""


class Rounded(NamedTuple):
    """A figure that stands in one or more lines of a table, with its word and what the word is in its unit."""

    file: str
    column: str
    lines: list[int]
    text: str
    word: int
    back: Fraction
    ending: str

    @property
    def change(self) -> Fraction | None:
        """By which share of the figure the rounding changes it."""
        figure = Fraction(self.text)
        return (self.back - figure) / figure if figure else None


class Arrived(NamedTuple):
    """What a column of arrivals gives over all steps, in vehicles: as it was given, and in words."""

    column: str
    vehicles_given: Fraction
    vehicles_rounded: Fraction


def _joined(given: Iterable[tuple[Cell, str, int, Fraction]]) -> list[Rounded]:
    """Figures that are the same in several lines, told once."""
    found: dict[tuple[str, str, str, int], Rounded] = {}
    for cell, ending, word, back in given:
        key = (cell.file, cell.column, cell.text, word)
        if key not in found:
            found[key] = Rounded(cell.file, cell.column, [], cell.text, word, back, ending)
        if cell.line not in found[key].lines:
            found[key].lines.append(cell.line)
    return list(found.values())


def corridor_figures(project: Project) -> list[Rounded]:
    """Every figure of the corridor's table that was converted."""
    order = {
        column: place for place, column in enumerate(each.cell.column for each in reversed(project.corridor.given))
    }
    figures = _joined((each.cell, each.ending, each.word, each.back) for each in project.corridor.given)
    return sorted(figures, key=lambda each: -order[each.column])


def split_figures(project: Project) -> list[Rounded]:
    """Every split that was converted."""
    return _series_figures(project.demands.splits, project) + _series_figures(project.demands.downstream, project)


def _series_figures(series: Series | None, project: Project) -> list[Rounded]:
    if series is None:
        return []
    given = []
    for node, (place, ending) in series.columns.items():
        words = series.held(node)
        for step, row in enumerate(series.row_at.tolist()):
            if ending != "units" and (step == 0 or row != series.row_at[step - 1]):
                cell = series.sheet.cell(series.sheet.rows[row], place)
                if cell.text[:1].isdigit() or cell.text[:1] == ".":
                    given.append((cell, ending, words[step], words[step] / factor(ending, project.clock.step)))
    return _joined(given)


def plan_figures(plan: Plan) -> list[Rounded]:
    """Every rate and limit of a plan's table that was converted."""
    source = plan.source
    if not isinstance(source, SheetSource):
        return []
    given = []
    for cell, node, word in source.said(plan.settings):
        ending = cell.column.rpartition("_")[2]
        if ending != "units":
            length = plan.corridor.nodes[node].length
            given.append((cell, ending, word, word / factor(ending, plan.clock.step, length)))
    return _joined(given)


def arrived(project: Project) -> list[Arrived]:
    """What arrives in all at each node, as it was given and in words: rounding loses less than one unit of it."""
    series = project.demands.arrivals
    steps = layout.demand_steps(project.demands.words, project.links, project.steps)
    found = []
    for node, (place, _) in series.columns.items():
        given = sum((series.exact(step, node) for step in range(project.steps)), Fraction(0)) / UNITS_PER_VEHICLE
        words = vehicles(int(steps[:, node, layout.ARRIVALS].sum(dtype="uint64")))
        found.append(Arrived(series.sheet.columns[place], given, words))
    return found


def warnings(project: Project, plans: Iterable[Plan]) -> list[str]:
    """What an engineer would look at again."""
    plans = list(plans)
    figures = (
        corridor_figures(project) + split_figures(project) + [each for plan in plans for each in plan_figures(plan)]
    )
    found = [_coarse(each) for each in figures if each.change is not None and abs(each.change) > COARSE]
    found += [warning for plan in plans for warning in _slips(plan)]
    return (
        found + _splits(project) + _nodes(project) + _links(project) + _names_twice(project) + _unused(project, plans)
    )


def _coarse(each: Rounded) -> str:
    back = tidy(decimal(each.back, 2))
    share = decimal(abs(each.change or Fraction(0)) * 100, 1)
    return f"{each.file}:{each.lines[0]}: {each.column}: {each.text} {SYMBOLS[each.ending]} becomes {back}, {share} % off: one unit is coarse here"


def _nodes(project: Project) -> list[str]:
    corridor, found = project.corridor, []
    steps = layout.demand_steps(project.demands.words, project.links, project.steps)
    for number, node in enumerate(corridor.nodes):
        place = node.cell.place
        arrivals, capacity = steps[:, number, layout.ARRIVALS], corridor.word(number, layout.RAMP_CAPACITY)
        limit = corridor.word(number, layout.QUEUE_LIMIT)
        if capacity and not arrivals.any():
            found.append(f"{place}: {node.label} has a ramp, and nobody arrives there")
        if not capacity and arrivals.any() and number < corridor.links:
            found.append(f"{place}: {node.label} has no ramp capacity, and vehicles arrive there: they wait for ever")
        if capacity and arrivals.any() and int(arrivals.max()) > limit:
            found.append(f"{place}: {node.label}: more arrive in one step than its queue limit allows")
        if number and corridor.word(number, layout.WAVE_SPEED) > corridor.word(number, layout.FULL_SPEED):
            found.append(f"{place}: the link to {node.label} has a wave speed above its free speed")
        if number and node.length is None:
            found.append(f"{place}: the link to {node.label} has no length: speeds and kilometres are not shown")
        if capacity and int(arrivals.mean()) > capacity:
            found.append(f"{place}: {node.label}: more arrive than its ramp can pass, over all steps")
    return found


def _links(project: Project) -> list[str]:
    """Capacities that the speeds and the jam of their link do not bear out."""
    found = []
    for number, node in enumerate(project.corridor.nodes[1:], 1):
        words = (layout.CAPACITY, layout.FULL_SPEED, layout.WAVE_SPEED, layout.JAM)
        capacity, full, wave, jam = (project.corridor.word(number, place) for place in words)
        peak = Fraction(full * wave * jam, (full + wave) * ONE) if full + wave else Fraction(0)
        share = Fraction(capacity) / peak if peak else Fraction(1)
        if not LEAST_SHARE <= share <= GREATEST_SHARE:
            told = tidy(decimal(peak / factor("vph", project.clock.step), 0))
            found.append(
                f"{node.cell.place}: the capacity of the link to {node.label} is far from the {told} veh/h that its "
                f"speeds and its jam density make"
            )
    return found


def _splits(project: Project) -> list[str]:
    """Splits so small that they may have been meant as shares of one."""
    figures = _series_figures(project.demands.splits, project)
    small = [each for each in figures if 0 < Fraction(each.text) < 1]
    return [f"{each.file}:{each.lines[0]}: {each.column}: {each.text} % is little: 5 % is written 5" for each in small]


def _slips(plan: Plan) -> list[str]:
    """Rows of a plan that meter a node without a ramp, or close a link."""
    if not isinstance(plan.source, SheetSource):
        return []
    found = []
    for cell, node, word in plan.source.said(plan.settings):
        label = plan.corridor.nodes[node].label
        if cell.column.startswith("rate") and not plan.corridor.word(node, layout.RAMP_CAPACITY):
            found.append(f"{cell.place}: {label} has no on-ramp to meter")
        if cell.column.startswith("limit") and node and word == 0:
            found.append(f"{cell.place}: a limit of 0 stops all traffic on the link to {label}")
    return found


def _names_twice(project: Project) -> list[str]:
    nodes = project.corridor.nodes
    before = [[node.name for node in nodes[:place]] for place in range(len(nodes))]
    again = [node for node, names in zip(nodes, before) if node.name and node.name in names]
    return [f"{node.cell.place}: the name {node.name} stands twice" for node in again]


def _unused(project: Project, plans: list[Plan]) -> list[str]:
    first, last = project.clock.at(0), project.clock.at(project.steps)
    cells = []
    for series in (project.demands.arrivals, project.demands.splits, project.demands.downstream):
        cells += series.unused_rows() if series is not None else []
    told = [f"{cell.place}: this row says nothing of the steps from {first} to {last}" for cell in cells]
    return told + [warning for plan in plans for warning in plan.outside()]
