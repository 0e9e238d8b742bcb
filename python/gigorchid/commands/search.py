"""gigorchid search: how the converter finds the rate of one ramp in one step."""

from __future__ import annotations

import click

from ..calls import Search
from ..layout import FLOW, RAMP_CAPACITY, RAMP_FLOW
from ..project import Project
from ..times import EXPECTED_TIME, parse_time
from ..units import decimal, factor, tidy
from .base import Outcome, command as make_command, load_project, load_record, project_argument, record_argument


def step_at(project: Project, time: str) -> int:
    """The step that starts at a time of day."""
    seconds = parse_time(time)
    if seconds is None:
        raise click.UsageError(f"--at {time}: expected {EXPECTED_TIME}")
    step = project.clock.states_from_start(seconds)
    if step.denominator != 1 or not 0 <= step < project.steps:
        first, last = project.clock.at(0), project.clock.at(project.steps - 1)
        raise click.UsageError(
            f"--at {time}: no step starts then; steps start every {float(project.clock.step):g} s from {first} to {last}"
        )
    return int(step)


def node_of(project: Project, identifier: int) -> int:
    """The node of an identifier."""
    node = project.corridor.node_of(identifier)
    if node is None:
        known = ", ".join(str(each.identifier) for each in project.corridor.nodes)
        raise click.UsageError(f"--ramp {identifier}: the corridor has {known}")
    return node


@make_command("search", short_help="The search for the rate of one ramp in one step.")
@project_argument
@record_argument
@click.option("--at", "time", required=True, metavar="TIME", help="The time of day at which the step starts.")
@click.option("--ramp", "identifier", required=True, type=int, metavar="ID", help="The identifier of the ramp's node.")
def command(project: str, record: str, time: str, identifier: int) -> Outcome:
    """Show how the converter searches for the metering rate of one ramp in one step of RECORD.

    By halving it looks for the smallest rate, of 0 to the ramp's capacity, that gives the record's flows there at full speed. Where there
    is none, a limit below full speed is posted.
    """
    road = load_project(project)
    proposed = load_record(road, record)
    step, node = step_at(road, time), node_of(road, identifier)
    found = road.search(proposed, step, node)
    flow, ramp = (int(proposed.states[step, node, place]) for place in (FLOW, RAMP_FLOW))
    limit = int(road.convert(proposed).limits[step, node])
    data = {
        "record": record,
        "id": identifier,
        "name": road.corridor.nodes[node].name,
        "step": step,
        "time": road.clock.at(step),
        "flow_units": flow,
        "ramp_flow_units": ramp,
        "tries": found.tries,
        "found": found.found,
        "rate_units": found.rate if found.found else None,
        "limit_units": limit,
    }
    place = f"{road.corridor.nodes[node].label} at {road.clock.at(step)}"
    flows = f"{place}: {_shown(flow, road)} leave the link, {_shown(ramp, road)} the ramp"
    return Outcome(data, [flows, _tried(found, road, node), _came_to(found, road, node, limit)])


def _shown(word: int, project: Project) -> str:
    return f"{word:,} units ({tidy(decimal(word / factor('vph', project.clock.step), 1))} veh/h)"


def _tried(found: Search, project: Project, node: int) -> str:
    capacity = project.corridor.word(node, RAMP_CAPACITY)
    if not capacity:
        return "no on-ramp: the only rate is 0"
    return f"rates tried: {found.tries}, of 0 to {_shown(capacity, project)}"


def _came_to(found: Search, project: Project, node: int, limit: int) -> str:
    if found.found:
        return f"found: {_shown(found.rate, project)}, the smallest that gives these flows at full speed"
    posted = project.corridor.speed_text(limit, node, project.clock.step)
    return f"none: no rate gives these flows at full speed, so the converter posts a limit of {posted}"
