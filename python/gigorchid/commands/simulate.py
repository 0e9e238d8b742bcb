"""gigorchid simulate: a plan's record, whether the plan is valid, and its queues."""

from __future__ import annotations

import click
from rich.table import Table

from ..figures import MARK, greatest_queues, slowest, travel, waiting_hours
from ..project import Project
from ..records import Record
from ..summaries import QUEUE_COLUMNS, queue_rows, travel_lines
from ..tell import Told
from ..verdicts import of_refusal
from .base import (
    ACCEPTED,
    REFUSED,
    STANDARD_OUTPUT,
    Shown,
    Outcome,
    command as make_command,
    load_plan,
    load_project,
    output_option,
    plan_argument,
    project_argument,
    table,
    warned,
    write_record_to,
)


def queue_table(record: Record) -> Table:
    """The longest queue of each ramp beside its limit."""
    return table(QUEUE_COLUMNS, queue_rows(record))


def figures_data(project: Project, record: Record) -> dict[str, object]:
    """The same for --json, in metric units."""
    sums, slow, nodes = travel(record), slowest(record), project.corridor.nodes
    return {
        "vehicle_hours": sums.hours,
        "vehicle_hours_on_links": sums.hours_on_links,
        "vehicle_hours_in_queues": sums.hours_in_queues,
        "vehicle_kilometres": sums.kilometres,
        "mean_speed_kmh": sums.mean_speed,
        "slowest": None if slow is None else {"id": nodes[slow.node].identifier, "time": project.clock.at(slow.state)},
        "queues": [
            {
                "id": nodes[most.node].identifier,
                "name": nodes[most.node].name,
                "longest_units": most.queue,
                "limit_units": most.limit,
                "state": most.state,
                "time": project.clock.at(most.state),
                "hours_waited": waiting_hours(record, most.node),
            }
            for most in greatest_queues(record)
        ],
    }


@make_command("simulate", short_help="Simulate a plan: its record, queues and cost.")
@project_argument
@plan_argument
@click.option("--exits", is_flag=True, help="List what leaves by the off-ramps too: a record of kind 7.")
@output_option
def command(project: str, plan: str, exits: bool, output: str | None) -> Outcome:
    """Simulate PLAN in PROJECT.

    Says whether the plan is valid, that is within bounds with every queue within its limit, and shows the greatest queue of each ramp. The
    record is written with -o, also for a plan that is not valid, for which the exit status is 2.
    """
    road = load_project(project)
    given = load_plan(road, plan)
    kind = 7 if exits else 3
    refusal: Told | None = None
    try:
        record = road.normal(given, kind).record
    except Told as told:
        if told.work is None:
            raise
        refusal, record = told, Record(told.work, road.corridor, road.clock)
    written = write_record_to(road, output, record)
    verdict = of_refusal(refusal)
    lines: list[Shown] = [f"{road.title}: plan {given.name}", *warned(given), str(verdict)]
    lines += [f"  {line} {MARK}" for line in (refusal.rest if refusal else [])]
    lines += ["", queue_table(record), "", *travel_lines(record), *written]
    data = {
        "plan": given.name,
        "verdict": verdict.word,
        "refusal": refusal.as_json() if refusal else None,
        "cost_units": record.cost,
        "warnings": given.outside(),
        "not_proved": figures_data(road, record),
        "written": output,
    }
    return Outcome(data, lines, REFUSED if refusal else ACCEPTED, aside=output == STANDARD_OUTPUT)
