"""gigorchid convert: a plan that has a record."""

from __future__ import annotations

from ..figures import NOT_PROVED
from .base import (
    Outcome,
    Shown,
    command as make_command,
    load_project,
    load_record,
    output_option,
    project_argument,
    record_argument,
    write_plan_to,
)
from .plan_view import settings_data, settings_table

SMALLEST = "Its rates are the smallest that give the record's flows: a plan that somebody wrote for it may have others."


@make_command("convert", short_help="Turn a record into a plan that has it.")
@project_argument
@record_argument
@output_option
def command(project: str, record: str, output: str | None) -> Outcome:
    """Turn RECORD, such as an optimiser proposes, into a plan that has it in every word.

    Full speed is posted wherever some rate gives the record's flows at full speed, with the smallest such rate; elsewhere the rate is the
    ramp's flow and the limit the smallest that sends the link's.
    """
    road = load_project(project)
    proposed = load_record(road, record)
    plan = road.convert(proposed)
    written = write_plan_to(road, output, plan, (f"The converter's plan for the record {record}.", SMALLEST))
    lines: list[Shown] = [
        f"ACCEPTED: this plan is valid and has the record {record}, in every word",
        SMALLEST,
        "",
        settings_table(plan),
        "",
        NOT_PROVED,
        *written,
    ]
    data = {"record": record, "verdict": "ACCEPTED", "not_proved": {"settings": settings_data(plan)}, "written": output}
    return Outcome(data, lines, aside=output == "-")
