"""gigorchid check: whether some valid plan has a record."""

from __future__ import annotations

from .base import Outcome, Shown, command as make_command, load_project, load_record, project_argument, record_argument
from ..summaries import travel_lines
from .simulate import figures_data, queue_table


@make_command("check", short_help="Check a proposed record.")
@project_argument
@record_argument
def command(project: str, record: str) -> Outcome:
    """Check RECORD, which anybody may propose, against PROJECT: it is accepted exactly where some valid plan has it, in every word."""
    road = load_project(project)
    proposed = load_record(road, record)
    road.check(proposed)
    lines: list[Shown] = [
        f"ACCEPTED: some valid plan has the record {record}, in every word; `gigorchid convert` gives one",
        "",
        queue_table(proposed),
        "",
        *travel_lines(proposed),
    ]
    data = {
        "record": record,
        "kind": proposed.kind,
        "verdict": "ACCEPTED",
        "cost_units": proposed.cost,
        "not_proved": figures_data(road, proposed),
    }
    return Outcome(data, lines)
