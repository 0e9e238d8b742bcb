"""gigorchid normal: the normal form of a plan."""

from __future__ import annotations

from ..figures import NOT_PROVED
from .base import (
    Outcome,
    Shown,
    command as make_command,
    load_plan,
    load_project,
    output_option,
    plan_argument,
    project_argument,
    warned,
    write_plan_to,
)
from .plan_view import settings_data, settings_table


@make_command("normal", short_help="The normal form of a plan.")
@project_argument
@plan_argument
@output_option
def command(project: str, plan: str, output: str | None) -> Outcome:
    """The normal form of PLAN: of all plans that do the same on the road, the one that the converter makes of their record.

    Two valid plans do the same exactly when their normal forms are equal in every word. Its rates are the smallest that work, and not the
    plan's own.
    """
    road = load_project(project)
    given = load_plan(road, plan)
    normal = road.normal(given).plan
    note = f"Not the plan {given.name} as it was written: the smallest rates with the same record."
    written = write_plan_to(
        road, output, normal, (f"Normal form of the plan {given.name} of {road.title or road.folder.name}.", note)
    )
    lines: list[Shown] = [
        *warned(given),
        f"VALID: normal form of the plan {given.name}",
        note,
        "",
        settings_table(normal),
        "",
        NOT_PROVED,
        *written,
    ]
    data = {
        "plan": given.name,
        "verdict": "VALID",
        "note": note,
        "not_proved": {"settings": settings_data(normal)},
        "warnings": given.outside(),
        "written": output,
    }
    return Outcome(data, lines, aside=output == "-")
