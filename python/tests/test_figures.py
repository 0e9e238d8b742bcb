"""The figures that are not proved: vehicle hours, kilometres and queues, worked out by hand for corridor B of docs/MODEL.md, and as sums elsewhere."""

from fractions import Fraction

import pytest
from projects import B, VALLEY, changed, folder_of, loaded

from gigorchid import Project
from gigorchid.figures import greatest_queues, travel, waiting_hours

B_HOUR = Fraction(10, 3600) / 64
"""A unit for a step of 10 s, in vehicle hours."""


def test_corridor_b_by_hand() -> None:
    project = loaded(B)
    with folder_of(B) as folder:
        record = Project.load(folder).simulate(Project.load(folder).plan("full"))
    sums = travel(record)
    assert sums.hours_on_links == (120 + 200) * B_HOUR
    assert sums.hours_in_queues == (30 + 20) * B_HOUR
    assert sums.hours == record.cost * B_HOUR == 370 * B_HOUR
    assert sums.kilometres == Fraction(80 + 100, 64) / 2
    assert sums.mean_speed == sums.kilometres / ((200 + 200) * B_HOUR)
    assert [tuple(most) for most in greatest_queues(record)] == [(0, 30, 1000, 1), (1, 50, 200, 0)]
    assert waiting_hours(record, 1) == 20 * B_HOUR
    assert project.corridor.nodes[1].length == 500


def test_a_missing_length_leaves_out_kilometres() -> None:
    units = changed(
        B,
        ("corridor.csv", "20,Mill Road,500,562.5,90,90,", "20,Mill Road,,562.5,32768,32768,"),
        ("corridor.csv", "30,Harbour,500,562.5,90,90,", "30,Harbour,,562.5,32768,32768,"),
        ("corridor.csv", "free_speed_kmh,wave_speed_kmh", "free_speed_units,wave_speed_units"),
    )
    with folder_of(units) as folder:
        project = Project.load(folder)
        record = project.simulate(project.plan("full"))
    assert travel(record).kilometres is None and travel(record).mean_speed is None
    assert record.cost == 370


@pytest.mark.parametrize("plan", ["open", "metered"])
def test_the_hours_are_the_cost(plan: str) -> None:
    with folder_of(VALLEY) as folder:
        project = Project.load(folder)
        record = project.simulate(project.plan(plan))
    assert travel(record).hours == Fraction(record.cost) * project.clock.step / (64 * 3600)
    assert sum(waiting_hours(record, node) for node in range(project.links + 1)) == travel(record).hours_in_queues
