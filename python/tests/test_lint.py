"""What lint shows of a project: the rounding of every figure, and a warning for each thing that an engineer would look at again."""

from fractions import Fraction

import pytest
from projects import VALLEY, changed, folder_of, run, without

from gigorchid import Project
from gigorchid import lint


def warnings_of(files: dict[str, str | bytes]) -> list[str]:
    with folder_of(files) as folder:
        project = Project.load(folder)
        return lint.warnings(project, [project.plan(name) for name in project.plans])


def test_the_valley_road_has_no_warning() -> None:
    assert warnings_of(VALLEY) == []


@pytest.mark.parametrize(
    ("file", "old", "new", "warning"),
    [
        (
            "plan-metered.csv",
            "20,07:00,07:00:20,450,",
            "20,07:00,07:00:20,8,",
            "plan-metered.csv:2: rate_vph: 8 veh/h becomes 5.63, 29.7 % off",
        ),
        (
            "arrivals.csv",
            "from,10_vph,20_vph",
            "from,10_vph,30_vph",
            "corridor.csv:3: Mill Road (20) has a ramp, and nobody arrives there",
        ),
        (
            "arrivals.csv",
            "from,10_vph,20_vph",
            "from,10_vph,30_vph",
            "corridor.csv:4: Bridge (30) has no ramp capacity, and vehicles arrive there",
        ),
        (
            "corridor.csv",
            "900,25,20,2,,",
            "900,1,20,0,,",
            "corridor.csv:3: Mill Road (20): more arrive in one step than its queue limit allows",
        ),
        (
            "corridor.csv",
            "30,Bridge,600,4500,90,18,",
            "30,Bridge,600,4500,90,95,",
            "corridor.csv:4: the link to Bridge (30) has a wave speed above its free speed",
        ),
        ("corridor.csv", "40,Harbour", "40,Bridge", "corridor.csv:5: the name Bridge stands twice"),
        (
            "arrivals.csv",
            "07:00:30,4050,720\n",
            "07:00:30,4050,720\n08:00,1,1\n",
            "arrivals.csv:4: this row says nothing of the steps",
        ),
        ("splits.csv", "07:00,12.5\n", "06:00,3\n07:00,12.5\n", "splits.csv:2: this row says nothing of the steps"),
        (
            "plan-metered.csv",
            "30,07:00:30,,,72\n",
            "30,07:00:30,,,72\n20,05:00,06:00,100,\n",
            "plan-metered.csv:5: this row says nothing of the steps",
        ),
        ("splits.csv", "07:00,12.5", "07:00,0.5", "splits.csv:2: 20_pct: 0.5 % is little: 5 % is written 5"),
        (
            "arrivals.csv",
            "07:00,3600,540",
            "07:00,3600,5400",
            "corridor.csv:3: Mill Road (20): more arrive than its ramp can pass",
        ),
        (
            "corridor.csv",
            "20,Mill Road,500,4500,",
            "20,Mill Road,500,45000,",
            "corridor.csv:3: the capacity of the link to Mill Road (20) is far from the 3,000 veh/h",
        ),
        (
            "corridor.csv",
            "20,Mill Road,500,4500,",
            "20,Mill Road,500,450,",
            "corridor.csv:3: the capacity of the link to Mill Road (20) is far from the 3,000 veh/h",
        ),
        (
            "plan-metered.csv",
            "20,07:00,07:00:20,450,",
            "30,07:00,07:00:20,0,",
            "plan-metered.csv:2: Bridge (30) has no on-ramp to meter",
        ),
        (
            "plan-metered.csv",
            "30,07:00:30,,,72",
            "30,07:00:30,,,0",
            "plan-metered.csv:4: a limit of 0 stops all traffic on the link to Bridge (30)",
        ),
    ],
)
def test_a_warning_for_each_cause(file: str, old: str, new: str, warning: str) -> None:
    found = warnings_of(changed(VALLEY, (file, old, new)))
    assert any(each.startswith(warning) for each in found), found


def test_a_short_surge_of_arrivals_is_no_warning() -> None:
    """1,000 vehicles an hour for ten seconds, at a ramp that passes 900."""
    surge = ("arrivals.csv", "07:00,3600,540\n", "07:00,3600,540\n07:00:10,3600,1000\n07:00:20,3600,540\n")
    assert warnings_of(changed(VALLEY, surge)) == []


def test_a_link_without_a_length_is_told() -> None:
    units = changed(
        VALLEY,
        ("corridor.csv", "40,Harbour,500,4500,90,18,200,", "40,Harbour,,4500,32768,6554,6400,"),
        (
            "corridor.csv",
            "30,Bridge,600,4500,90,18,200,,,15,,3600,60",
            "30,Bridge,600,4500,27307,5461,7680,,,15,,3600,2304",
        ),
        ("corridor.csv", "20,Mill Road,500,4500,90,18,200,", "20,Mill Road,500,4500,32768,6554,6400,"),
        (
            "corridor.csv",
            "free_speed_kmh,wave_speed_kmh,jam_density_vpkm",
            "free_speed_units,wave_speed_units,jam_density_units",
        ),
        ("corridor.csv", "drop_density_vpkm", "drop_density_units"),
    )
    assert warnings_of(units) == [
        "corridor.csv:5: the link to Harbour (40) has no length: speeds and kilometres are not shown"
    ]


def test_figures_are_shown_with_word_and_rounding() -> None:
    with folder_of(VALLEY) as folder:
        project = Project.load(folder)
        figures = {(each.column, each.lines[0]): each for each in lint.corridor_figures(project)}
        plan = {each.text: each for each in lint.plan_figures(project.plan("metered"))}
    capacity = figures["capacity_vph", 3]
    assert (capacity.lines, capacity.word, capacity.back, capacity.change) == ([3, 4, 5], 800, Fraction(4500), 0)
    wave = figures["wave_speed_kmh", 3]
    assert (wave.lines, wave.word) == ([3, 5], 6554)
    assert wave.change == (Fraction(6554) - Fraction("6553.6")) / Fraction("6553.6")
    assert (plan["72"].word, plan["450"].word, plan["360"].word) == (21845, 80, 64)


def test_arrivals_are_shown_as_given_and_in_units() -> None:
    with folder_of(without(VALLEY, "downstream.csv")) as folder:
        shown = lint.arrived(Project.load(folder))
    assert [tuple(each) for each in shown] == [
        ("10_vph", Fraction(30 * 3600 + 30 * 4050, 3600), Fraction("63.75")),
        ("20_vph", Fraction(30 * 540 + 30 * 720, 3600), Fraction("10.5")),
    ]


def test_the_faults_of_all_plans_are_told() -> None:
    files = changed(
        VALLEY,
        ("plan-open.csv", "id,from,until,rate_vph,limit_kmh\n", "id,from,until,rate_vph,limit_kmh\n25,,,1,\n"),
        ("plan-metered.csv", "20,07:00:20,07:01,360,", "20,07:00:25,07:01,360,"),
    )
    with folder_of(files) as folder:
        status, printed = run(folder, "lint", ".")
    assert status == 3
    assert "plan-open.csv:2: id: '25': expected an identifier of the corridor" in printed
    assert "plan-metered.csv:3: from: '07:00:25': expected the start of a step" in printed
