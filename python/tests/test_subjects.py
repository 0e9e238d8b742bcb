"""What is said of one plan or of two above their maps, on a picture and on a page alike."""

from __future__ import annotations

import json
import re
from collections.abc import Iterator

import numpy as np
import pytest
from projects import VALLEY, changed, folder_of, run

from gigorchid import Project, maps, pictures, plots, report
from gigorchid.compare import side
from gigorchid.subjects import Subject, subject
from gigorchid.windows import Window

# Nobody is waiting at Mill Road at the end that this rate would hold, nor in the plan that lets a queue pass its limit.
FILES = changed(
    VALLEY,
    (
        "project.toml",
        'open = "plan-open.csv"',
        'open = "plan-open.csv"\nagain = "plan-again.csv"\nshut = "plan-shut.csv"',
    ),
    ("corridor.csv", "900,25,20,2,,", "900,5,20,2,,"),
) | {
    "plan-again.csv": "id,from,until,rate_vph,limit_kmh\n20,07:00:50,,880,\n",
    "plan-shut.csv": "id,from,until,rate_vph,limit_kmh\n20,,,0,\n",
}


@pytest.fixture(scope="module")
def road() -> Iterator[Project]:
    with folder_of(FILES) as folder:
        yield Project.load(folder)


def shown(road: Project, first: str, second: str | None = None, **window: str) -> Subject:
    return subject(side(road, road.plan(first)), None if second is None else side(road, road.plan(second)), **window)


def test_one_plan(road: Project) -> None:
    for plan, badge in (("open", "VALID"), ("shut", "NOT VALID")):
        found = shown(road, plan)
        assert (found.badge, found.stopping) == (badge, badge != "VALID")
        assert found.not_valid() == found.rewritten() == []
        assert found.title == f"Valley road: plan {plan}"


def test_two_plans_that_are_only_written_differently(road: Project) -> None:
    found = shown(road, "open", "again")
    assert (found.badge, found.stopping) == ("SAME", False)
    assert (found.not_valid(), found.rewritten()) == ([], ["only written differently, at 1 node *"])
    assert shown(road, "open", "open").rewritten() == []


def test_which_of_two_plans_is_not_valid(road: Project) -> None:
    refusal = side(road, road.plan("shut")).refusal
    found = shown(road, "open", "shut")
    assert (found.badge, found.stopping) == ("DIFFERENT, B NOT VALID", True)
    assert (found.not_valid(), found.rewritten()) == ([f"B, shut, is NOT VALID: {refusal}"], [])
    both = shown(road, "shut", "shut")
    assert (both.badge, both.stopping) == ("SAME, A and B NOT VALID", True)
    assert [line.partition(",")[0] for line in both.not_valid()] == ["A", "B"]


@pytest.mark.parametrize(
    ("window", "said"),
    [
        ({}, ""),
        ({"start": "07:00", "links": "20..40"}, ""),
        ({"start": "07:00:20"}, "from 07:00:20 to 07:01:00"),
        ({"until": "07:00:30"}, "from 07:00:00 until 07:00:30"),
        ({"links": "30..40"}, "the links from Mill Road (20) to Harbour (40)"),
        (
            {"until": "07:00:30", "links": "30"},
            "the links from Mill Road (20) to Bridge (30), from 07:00:00 until 07:00:30",
        ),
    ],
)
def test_a_window_is_told(road: Project, window: dict[str, str], said: str) -> None:
    assert shown(road, "open", **window).cut() == said


def test_plans_of_two_projects_are_named_with_them() -> None:
    longer = changed(VALLEY, ("corridor.csv", "Harbour,500", "Harbour,550"))
    with folder_of(VALLEY) as one, folder_of(longer) as other:
        roads = [Project.load(folder) for folder in (one, other)]
        found = subject(*(side(road, road.plan("open")) for road in roads))
    names = [f"{folder.name}:open" for folder in (one, other)]
    assert found.title == f"Valley road: plans {names[0]} (A) and {names[1]} (B)"
    assert [column.title for column in found.columns] == [f"A, {names[0]}", f"B, {names[1]}"]


def test_a_page_on_a_rewritten_plan_has_what_compare_says() -> None:
    with folder_of(FILES) as folder:
        printed = run(folder, "compare", ".:open", "again")[1]
        assert run(folder, "report", ".", "open", "again", "-o", "page.html")[0] == 0
        page = (folder / "page.html").read_text()
    for text in ("Mill Road (20)", "07:00:50", "07:01:00", "900 veh/h", "877.5 veh/h"):
        assert text in printed and text in page
    assert "Only written differently" in page and "only written differently, at 1 node *" in page


def test_what_no_map_can_be_of_is_told(road: Project) -> None:
    record = road.simulate("open")
    with folder_of(changed(VALLEY, ("project.toml", "steps = 6", "steps = 7"))) as folder:
        other = Project.load(folder)
    with pytest.raises(ValueError, match="sped: expected one of vehicles, speed, flow, queue"):
        maps.map_of(record, "sped")
    for wrong in (Window(0, 7, 1, 3), Window(4, 3, 1, 3), Window(0, 6, 0, 3), Window(0, 6, 1, 4), Window(-1, 6, 1, 3)):
        with pytest.raises(ValueError, match="is no part of a record with states 0 to 6 and links 1 to 3"):
            maps.map_of(record, "flow", wrong)
    with pytest.raises(ValueError, match="the records have not the same links and steps"):
        plots.flow(record, less=other.simulate(other.full_plan()))
    with pytest.raises(ValueError, match="the plan has not the links and steps of the record"):
        plots.flow(record, plan=other.full_plan())


@pytest.fixture(scope="module")
def nameless() -> Iterator[Project]:
    """The same road without names, lengths and units: its words alone, as block files have them."""
    with folder_of(VALLEY) as folder:
        run(folder, "pack", ".", "--into", "packed")
        files = [f"packed/{name}.blocks" for name in ("corridor", "demands", "plan-open", "plan-metered")]
        run(folder, "unpack", *files, "--into", "nameless", "--step", "10", "--start", "07:00")
        yield Project.load(folder / "nameless")


def test_two_projects_of_one_road_are_shown_as_the_first_has_it(nameless: Project) -> None:
    """Else a figure in vehicles would be taken from one in vehicles per kilometre."""
    with folder_of(VALLEY) as folder:
        valley = Project.load(folder)
        given = ((valley, "open"), (nameless, "metered"), (valley, "metered"))
        plans = [side(road, road.plan(plan)) for road, plan in given]
    mixed, plain = subject(plans[0], plans[1]), subject(plans[0], plans[2])
    assert mixed.one_road and len(mixed.columns) == len(plain.columns) == 3
    for quantity in maps.QUANTITIES:
        for one, other in zip(mixed.columns, plain.columns):
            np.testing.assert_equal(one.map(quantity)._asdict(), other.map(quantity)._asdict())
    data = [
        json.loads(re.findall(r'type="application/json">(.*)</script>', report.page(each))[0])
        for each in (mixed, plain)
    ]
    assert data[0]["sides"] == data[1]["sides"]
    # Whoever takes them from each other in Python has the first one's units too.
    found = maps.map_of(plans[2].record, "vehicles", less=plans[1].record)
    assert (found.unit, found.values.any()) == ("veh/km", False)


def test_maps_of_two_roads_in_two_units_say_so(nameless: Project) -> None:
    """Each has the scale of its own unit."""
    longer = changed(VALLEY, ("corridor.csv", "Harbour,500", "Harbour,550"))
    with folder_of(longer) as folder:
        other = Project.load(folder)
        shown_here = subject(side(other, other.plan("open")), side(nameless, nameless.plan("open")))
    assert not shown_here.one_road
    figure = pictures.picture(shown_here, ["speed"])
    ends = [axes.collections[0].get_clim()[1] for axes in figure.axes]
    titles = [text.get_text() for axes in figure.axes for text in axes.texts if text.get_fontweight() == "bold"]
    assert ends == [90, 100]
    assert titles[0].startswith("A, ") and titles[1].startswith("B, % of full speed, n")


def test_a_window_that_cuts_one_of_two_roads_is_told() -> None:
    later = changed(VALLEY, ("project.toml", 'start = "07:00"', 'start = "07:00:10"'))
    with folder_of(later) as one, folder_of(VALLEY) as other:
        roads = [Project.load(folder) for folder in (one, other)]
        found = subject(*(side(road, road.full_plan()) for road in roads), start="07:00:10")
    assert found.cut() == "of A all; of B from 07:00:10 to 07:01:00"
