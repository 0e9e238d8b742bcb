"""Project, Plan and Record as an analyst uses them from Python: names, frames, errors, and what a refusal tells."""

import pickle

import numpy as np
import pytest
from projects import VALLEY, changed, folder_of, loaded

import gigorchid
from gigorchid import Fault, Project, Refusal
from gigorchid.tell import Told, overflows


def told_of(files: dict[str, str | bytes], plan: str) -> Told:
    with folder_of(files) as folder, pytest.raises(Told) as raised:
        Project.load(folder).normal(plan)
    return raised.value


def test_the_package_has_what_it_says() -> None:
    assert {"Project", "Plan", "Record", "Fault", "Refusal", "calls", "compare"} <= set(dir(gigorchid))
    assert gigorchid.calls.simulate_words and gigorchid.compare.compare
    with pytest.raises(AttributeError, match="no attribute 'nothing'"):
        gigorchid.nothing


def test_a_plan_may_be_given_by_its_name() -> None:
    with folder_of(VALLEY) as folder:
        project = Project.load(folder)
        assert np.array_equal(project.simulate("metered").words, project.simulate(project.plan("metered")).words)
        with pytest.raises(Fault, match=r"nowhere: no such file: .*\(open, metered\)"):
            project.plan("nowhere")


def test_frames_are_signed_and_have_every_word() -> None:
    with folder_of(VALLEY) as folder:
        project = Project.load(folder)
        record, plan = project.simulate("metered", 7), project.plan("metered")
    frame = record.frame()
    assert frame.queue_units.dtype == np.int64 and len(frame) == 7 * 4
    mill = frame[frame["id"] == 20]
    assert mill.queue_units.tolist() == record.queues[:, 1].tolist()
    assert (mill.queue_units - 200).min() == 128 - 200
    assert frame.exit_flow_units.tolist() == record.states[:, :, 4].reshape(-1).tolist()
    assert plan.frame()[["rate_units", "limit_units"]].to_numpy().reshape(-1).tolist() == plan.words.tolist()
    assert (frame.time[4], frame.name[5]) == ("07:00:10", "Mill Road")


def test_what_is_written_is_read_by_pandas_with_and_without_comments() -> None:
    import pandas

    with folder_of(VALLEY) as folder:
        project = Project.load(folder)
        project.simulate("metered").save(folder / "record.csv")
        project.normal("metered").plan.save(folder / "normal.csv", ["a line for people"])
        record = pandas.read_csv(folder / "record.csv", comment="#")
        plan = pandas.read_csv(folder / "normal.csv", comment="#")
    assert record.columns[:3].tolist() == ["state", "id", "vehicles_units"] and record.id.tolist()[:4] == [
        10,
        20,
        30,
        40,
    ]
    assert (
        plan.columns.tolist() == "id from until rate_units limit_units (name) (rate_vph) (limit_kmh) (setting)".split()
    )
    held = plan[plan["(setting)"] == "held"]
    assert set(held.id) == {30} and held["from"].min() == "07:00:30" and held["(limit_kmh)"].max() < 90


def test_faults_and_refusals_go_from_one_process_to_another() -> None:
    with pytest.raises(Fault) as raised:
        loaded(changed(VALLEY, ("corridor.csv", "30,Bridge,600,4500", "30,Bridge,600,x")))
    again = pickle.loads(pickle.dumps(raised.value))
    assert (str(again), again.cell) == (str(raised.value), raised.value.cell)
    told = told_of(changed(VALLEY, ("corridor.csv", "900,25,20,2,,", "900,4,20,2,,")), "metered")
    again = pickle.loads(pickle.dumps(told))
    assert (str(again), again.answer, again.cells, again.rest) == (str(told), told.answer, told.cells, told.rest)


@pytest.mark.parametrize(("step", "node"), [(6, 1), (0, 4), (999, 999)])
def test_a_place_out_of_range_is_told_as_such(step: int, node: int) -> None:
    with folder_of(VALLEY) as folder:
        project = Project.load(folder)
        with pytest.raises(Refusal, match="a step that is not below 6, a node above 3, or a plan or record of another"):
            project.search(project.simulate("open"), step, node)


METERED_ROWS = "20,07:00,07:00:20,450,\n20,07:00:20,07:01,360,\n30,07:00:30,,,72\n"


def told_at_mill_road(plan: str, limit: int) -> Told:
    """The first overflow of a ramp at which more arrive than it can pass from 07:00:30 on, with this limit in units."""
    edits = (
        ("arrivals.csv", "07:00:30,4050,720", "07:00:30,4050,1200"),
        ("corridor.csv", "queue_limit_veh", "queue_limit_units"),
        ("corridor.csv", "900,25,20,2,,", f"900,{limit},20,2,,"),
        ("plan-metered.csv", METERED_ROWS, plan),
    )
    return told_of(changed(VALLEY, *edits), "metered")


def test_a_queue_that_metering_made_is_told_at_the_last_row_that_metered() -> None:
    """The row ends at 07:00:30; the queue, 416 units then, and 108 had nobody metered, passes 450 in the next step."""
    told = told_at_mill_road("20,07:00,07:00:30,0,\n", 450)
    assert (told.row, told.node, told.cells[0].place) == (3, 1, "plan-metered.csv:2")
    assert "unmetered" not in told.sentence


@pytest.mark.parametrize(("limit", "place"), [(288, "plan-metered.csv:2"), (287, "corridor.csv:3")])
def test_a_queue_that_reaches_its_limit_unmetered_has_not_passed_it(limit: int, place: str) -> None:
    """At 07:00:50 there are 295 units, and 288 had nobody metered."""
    told = told_at_mill_road("20,07:00,,840,\n", limit)
    assert (told.row, told.cells[0].place) == (4, place)


def test_breaks_between_overflows_are_told() -> None:
    with folder_of(VALLEY) as folder:
        project = Project.load(folder)
    queues = np.zeros((7, 4), dtype=np.uint32)
    queues[[2, 3, 5], 1] = 1601, 1700, 1650
    once = (
        "Mill Road (20): above its limit of 25 vehicles from 07:00:20 to 07:00:50, with breaks; most 26.6 at 07:00:30"
    )
    assert overflows(queues, project) == [once]
    queues[4, 1] = 1601
    assert overflows(queues, project) == [once.replace(", with breaks", "")]


def test_a_queue_that_no_rate_would_help_is_told_at_its_limit() -> None:
    """The link after the ramp is full and lets nothing in, whatever the rate."""
    edits = (
        ("corridor.csv", "900,25,20,2,,", "900,4,20,2,,"),
        ("corridor.csv", "30,Bridge,600,4500,90,18,200,,,15,,3600,60", "30,Bridge,600,4500,90,18,200,,,120,,0,60"),
    )
    told = told_of(changed(VALLEY, *edits), "metered")
    assert (told.number, told.node) == (12, 1)
    assert told.cells[0].place == "corridor.csv:3" and told.cells[0].column == "queue_limit_veh"
    assert told.sentence.endswith("it does so unmetered too, held up by the mainline or by its own capacity")


def test_speeds_are_told_in_the_unit_of_the_table() -> None:
    edits = (
        ("corridor.csv", "free_speed_kmh", "free_speed_mph"),
        ("corridor.csv", "20,Mill Road,500,4500,90", "20,Mill Road,500,4500,55"),
        ("corridor.csv", "30,Bridge,600,4500,90", "30,Bridge,600,4500,55"),
        ("corridor.csv", "40,Harbour,500,4500,90", "40,Harbour,500,4500,55"),
        ("plan-metered.csv", "limit_kmh", "limit_mph"),
    )
    told = told_of(changed(VALLEY, *edits), "metered")
    assert told.sentence == "at 07:00:30 the limit on the link to Bridge (30) is 72 mph, and its full speed 55 mph"


def test_the_worst_of_several_speeds_is_told_first() -> None:
    edits = (("corridor.csv", "20,Mill Road,500,4500,90,18,", "20,Mill Road,50,4500,90,20,"),)
    told = told_of(changed(VALLEY, *edits), "open")
    assert [cell.column for cell in told.cells] == ["free_speed_kmh", "wave_speed_kmh"]
    assert "at least 250 m" in told.sentence


def test_a_jam_is_cut_into_as_many_links_as_it_takes() -> None:
    told = told_of(
        changed(VALLEY, ("corridor.csv", "20,Mill Road,500,4500,90,18,200,", "20,Mill Road,500,4500,90,18,5000,")),
        "open",
    )
    assert told.sentence.endswith("it would hold 2,500 vehicles, and may hold 1,024; cut it into 3")
