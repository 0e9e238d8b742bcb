"""Whether two plans are said to be the same: by normal form, by record where one is not valid, and by identifier where the roads differ."""

import numpy as np
import pytest
from projects import VALLEY, Files, changed, folder_of, without

from gigorchid import Project
from gigorchid.compare import DIFFERENT, NOT_COMPARABLE, SAME, Comparison, compare, side

SHORT = changed(VALLEY, ("corridor.csv", "900,25,20,2,,", "900,4,20,2,,"))
"""A ramp whose queue passes its limit when it is metered."""


def compared(a: Files, plan_a: str, b: Files, plan_b: str) -> Comparison:
    with folder_of(a) as one, folder_of(b) as other:
        first, second = Project.load(one), Project.load(other)
        return compare(side(first, first.plan(plan_a)), side(second, second.plan(plan_b)))


def with_plan(text: str) -> Files:
    return VALLEY | {"plan-open.csv": "id,from,until,rate_vph,limit_kmh\n" + text}


def test_a_plan_and_itself() -> None:
    found = compared(VALLEY, "metered", VALLEY, "metered")
    assert (found.verdict, found.by, found.places_different, found.only_written) == (SAME, "normal form", 0, [])
    assert found.first_setting is None and found.first_word is None


def test_a_rate_above_the_queue_is_only_written_differently() -> None:
    found = compared(with_plan("10,07:00:20,07:00:50,4400,\n"), "open", VALLEY, "open")
    assert (found.verdict, found.by) == (SAME, "normal form")
    assert [tuple(run) for run in found.only_written] == [(0, 2, 5, (782, 0), (800, 0))]


def test_the_first_difference_is_named() -> None:
    found = compared(VALLEY, "open", VALLEY, "metered")
    assert (found.verdict, found.by) == (DIFFERENT, "normal form")
    assert found.first_setting is not None and found.first_word is not None
    assert (found.first_setting.state, found.first_setting.node, found.first_setting.place) == (0, 1, 0)
    assert (found.first_word.state, found.first_word.node, found.first_word.place) == (0, 1, 2)
    assert (found.first_word.a, found.first_word.b) == (
        int(found.a.record.flows[0, 1]),
        int(found.b.record.flows[0, 1]),
    )
    records = found.a.record.states, found.b.record.states
    assert found.places_different == int((records[0] != records[1]).any(axis=2).sum())


def test_a_plan_over_a_limit_is_compared_by_its_record() -> None:
    found = compared(SHORT, "open", SHORT, "metered")
    assert (found.verdict, found.by) == (DIFFERENT, "record")
    assert found.a.refusal is None and found.b.refusal is not None and found.b.refusal.number == 12
    same = compared(SHORT, "metered", SHORT, "metered")
    assert (same.verdict, same.by) == (SAME, "record")


def test_an_older_kind_completed_is_the_same_road() -> None:
    drop = "dropped_capacity_vph,drop_density_vpkm"
    never = changed(VALLEY, ("corridor.csv", "15,,3600,60", "15,,,"))
    text = str(never["corridor.csv"]).replace(f",{drop}", "").replace(",,\n", "\n")
    found = compared(never, "metered", never | {"corridor.csv": text}, "metered")
    assert (found.a.project.corridor.kind, found.b.project.corridor.kind) == (10, 1)
    assert (found.verdict, found.reasons) == (SAME, [])
    free = changed(VALLEY, ("downstream.csv", "07:00:30,3150", "07:00:30,free"))
    found = compared(free, "metered", without(VALLEY, "downstream.csv"), "metered")
    assert (found.a.project.demands.kind, found.b.project.demands.kind) == (5, 2)
    assert found.verdict == SAME


def test_an_inserted_link_is_told_by_identifier() -> None:
    inserted = changed(VALLEY, ("corridor.csv", "30,Bridge,600,", "25,Weir,600,4500,90,18,200,,,15,,,\n30,Bridge,600,"))
    found = compared(VALLEY, "metered", inserted, "metered")
    assert (found.verdict, found.reasons) == (NOT_COMPARABLE, ["the corridors differ"])
    assert (found.only_in_a, found.only_in_b) == ([], [2])
    assert [(each.identifier, each.a, each.b) for each in found.shared] == [
        (10, 0, 0),
        (20, 1, 1),
        (30, 2, 3),
        (40, 3, 4),
    ]
    assert all(each.columns == [] for each in found.shared)
    bridge = found.shared[2]
    queues = found.a.record.flows[:, 2] != found.b.record.flows[:, 3]
    assert bridge.firsts["flow"] == int(np.flatnonzero(queues)[0])
    assert (bridge.firsts["rate"], bridge.firsts["arrivals"]) == (None, None)


@pytest.mark.parametrize(
    ("old", "new", "reason"),
    [
        ("step_s = 10", "step_s = 5", "steps of 10 s in A and 5 s in B"),
        ("steps = 6", "steps = 5", "6 steps in A and 5 in B"),
        ('start = "07:00"', 'start = "07:00:10"', "A starts at 07:00:00 and B at 07:00:10"),
    ],
)
def test_other_clocks_are_not_comparable(old: str, new: str, reason: str) -> None:
    other = changed(VALLEY, ("project.toml", old, new))
    found = compared(VALLEY, "open", other, "open")
    assert found.verdict == NOT_COMPARABLE and reason in found.reasons
    assert all(each.firsts == {} for each in found.shared)


def test_other_arrivals_are_not_comparable() -> None:
    other = changed(VALLEY, ("arrivals.csv", "07:00:30,4050,720", "07:00:30,4050,810"))
    found = compared(VALLEY, "open", other, "open")
    assert (found.verdict, found.reasons) == (NOT_COMPARABLE, ["what arrives or leaves differs"])
    assert [each.firsts["arrivals"] for each in found.shared] == [None, 3, None, None]


def test_what_was_written_tells_how_corridors_differ() -> None:
    """A shorter link has other words for the same speeds and densities: its length is what differs."""
    shorter = changed(VALLEY, ("corridor.csv", "30,Bridge,600,", "30,Bridge,550,"))
    found = compared(VALLEY, "metered", shorter, "metered")
    assert [each.columns for each in found.shared] == [[], [], ["length"], []]
    assert [each.firsts["limit"] for each in found.shared] == [None, None, None, None]


def test_another_limit_on_another_road_is_told() -> None:
    slower = changed(
        VALLEY,
        ("corridor.csv", "40,Harbour,500,", "40,Harbour,450,"),
        ("plan-metered.csv", "30,07:00:30,,,72", "30,07:00:30,,,60"),
    )
    found = compared(VALLEY, "metered", slower, "metered")
    assert [each.firsts["limit"] for each in found.shared] == [None, None, 3, None]
