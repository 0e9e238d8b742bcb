"""The numbers behind the maps: each is a word of the record in another unit, worked out here from the words, the lengths in corridor.csv and the
clock; the window that is cut out of a record; and where times and names are put on an axis."""

import csv
import functools
import io
import math
from fractions import Fraction
from typing import NamedTuple

import numpy as np
import pytest
from hypothesis import given
from hypothesis import strategies as st
from projects import B, VALLEY, Files, changed, folder_of, run

from gigorchid import Plan, Project, Record
from gigorchid.axis_labels import INTERVALS, Name, fitting, spread, times
from gigorchid.maps import QUANTITIES, Map, has_ramp, map_of, over_limit, ramps
from gigorchid.times import Clock
from gigorchid.windows import Window, WrongWindow, kilometres

MILE = Fraction("1.609344")
UNLIMITED = 134_217_728
CAPACITY, FULL_SPEED, JAM, RAMP_CAPACITY, QUEUE_LIMIT = 1, 2, 4, 5, 6
"""Places of a node's words in the corridor, as section 4 of docs/MODEL.md lists them."""
WORD = {"vehicles": 0, "queue": 1, "flow": 2, "speed": 2}
"""Places of a node's words in a record: n, l, f, r. A speed is told by f."""


class Road(NamedTuple):
    """A project, two of its plans with their records, and what its corridor.csv says."""

    project: Project
    plan: Plan
    record: Record
    other: Record
    lengths: list[Fraction | None]
    """Of the links, in metres; that of the entry is None."""
    speeds: str
    """The unit of the corridor's full speeds."""

    def corridor_word(self, node: int, place: int) -> int:
        """A word of a node of the corridor, found by where the list has it."""
        words = self.project.corridor.words
        width = (len(words) - 1) // (int(words[0]) + 1)
        return int(words[1 + node * width + place])

    @property
    def links(self) -> int:
        return len(self.lengths) - 1


def record_words(record: Record, links: int) -> np.ndarray:
    """The words of a record by state, node and place, found by where the list of kind 3 has them."""
    return record.words[:-2].reshape(-1, links + 1, 4).astype(np.int64)


MPH: Files = changed(
    VALLEY,
    ("corridor.csv", "free_speed_kmh,wave_speed_kmh", "free_speed_mph,wave_speed_mph"),
    ("corridor.csv", MILL := "20,Mill Road,500,4500,90,18,", "20,Mill Road,500,4500,56,11,"),
    ("corridor.csv", "30,Bridge,600,4500,90,18,", "30,Bridge,600,4500,55,11,"),
    ("corridor.csv", "40,Harbour,500,4500,90,18,", "40,Harbour,500,4500,54,11,"),
    ("plan-metered.csv", "limit_kmh", "limit_mph"),
    ("plan-metered.csv", ",,72\n", ",,45\n"),
)
MISSING: Files = changed(
    VALLEY,
    (
        "corridor.csv",
        "free_speed_kmh,wave_speed_kmh,jam_density_vpkm",
        "free_speed_units,wave_speed_units,jam_density_veh",
    ),
    ("corridor.csv", "drop_density_vpkm", "drop_density_veh"),
    ("corridor.csv", f"{MILL}200,", "20,Mill Road,500,4500,32768,6554,100,"),
    ("corridor.csv", "30,Bridge,600,4500,90,18,200,", "30,Bridge,,4500,27307,5461,120,"),
    ("corridor.csv", "40,Harbour,500,4500,90,18,200,", "40,Harbour,500,4500,32000,6554,100,"),
    ("plan-metered.csv", "limit_kmh", "limit_units"),
    ("plan-metered.csv", ",,72\n", ",,20000\n"),
)
"""The valley road in miles per hour, each link with another speed; and with a link of which nobody knows the length."""

NO_ROOM: Files = changed(
    VALLEY,
    ("corridor.csv", "900,25,20,2,,", "900,0,20,,,"),
    ("arrivals.csv", "07:00,3600,540", "07:00,3600,0"),
    ("plan-metered.csv", "20,07:00:20,07:01,360,", "20,07:00:20,07:01,0,"),
)
"""The valley road with a ramp on which nobody may wait, and where some do from 07:00:30 on."""


def full_size() -> Files:
    """As many links and steps as the library takes, on a road of other lengths from link to link, with ramps at two nodes of three."""
    names = "id,name,length_m,capacity_vph,free_speed_kmh,wave_speed_kmh,jam_density_vpkm,ramp_capacity_vph,queue_limit_veh,start_vehicles_vpkm,start_queue_veh"
    rows = [names, "1000,Entry,,,,,,8000,none,,13"]
    for link in range(1, 65):
        ramp = "1200,40,46,1" if link % 3 and link < 64 else ",,46,"
        rows.append(f"{1000 + 10 * link},Junction number {link},{300 + link * 37 % 900},8000,100,20,476,{ramp}")
    fed = [1000, *(1000 + 10 * link for link in range(1, 64) if link % 3)]
    columns = "from," + ",".join(f"{node}_vph" for node in fed)
    series = [f"{time},{main}" + f",{ramp}" * (len(fed) - 1) for time, main, ramp in FED]
    exits = [1000 + 10 * link for link in range(1, 64)]
    return {
        "project.toml": FULL_SIZE,
        "corridor.csv": "\n".join(rows) + "\n",
        "arrivals.csv": "\n".join([columns, *series]) + "\n",
        "splits.csv": "from," + ",".join(f"{node}_pct" for node in exits) + "\n06:00" + ",5" * 63 + "\n",
        "plan-a.csv": "id,from,until,rate_vph,limit_kmh\n1100,06:30,07:30,500,80\n1640,07:00,,,60\n",
        "plan-open.csv": "id,from,until,rate_vph,limit_kmh\n",
    }


FED = (("06:00", 5000, 300), ("07:00", 6000, 800), ("08:30", 4000, 200))
FULL_SIZE = """\
title = "Full size"
start = "06:00"
step_s = 10
steps = 1440

[files]
corridor = "corridor.csv"
arrivals = "arrivals.csv"
splits = "splits.csv"

[plans]
a = "plan-a.csv"
open = "plan-open.csv"
"""


def read_road(folder: object, plan: str, other: str) -> Road:
    """A project of a folder, with the records of two of its plans."""
    project = Project.load(str(folder))
    rows = list(csv.DictReader(io.StringIO((project.folder / "corridor.csv").read_text())))
    lengths = [Fraction(row["length_m"]) if row["length_m"] else None for row in rows]
    speeds = "mph" if "free_speed_mph" in rows[0] else "km/h"
    plans = project.plan(plan), project.plan(other)
    return Road(project, plans[0], project.simulate(plans[0]), project.simulate(plans[1]), lengths, speeds)


PLACES: dict[str, tuple[Files, str, str]] = {
    "mph": (MPH, "metered", "open"),
    "missing length": (MISSING, "metered", "open"),
    "no room": (NO_ROOM, "metered", "open"),
    "b": (B, "full", "full"),
}
ROADS = ("starter", *PLACES, "full size")


@functools.cache
def road(name: str) -> Road:
    """One of the roads that the tests are made on; of the starter the plan that lets a queue pass its limit."""
    if name == "starter":
        with folder_of({}) as folder:
            assert run(folder, "new", "demo")[0] == 0
            return read_road(folder / "demo", "tight", "peak")
    files, plan, other = (full_size(), "a", "open") if name == "full size" else PLACES[name]
    with folder_of(files) as folder:
        return read_road(folder, plan, other)


def ramps_of(place: Road, *records: Record) -> list[int]:
    """The nodes before the last with a capacity of their ramp, or with a queue in any state."""
    queues = [record_words(record, place.links)[:, :, WORD["queue"]] for record in records]
    return [
        node
        for node in range(place.links)
        if place.corridor_word(node, RAMP_CAPACITY) or any(each[:, node].any() for each in queues)
    ]


def nodes_of(place: Road, quantity: str, *records: Record) -> list[int]:
    """Which node each row of a map speaks of."""
    return ramps_of(place, *records) if quantity == "queue" else list(range(1, place.links + 1))


def figure(place: Road, record: Record, quantity: str, node: int, words: tuple[int, ...]) -> float:
    """What a map says of a node in a state with the words n, l, f and r, in the unit that it names."""
    vehicles, queue, flow, _ = words
    step, length = place.project.clock.step, place.lengths[node]
    known = None not in place.lengths[1:]
    if quantity == "flow":
        return float(Fraction(flow, 64) * 3600 / step)
    if quantity == "vehicles":
        return float(Fraction(vehicles, 64) / (length / 1000 if known else 1))
    if quantity == "speed":
        if vehicles < 64:
            return math.nan
        if not known:
            return float(Fraction(flow, vehicles) * 65_536 / place.corridor_word(node, FULL_SPEED) * 100)
        kilometres_an_hour = Fraction(flow, vehicles) * length / step * Fraction(36, 10)
        return float(kilometres_an_hour / (MILE if place.speeds == "mph" else 1))
    limit = place.corridor_word(node, QUEUE_LIMIT)
    if limit == UNLIMITED:
        return math.nan
    return float(Fraction(100 * queue, limit)) if limit else (math.inf if queue else 0.0)


UNITS = {"vehicles": "veh/km", "speed": "km/h", "flow": "veh/h", "queue": "% of their limits"}


@pytest.mark.parametrize("quantity", QUANTITIES)
@pytest.mark.parametrize("name", ROADS)
def test_the_words_of_a_map_are_those_of_the_record(name: str, quantity: str) -> None:
    place = road(name)
    words, nodes = record_words(place.record, place.links), nodes_of(place, quantity, place.record)
    shown = map_of(place.record, quantity)
    states = place.project.clock.steps + (quantity in ("vehicles", "queue"))
    assert (shown.quantity, shown.nodes, shown.states) == (quantity, nodes, range(states))
    assert shown.words.shape == shown.values.shape == (len(nodes), states)
    for row, node in enumerate(nodes):
        assert shown.words[row].tolist() == words[:states, node, WORD[quantity]].tolist()


@pytest.mark.parametrize("quantity", QUANTITIES)
@pytest.mark.parametrize("name", ROADS)
def test_the_figures_of_a_map_are_the_words_in_its_unit(name: str, quantity: str) -> None:
    place = road(name)
    shown, words = map_of(place.record, quantity), record_words(place.record, place.links).tolist()
    # Of a road of full size a state in 29, since each figure is a fraction.
    for state in shown.states[:: 29 if name == "full size" else 1]:
        wanted = [figure(place, place.record, quantity, node, tuple(words[state][node])) for node in shown.nodes]
        np.testing.assert_allclose(shown.values[:, state], wanted, rtol=1e-12, atol=0)


@pytest.mark.parametrize("name", ROADS)
def test_a_map_names_its_unit_and_whether_it_is_proved(name: str) -> None:
    place = road(name)
    units = UNITS | ({"speed": "mph"} if place.speeds == "mph" else {})
    if None in place.lengths[1:]:
        units |= {"vehicles": "veh", "speed": "% of full speed"}
    for quantity in QUANTITIES:
        shown, less = map_of(place.record, quantity), map_of(place.record, quantity, less=place.other)
        assert shown.unit == units[quantity]
        assert less.unit == ("veh" if quantity == "queue" else units[quantity])
        assert shown.proved is (quantity in ("vehicles", "flow")) and less.proved is False


def test_the_roads_have_what_the_figures_are_tested_on() -> None:
    """So that no test above passes since nothing of its kind is there."""
    starter, no_room = map_of(road("starter").record, "queue"), map_of(road("no room").record, "queue")
    assert np.isnan(starter.values).any() and (starter.values > 100).any() and (starter.values < 100).any()
    assert np.isinf(no_room.values).any() and (no_room.values == 0).any()
    assert len({length for length in road("full size").lengths}) > 50 and road("full size").links == 64
    assert len(ramps_of(road("full size"), road("full size").record)) == 43
    for name in ROADS:
        moved = map_of(road(name).record, "flow")
        assert moved.words.any() and (name == "b" or moved.words.std() > 0)


def test_the_starters_words_are_those_of_its_record_on_paper() -> None:
    """By state and identifier, as record.csv has them, and with no help of the package."""
    place = road("starter")
    with folder_of({}) as folder:
        place.record.save(folder / "record.csv")
        rows = list(csv.DictReader((folder / "record.csv").read_text().splitlines()))
    columns = {"vehicles": "vehicles_units", "flow": "flow_units", "queue": "queue_units"}
    ids = [int(word) for word in place.project.corridor.words[1::11]]
    for quantity, column in columns.items():
        table = {(int(row["state"]), int(row["id"])): int(row[column]) for row in rows}
        shown = map_of(place.record, quantity)
        wanted = [[table[state, ids[node]] for state in shown.states] for node in shown.nodes]
        assert shown.words.tolist() == wanted


def test_corridor_b_by_hand() -> None:
    """Links of half a kilometre, steps of 10 s, a queue limit of 1000 and of 200 units: the record of docs/MODEL.md, section 9."""
    maps = {quantity: map_of(road("b").record, quantity) for quantity in QUANTITIES}
    assert maps["vehicles"].words.tolist() == [[200, 120], [200, 200]]
    assert maps["vehicles"].values.tolist() == [[6.25, 3.75], [6.25, 6.25]]
    assert maps["flow"].words.tolist() == maps["speed"].words.tolist() == [[80], [100]]
    assert maps["flow"].values.tolist() == [[450], [562.5]]
    assert maps["speed"].values.tolist() == [[72], [90]]
    assert maps["queue"].words.tolist() == [[0, 30], [50, 20]]
    assert maps["queue"].values.tolist() == [[0, 3], [25, 10]]


def record_of_b(*nodes: tuple[int, int, int]) -> tuple[Project, Record]:
    """Corridor B with a record, read from a file, in which state 0 has these n, l and f."""
    rows = ["state,id,vehicles_units,queue_units,flow_units,ramp_flow_units,cost_units"]
    rows += [f"0,{10 * (at + 1)},{n},{l},{f},0," for at, (n, l, f) in enumerate(nodes)]
    rows += ["1,10,0,0,0,0,", "1,20,0,0,0,0,", "1,30,0,0,0,0,0"]
    with folder_of(B | {"proposed.csv": "\n".join(rows) + "\n"}) as folder:
        project = Project.load(folder)
        return project, project.record(folder / "proposed.csv")


@pytest.mark.parametrize(("vehicles", "speed"), [(0, math.nan), (63, math.nan), (64, 90.0), (128, 45.0)])
def test_there_is_a_speed_from_one_vehicle_on(vehicles: int, speed: float) -> None:
    _, record = record_of_b((0, 0, 0), (vehicles, 0, 32), (640, 0, 0))
    np.testing.assert_array_equal(map_of(record, "speed").values, [[speed], [0]])


@pytest.mark.parametrize(("queue", "over", "share"), [(199, False, 99.5), (200, False, 100.0), (201, True, 100.5)])
def test_a_ramp_is_over_full_above_its_limit_and_not_at_it(queue: int, over: bool, share: float) -> None:
    _, record = record_of_b((0, 1000, 0), (64, queue, 0), (64, 0, 0))
    assert over_limit(record, [0, 1], range(0, 2)).tolist() == [[False, False], [over, False]]
    assert map_of(record, "queue").values[:, 0].tolist() == [100, share]


def test_over_full_ramps_of_the_starter_are_those_of_the_record() -> None:
    place = road("starter")
    queues = record_words(place.record, place.links)[:, :, WORD["queue"]]
    nodes, states = [0, 1, 9, 10], range(600, 1000)
    limits = [place.corridor_word(node, QUEUE_LIMIT) for node in nodes]
    wanted = [[int(queues[state, node]) > limit for state in states] for node, limit in zip(nodes, limits)]
    assert over_limit(place.record, nodes, states).tolist() == wanted
    assert [any(row) for row in wanted] == [False, False, True, False]


@pytest.mark.parametrize("quantity", QUANTITIES)
@pytest.mark.parametrize("name", ROADS)
def test_a_map_of_b_less_a_has_what_the_one_has_more_than_the_other(name: str, quantity: str) -> None:
    place = road(name)
    nodes = nodes_of(place, quantity, place.record, place.other)
    less = map_of(place.record, quantity, less=place.other)
    words = [record_words(each, place.links) for each in (place.record, place.other)]
    assert less.nodes == nodes and less.first == 0
    apart = [each[: less.words.shape[1], nodes, WORD[quantity]].T for each in words]
    assert less.words.tolist() == (apart[0] - apart[1]).tolist()
    for state in less.states[:: 29 if name == "full size" else 1]:
        wanted = [
            float(Fraction(int(a[state, node, 1] - b[state, node, 1]), 64))
            if quantity == "queue"
            else figure(place, place.record, quantity, node, tuple(a[state, node].tolist()))
            - figure(place, place.other, quantity, node, tuple(b[state, node].tolist()))
            for node in nodes
            for a, b in [words]
        ]
        np.testing.assert_allclose(less.values[:, state], wanted, rtol=1e-9, atol=1e-9)
    assert name == "b" or less.words.any()


def three_digits(value: float) -> float:
    return float(f"{value:.3g}")


@pytest.mark.parametrize("name", ROADS)
def test_the_colours_end_at_what_the_corridor_can_have(name: str) -> None:
    """To three digits, so that a capacity of 8,600 that is 8,600.6 as a word is met again."""
    place = road(name)
    links, step, known = range(1, place.links + 1), place.project.clock.step, None not in place.lengths[1:]
    capacities = [float(Fraction(place.corridor_word(link, CAPACITY), 64) * 3600 / step) for link in links]
    full = [(65_536, 0, place.corridor_word(link, FULL_SPEED), 0) for link in links]
    speeds = [figure(place, place.record, "speed", link, words) for link, words in zip(links, full)]
    jams = [
        Fraction(place.corridor_word(link, JAM), 64) / (place.lengths[link] / 1000 if known else 1) for link in links
    ]
    found = {quantity: map_of(place.record, quantity) for quantity in QUANTITIES}
    assert found["flow"].most == three_digits(max(capacities))
    assert found["speed"].most == three_digits(max(speeds))
    assert found["queue"].most == 100
    assert found["vehicles"].most == max(three_digits(float(max(jams))) / 2, found["vehicles"].values.max())
    for quantity in QUANTITIES:
        less = map_of(place.record, quantity, less=place.other)
        assert less.most == (np.nanmax(np.abs(less.values)) if less.values.size else 0)


@given(st.lists(st.integers(0, 2**32 - 1), min_size=48, max_size=48))
def test_a_record_may_have_any_words(words: list[int]) -> None:
    """Whatever somebody proposes, no word wraps round, also where one is taken from another."""
    project = road("b").project
    a, b = (
        Record(np.array([*part, 0, 0], np.uint32), project.corridor, project.clock) for part in (words[:24], words[24:])
    )
    place = road("b")
    for quantity in QUANTITIES:
        shown, less = map_of(a, quantity), map_of(a, quantity, less=b)
        for row, node in enumerate(shown.nodes):
            for state in shown.states:
                own = tuple(words[4 * (3 * state + node) : 4 * (3 * state + node) + 4])
                assert shown.words[row, state] == own[WORD[quantity]]
                wanted = figure(place, a, quantity, node, own)
                np.testing.assert_allclose(shown.values[row, state], wanted, rtol=1e-12)
                other = words[24 + 4 * (3 * state + node) + WORD[quantity]]
                assert less.words[less.nodes.index(node), state] == own[WORD[quantity]] - other


def test_ramps_are_those_with_a_capacity_or_a_queue_in_any_record() -> None:
    """A node without a ramp at which vehicles wait, in one of two records, has a row in both."""
    place = road("mph")
    whole = Window.whole(place.record)
    assert ramps(whole, place.record) == [0, 1] and not has_ramp(place.record, 2)
    words = place.record.words.copy()
    words[4 * (3 * 4 + 2) + 1] = 5
    waiting = Record(words, place.project.corridor, place.project.clock)
    assert has_ramp(waiting, 2) and not has_ramp(waiting, 3)
    assert (
        ramps(whole, waiting) == ramps(whole, place.record, waiting) == ramps(whole, waiting, place.record) == [0, 1, 2]
    )
    assert map_of(place.record, "queue", less=waiting).words[2].tolist() == [0, 0, 0, -5, 0, 0, 0]


# Windows


@pytest.mark.parametrize(
    ("start", "until", "links", "window"),
    [
        (None, None, None, (0, 1080, 1, 13)),
        ("06:00", None, None, (0, 1080, 1, 13)),
        ("07:00", None, None, (360, 1080, 1, 13)),
        ("07:00:10", None, None, (361, 1080, 1, 13)),
        (None, "07:00", None, (0, 359, 1, 13)),
        (None, "06:00:10", None, (0, 0, 1, 13)),
        (None, "09:00", None, (0, 1079, 1, 13)),
        ("08:59:50", "9:00", None, (1079, 1079, 1, 13)),
        ("09:00", None, None, (1080, 1080, 1, 13)),
        ("07:00", "08:00", "1140..1350", (360, 719, 3, 8)),
        (None, None, "University..Cutting", (0, 1080, 3, 8)),
        (None, None, "1140..Cutting", (0, 1080, 3, 8)),
        (None, None, " University .. 1350 ", (0, 1080, 3, 8)),
        (None, None, "1140", (0, 1080, 3, 3)),
        (None, None, "San Pablo Dam", (0, 1080, 10, 10)),
        (None, None, "1020..1600", (0, 1080, 1, 13)),
        (None, None, "Cutting..Cutting", (0, 1080, 8, 8)),
    ],
)
def test_a_window_is_from_one_time_until_before_another_and_from_link_to_link(
    start: str | None, until: str | None, links: str | None, window: tuple[int, ...]
) -> None:
    assert tuple(Window.of(road("starter").record, start, until, links)) == window


KNOWN = "Mill Road (20), Bridge (30), Harbour (40)"
TIME = "expected a time of day such as 07:30 or 07:30:10"


@pytest.mark.parametrize(
    ("option", "given_texts", "text"),
    [
        ("from", ("soon", None, None), f"soon: {TIME}"),
        ("from", ("", None, None), f": {TIME}"),
        ("from", ("7", None, None), f"7: {TIME}"),
        ("until", (None, "07:60", None), f"07:60: {TIME}"),
        ("from", ("06:59:50", None, None), "06:59:50: expected a time from 07:00:00 to 07:01:00"),
        ("from", ("07:01:10", None, None), "07:01:10: expected a time from 07:00:00 to 07:01:00"),
        ("until", (None, "31:00", None), "31:00: expected a time from 07:00:00 to 07:01:00"),
        ("from", ("07:00:05", None, None), "07:00:05: no step starts then: expected 07:00:00 or 07:00:10"),
        ("until", (None, "07:00:12.5", None), "07:00:12.5: no step starts then: expected 07:00:10 or 07:00:20"),
        ("until", (None, "07:00", None), "07:00: expected a time after 07:00:00"),
        ("until", ("07:00:30", "07:00:30", None), "07:00:30: expected a time after 07:00:30"),
        ("until", ("07:00:30", "07:00:10", None), "07:00:10: expected a time after 07:00:30"),
        ("until", ("07:01", "07:01", None), "07:01: expected a time after 07:01:00"),
        ("links", (None, None, "40..20"), "40..20: 20 comes before 40 on the road: expected them in its order"),
        (
            "links",
            (None, None, "Harbour .. Bridge"),
            "Harbour .. Bridge: Bridge comes before Harbour on the road: expected them in its order",
        ),
        ("links", (None, None, "10..30"), "10..30: no link ends at the entry, 10"),
        ("links", (None, None, "Entry"), "Entry: no link ends at the entry, Entry"),
        ("links", (None, None, "20..50"), f"20..50: no link ends at 50: expected FIRST..LAST of {KNOWN}"),
        ("links", (None, None, "bridge"), f"bridge: no link ends at bridge: expected FIRST..LAST of {KNOWN}"),
        ("links", (None, None, "2"), f"2: no link ends at 2: expected FIRST..LAST of {KNOWN}"),
        ("links", (None, None, ""), f": no link ends at nothing: expected FIRST..LAST of {KNOWN}"),
        ("links", (None, None, "20.."), f"20..: no link ends at nothing: expected FIRST..LAST of {KNOWN}"),
        ("links", (None, None, ".."), f"..: no link ends at nothing: expected FIRST..LAST of {KNOWN}"),
        ("links", (None, None, "20..30..40"), f"20..30..40: no link ends at 30..40: expected FIRST..LAST of {KNOWN}"),
    ],
)
def test_a_wrong_window_says_which_option_and_what_was_expected(
    option: str, given_texts: tuple[str | None, ...], text: str
) -> None:
    with pytest.raises(WrongWindow) as raised:
        Window.of(road("mph").record, *given_texts)
    assert (raised.value.option, str(raised.value)) == (option, text)


def renamed(*edits: tuple[str, str]) -> Record:
    """The open plan's record of the valley road with other names in its corridor."""
    with folder_of(changed(VALLEY, *(("corridor.csv", old, new) for old, new in edits))) as folder:
        return Project.load(folder).simulate("open")


def test_two_nodes_of_one_name_are_told_apart_by_identifiers() -> None:
    record = renamed(("40,Harbour", "40,Bridge"))
    with pytest.raises(WrongWindow) as raised:
        Window.of(record, links="20..Bridge")
    assert str(raised.value) == "20..Bridge: 2 nodes are called Bridge: expected an identifier"
    assert Window.of(record, links="20..40")[2:] == (1, 3) and Window.of(record, links="30")[2:] == (2, 2)


def test_an_identifier_is_that_node_though_another_has_it_for_a_name() -> None:
    assert Window.of(renamed(("40,Harbour", "40,30")), links="30")[2:] == (2, 2)


@pytest.mark.parametrize("text", ["", "20..", "..40", " .. "])
def test_nothing_is_no_name_of_a_node_without_one(text: str) -> None:
    for record in (renamed(("30,Bridge", "30,")), renamed(("30,Bridge", "30,"), ("40,Harbour", "40,"))):
        with pytest.raises(WrongWindow) as raised:
            Window.of(record, links=text)
        assert raised.value.option == "links" and "no link ends at nothing" in str(raised.value)


WINDOWS = [
    ("07:00", "08:00", "Ashby..Barrett"),
    (None, "06:10", None),
    ("08:30", None, "1600"),
    (None, None, "1320..1430"),
]


@pytest.mark.parametrize("quantity", QUANTITIES)
@pytest.mark.parametrize("texts", WINDOWS)
def test_the_map_of_a_window_is_the_whole_map_cut(texts: tuple[str | None, ...], quantity: str) -> None:
    place = road("starter")
    window = Window.of(place.record, *texts)
    for less in (None, place.other):
        whole, cut = map_of(place.record, quantity, less=less), map_of(place.record, quantity, window, less)
        assert_cut(whole, cut, window)
        assert (cut.unit, cut.proved) == (whole.unit, whole.proved)


def assert_cut(whole: Map, cut: Map, window: Window) -> None:
    """That a map has the rows and columns of a whole one that a window shows."""
    least = window.first_link - (whole.quantity == "queue")
    rows = [row for row, node in enumerate(whole.nodes) if least <= node <= window.last_link]
    columns = [at for at in whole.states if window.first <= at <= window.last]
    assert cut.nodes == [whole.nodes[row] for row in rows] and rows
    assert list(cut.states) == columns and cut.first == window.first
    np.testing.assert_array_equal(cut.words, whole.words[np.ix_(rows, columns)])
    np.testing.assert_array_equal(cut.values, whole.values[np.ix_(rows, columns)])


@pytest.mark.parametrize("quantity", ["vehicles", "speed", "flow"])
def test_a_window_has_the_unit_of_the_whole_where_a_length_outside_is_missing(quantity: str) -> None:
    """Else the colours of a link end at a figure of another unit, and its axis has no kilometres."""
    place = road("missing length")
    whole, cut = map_of(place.record, quantity), map_of(place.record, quantity, Window.of(place.record, links="40"))
    assert (cut.unit, cut.most) == (whole.unit, whole.most)
    np.testing.assert_array_equal(cut.values, whole.values[2:])


def test_the_last_state_has_vehicles_and_queues_and_no_flow() -> None:
    place = road("starter")
    window = Window.of(place.record, "09:00")
    shapes = {quantity: map_of(place.record, quantity, window).values.shape for quantity in QUANTITIES}
    assert shapes == {"vehicles": (13, 1), "speed": (13, 0), "flow": (13, 0), "queue": (12, 1)}


def test_the_nodes_of_a_window_are_the_ends_of_its_links() -> None:
    assert list(Window(0, 1, 3, 5).nodes) == [2, 3, 4, 5]
    assert list(Window.whole(road("starter").record).nodes) == list(range(14))


@pytest.mark.parametrize("name", ["starter", "mph", "full size"])
def test_kilometres_are_the_lengths_one_after_another(name: str) -> None:
    lengths = [length or Fraction(0) for length in road(name).lengths]
    wanted = [sum(lengths[: node + 1], Fraction(0)) / 1000 for node in range(len(lengths))]
    assert kilometres(road(name).project.corridor) == wanted
    assert kilometres(road("missing length").project.corridor) is None


# Where times and names stand on an axis


PLACES_WANTED = st.lists(st.floats(0, 100, allow_nan=False), min_size=1, max_size=12).map(sorted)


@given(PLACES_WANTED, st.floats(0.01, 9))
def test_places_are_spread_in_order_a_gap_apart_and_within_bounds(wanted: list[float], gap: float) -> None:
    """There is room for twelve of them."""
    found = spread(wanted, gap, 0, 100)
    assert len(found) == len(wanted)
    assert found[0] >= -1e-9 and found[-1] <= 100 + 1e-9
    assert all(after - before >= gap - 1e-9 for before, after in zip(found, found[1:]))


@given(PLACES_WANTED, st.floats(0.01, 9))
def test_no_other_places_are_nearer_to_the_wanted_ones(wanted: list[float], gap: float) -> None:
    """Moving any run of them a little, as far as gaps and bounds let it, makes the sum of squares no less."""
    found = spread(wanted, gap, 0, 100)
    for start in range(len(found)):
        for end in range(start + 1, len(found) + 1):
            pull = sum(place - at for place, at in zip(found[start:end], wanted[start:end]))
            if pull > 1e-6:
                assert found[start] <= 1e-6 or (start and found[start] - found[start - 1] <= gap + 1e-6)
            elif pull < -1e-6:
                assert found[end - 1] >= 100 - 1e-6 or (end < len(found) and found[end] - found[end - 1] <= gap + 1e-6)


@given(st.lists(st.floats(0, 10), min_size=1, max_size=8), st.floats(0.1, 2))
def test_places_that_are_apart_already_are_not_moved(steps: list[float], gap: float) -> None:
    wanted = [sum(steps[: at + 1]) + at * gap for at in range(len(steps))]
    assert spread(wanted, gap, 0, wanted[-1] + 1) == pytest.approx(wanted, abs=1e-9)


def test_nothing_is_spread_to_nowhere() -> None:
    assert spread([], 1, 0, 10) == []


NAMES = st.lists(st.tuples(st.booleans(), st.booleans()), max_size=20).map(
    lambda signs: [Name(float(at), f"name {at}", ramp, ramp and over) for at, (ramp, over) in enumerate(signs)]
)


@given(NAMES, st.integers(1, 25))
def test_the_names_that_fit_are_in_order_and_no_more_than_there_is_room_for(names: list[Name], room: int) -> None:
    found = fitting(names, room)
    assert len(found) <= room
    assert [name for name in names if name in found] == found
    if len(names) <= room:
        assert found == names


@given(NAMES, st.integers(1, 25))
def test_ramps_come_before_others_and_over_full_ones_before_all(names: list[Name], room: int) -> None:
    found = fitting(names, room)
    ramps_named, over = [name for name in names if name.ramp], [name for name in names if name.over]
    assert len([name for name in found if name.over]) == min(len(over), room)
    if len(names) > room:
        assert len([name for name in found if name.ramp]) == min(len(ramps_named), room)


@pytest.mark.parametrize("over", [False, True])
def test_of_too_many_ramps_some_are_named_from_end_to_end(over: bool) -> None:
    """No half of the road is without a name, be its ramps over-full or not."""
    names = [Name(float(at), str(at), True, over) for at in range(60)]
    found = fitting(names, 20)
    assert len(found) == 20
    apart = [after.at - before.at for before, after in zip(found, found[1:])]
    assert max(apart) <= 6 and found[0].at <= 6 and found[-1].at >= 53


@given(
    st.integers(0, 30 * 3600),
    st.sampled_from(["0.5", "1", "7.5", "10", "60"]),
    st.integers(1, 1441),
    st.floats(15, 200),
)
def test_times_are_round_within_the_axis_and_no_more_than_it_has_room_for(
    start: int, step: str, states: int, width: float
) -> None:
    first, last = Fraction(start), start + states * Fraction(step)
    found = times(first, last, width)
    assert all(first <= time <= last for time, _ in found)
    gaps = {after - before for (before, _), (after, _) in zip(found, found[1:])}
    assert len(gaps) <= 1 and all(gap in INTERVALS for gap in gaps)
    assert all(time % gap == 0 for gap in gaps for time, _ in found)
    # Two times side by side have the room of their signs, and one more between them.
    assert all(gap * width / (last - first) >= len(found[0][1]) + 1 for gap in gaps)


@given(st.integers(0, 30 * 3600), st.integers(1, 1441), st.floats(15, 200))
def test_a_time_says_what_it_stands_for(start: int, states: int, width: float) -> None:
    for time, text in times(Fraction(start), Fraction(start + 10 * states), width):
        parts = [int(part) for part in text.split(":")]
        assert sum(part * 60 ** (2 - place) for place, part in enumerate(parts)) == time
        assert len(text) in (5, 8)


def test_the_starters_times_are_quarters_of_an_hour() -> None:
    clock = Clock(Fraction(6 * 3600), Fraction(10), 1080)
    found = times(clock.start, clock.start + clock.steps * clock.step, 100)
    wanted = [f"{hour:02d}:{minute:02d}" for hour in (6, 7, 8) for minute in (0, 15, 30, 45)] + ["09:00"]
    assert [text for _, text in found] == wanted
