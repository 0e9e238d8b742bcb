"""The maps as axes of matplotlib, and `gigorchid plot`: that what is drawn is what the record and the plan say, where and when they say it; that it can
be read, also by people who do not tell red from green; and that the files are the same each time."""

import contextlib
import functools
import io
import json
import os
import shutil
import signal
import struct
import subprocess
import sys
from collections.abc import Iterator, Sequence
from fractions import Fraction
from pathlib import Path
from typing import Any, NamedTuple
from unittest import mock
from xml.etree import ElementTree

import matplotlib
import numpy as np
import pytest
from matplotlib import pyplot
from matplotlib.axes import Axes
from matplotlib.backends.backend_agg import FigureCanvasAgg
from matplotlib.collections import PolyCollection
from matplotlib.colors import to_rgb, to_rgba
from matplotlib.figure import Figure
from matplotlib.text import Text
from projects import B, VALLEY, Files, changed, folder_of, run
from test_maps import (
    FULL_SPEED,
    NO_ROOM,
    QUEUE_LIMIT,
    RAMP_CAPACITY,
    ROADS,
    UNLIMITED,
    WORD,
    Road,
    figure,
    nodes_of,
    ramps_of,
    record_words,
    road,
)

import golden
from gigorchid import Plan, Project, Record, plots
from gigorchid.commands import main
from gigorchid.compare import side
from gigorchid.maps import QUANTITIES
from gigorchid.pictures import picture, saved, style
from gigorchid.plans import PlanSource
from gigorchid.subjects import subject
from gigorchid.windows import Window

DRAW = {"vehicles": plots.vehicles, "speed": plots.speed, "flow": plots.flow, "queue": plots.queue}
LINKS = ("vehicles", "speed", "flow")


def drawn(quantity: str, record: Record, **settings: Any) -> Axes:
    """A map on axes of a figure that nobody else has, as wide as on a page."""
    figure_of = Figure(figsize=(8.27, 3.2))
    FigureCanvasAgg(figure_of)
    axes = figure_of.add_axes([0.08, 0.1, 0.75, 0.72])
    assert DRAW[quantity](record, ax=axes, **settings) is axes
    return axes


@functools.cache
def map_axes(name: str, quantity: str) -> Axes:
    """The map of a road's record with its plan."""
    return drawn(quantity, road(name).record, plan=road(name).plan)


def seconds(text: str) -> int:
    """The seconds after midnight of a time of day on an axis."""
    return sum(int(part) * 60 ** (2 - place) for place, part in enumerate(text.split(":")))


def ends_of(place: Road) -> list[float]:
    """Where the nodes are: in kilometres from the entry or, where a length is missing, in links."""
    if None in place.lengths[1:]:
        return [float(node) for node in range(place.links + 1)]
    lengths = [length or Fraction(0) for length in place.lengths]
    return [float(sum(lengths[: node + 1], Fraction(0)) / 1000) for node in range(place.links + 1)]


def time_of(place: Road, state: int) -> float:
    """When a state is, in seconds after midnight."""
    return float(place.project.clock.start + state * place.project.clock.step)


def row_ends(place: Road, quantity: str) -> list[float]:
    """Where the rows of a map begin, and where the last one ends."""
    return (
        [float(row) for row in range(len(ramps_of(place, place.record)) + 1)] if quantity == "queue" else ends_of(place)
    )


# What is on the axes


@pytest.mark.parametrize("quantity", QUANTITIES)
@pytest.mark.parametrize("name", ROADS)
def test_the_colours_stand_for_the_figures_of_the_record(name: str, quantity: str) -> None:
    place, mesh = road(name), map_axes(name, quantity).collections[0]
    nodes, words = nodes_of(place, quantity, place.record), record_words(place.record, place.links).tolist()
    found = np.ma.filled(mesh.get_array().reshape(len(nodes), -1), np.nan)
    assert found.shape[1] == place.project.clock.steps + (quantity in ("vehicles", "queue"))
    for state in range(0, found.shape[1], 1 if len(words) < 10 else 61):
        wanted = np.array([figure(place, place.record, quantity, node, tuple(words[state][node])) for node in nodes])
        # No colour stands for more than all: above a limit of 0 it is that of the end.
        wanted[np.isinf(wanted)] = mesh.get_clim()[1]
        np.testing.assert_allclose(found[:, state], wanted, rtol=1e-12, atol=0)


@pytest.mark.parametrize("quantity", QUANTITIES)
@pytest.mark.parametrize("name", ROADS)
def test_each_figure_is_at_its_time_and_its_kilometres(name: str, quantity: str) -> None:
    place, mesh = road(name), map_axes(name, quantity).collections[0]
    states = place.project.clock.steps + (quantity in ("vehicles", "queue"))
    corners = np.asarray(mesh.get_coordinates())
    rows = row_ends(place, quantity)
    assert corners.shape == (len(rows), states + 1, 2)
    np.testing.assert_allclose(corners[0, :, 0], [time_of(place, state) for state in range(states + 1)], rtol=1e-12)
    np.testing.assert_allclose(corners[:, 0, 1], rows, rtol=1e-12, atol=1e-12)
    assert (corners[:, :, 0] == corners[0, :, 0]).all() and (corners[:, :, 1].T == corners[:, 0, 1]).all()


@pytest.mark.parametrize("quantity", QUANTITIES)
@pytest.mark.parametrize("name", ["starter", "missing length", "b"])
def test_a_map_of_b_less_a_is_drawn_from_as_far_below_nothing_as_above(name: str, quantity: str) -> None:
    place = road(name)
    mesh = drawn(quantity, place.record, less=place.other).collections[0]
    a, b = (record_words(each, place.links) for each in (place.other, place.record))
    nodes = nodes_of(place, quantity, place.record, place.other)
    found = np.ma.filled(mesh.get_array().reshape(len(nodes), -1), np.nan)
    states = list(range(0, found.shape[1], 1 if len(a) < 10 else 97))
    for row, node in enumerate(nodes):
        figures = [
            [figure(place, place.record, quantity, node, tuple(each[state, node].tolist())) for state in states]
            for each in (a, b)
        ]
        wanted = np.array(figures[1]) - figures[0]
        wanted = (b - a)[states, node, 1] / 64 if quantity == "queue" else wanted
        np.testing.assert_allclose(found[row, states], wanted, rtol=1e-9, atol=1e-9)
    low, high = mesh.get_clim()
    assert low == -high and high >= np.nanmax(np.abs(found), initial=0)


def test_the_colours_of_a_plan_begin_at_nothing() -> None:
    for quantity in QUANTITIES:
        low, high = map_axes("starter", quantity).collections[0].get_clim()
        assert low == 0 and high > 0
    assert map_axes("starter", "queue").collections[0].get_clim() == (0, 100)
    assert map_axes("mph", "speed").collections[0].get_clim()[1] == pytest.approx(56, rel=1e-3)


@pytest.mark.parametrize("quantity", QUANTITIES)
@pytest.mark.parametrize("name", ROADS)
def test_the_scale_of_colours_says_what_its_colours_stand_for(name: str, quantity: str) -> None:
    """To within a hundredth, and at both of its ends."""
    axes = map_axes(name, quantity)
    (scale,) = axes.child_axes
    labels = [label.get_text().replace(",", "").replace("−", "-") for label in scale.get_xticklabels()]
    ends = axes.collections[0].get_clim()
    assert [float(text) for text in labels] == pytest.approx(list(scale.get_xticks()), rel=0.01)
    assert scale.get_xlim() == ends == (scale.get_xticks()[0], scale.get_xticks()[-1])


WINDOWS = [
    (None, None, None),
    ("07:00", "08:00", "Ashby..Barrett"),
    ("07:10:10", "07:10:40", None),
    (None, None, "1600"),
]


@pytest.mark.parametrize("quantity", QUANTITIES)
@pytest.mark.parametrize("texts", WINDOWS)
def test_the_axes_end_where_the_window_does_and_times_stand_at_their_time(
    texts: tuple[str | None, ...], quantity: str
) -> None:
    place = road("starter")
    window = Window.of(place.record, *texts)
    axes = drawn(quantity, place.record, plan=place.plan, window=window)
    assert axes.get_xlim() == (time_of(place, window.first), time_of(place, window.last + 1))
    ends = ends_of(place)
    ramps = [node for node in ramps_of(place, place.record) if window.first_link - 1 <= node <= window.last_link]
    wanted = (0, len(ramps)) if quantity == "queue" else (ends[window.first_link - 1], ends[window.last_link])
    assert axes.get_ylim() == pytest.approx(wanted)
    labels, (low, high) = [each.get_text() for each in axes.get_xticklabels()], axes.get_xlim()
    assert len(labels) >= 3 and [seconds(text) for text in labels] == list(axes.get_xticks())
    assert all(low <= seconds(text) <= high for text in labels)


@pytest.mark.parametrize("name", ROADS)
def test_a_map_says_what_it_shows_and_its_unit_and_marks_what_is_not_proved(name: str) -> None:
    place = road(name)
    known, unit = None not in place.lengths[1:], place.speeds
    wanted = {
        "vehicles": "Vehicles, veh/km" if known else "Vehicles, veh",
        "speed": f"Speed, {unit} *" if known else "Speed, % of full speed *",
        "flow": "Flow, veh/h",
        "queue": "Queues, % of their limits *",
    }
    for quantity, title in wanted.items():
        axes = map_axes(name, quantity)
        assert title in [text.get_text() for text in axes.texts]
        assert axes.get_ylabel().startswith("limit, veh" if quantity == "queue" else "km" if known else "links")
    less = drawn("queue", place.record, less=place.other)
    assert "Queues, B less A, veh *" in [text.get_text() for text in less.texts]


def test_the_limit_of_each_queue_stands_beside_it() -> None:
    place, axes = road("starter"), map_axes("starter", "queue")
    labels = {at: label.get_text() for at, label in zip(axes.get_yticks(), axes.get_yticklabels())}
    limits = [place.corridor_word(node, QUEUE_LIMIT) for node in ramps_of(place, place.record)]
    wanted = {at + 0.5: "none" if limit == UNLIMITED else f"{limit / 64:g}" for at, limit in enumerate(limits)}
    assert labels == wanted and labels[0.5] == "none"


def test_a_ramp_without_a_limit_tells_its_longest_queue() -> None:
    place = road("starter")
    longest = record_words(place.record, place.links)[:, 0, WORD["queue"]].max() / 64
    told = [text for text in map_axes("starter", "queue").texts if "no limit" in text.get_text()]
    assert [text.get_text() for text in told] == [f"no limit; longest {longest:.1f} veh *"]
    assert told[0].get_position()[1] == 0.5


# Marks


def boxes(axes: Axes, colour: Any) -> list[list[tuple[float, ...]]]:
    """The left, right, lower and upper ends of the rectangles of each collection filled with a colour, or with none."""
    found = []
    for collection in axes.collections[1:]:
        assert isinstance(collection, PolyCollection)
        filled = len(collection.get_facecolor()) > 0
        if filled is (colour is not None) and (not filled or tuple(collection.get_facecolor()[0]) == to_rgba(colour)):
            corners = [path.vertices for path in collection.get_paths()]
            assert all(len({tuple(corner) for corner in each}) == 4 for each in corners)
            found.append(
                sorted(
                    (*sorted({x for x, _ in each}), *sorted({y for _, y in each}))
                    for each in (c.tolist() for c in corners)
                )
            )
    return found


@functools.cache
def over_colour() -> tuple[float, ...]:
    """The colour of what is over-full: that which is hatched among the starter's queues."""
    (hatched,) = [each for each in map_axes("starter", "queue").collections[1:] if each.get_hatch()]
    return tuple(hatched.get_facecolor()[0])


def runs(flags: list[bool]) -> list[tuple[int, int]]:
    """From where until where flags are set without a break."""
    starts = [at for at, flag in enumerate(flags) if flag and (at == 0 or not flags[at - 1])]
    return [(start, next((at for at in range(start, len(flags)) if not flags[at]), len(flags))) for start in starts]


def setting(plan: Plan, links: int, step: int, node: int, place: int) -> int:
    """A rate (0) or a limit (1), found by where the list of a plan has it."""
    return int(plan.words[2 * (step * (links + 1) + node) + place])


def held_boxes(place: Road, plan: Plan, window: Window) -> list[tuple[float, ...]]:
    """The times and kilometres at which a link has a limit below its full speed."""
    found, ends = [], ends_of(place)
    steps = range(window.first, min(window.last + 1, place.project.clock.steps))
    for link in range(window.first_link, window.last_link + 1):
        full = place.corridor_word(link, FULL_SPEED)
        flags = [setting(plan, place.links, step, link, 1) < full for step in steps]
        for start, end in runs(flags):
            times = [time_of(place, window.first + at) for at in (start, end)]
            found.append((*times, ends[link - 1], ends[link]))
    return sorted(found)


def any_plan(place: Road, seed: int) -> Plan:
    """A plan that meters and posts limits here and there."""
    chance = np.random.default_rng(seed)
    words = place.plan.words.copy().reshape(-1, place.links + 1, 2)
    for node in range(place.links + 1):
        full = place.corridor_word(node, RAMP_CAPACITY), place.corridor_word(node, FULL_SPEED)
        for which, most in enumerate(full):
            words[:, node, which] = chance.choice([most, most, max(most - 1, 0), 0], len(words))
    return Plan("any", words.reshape(-1), place.project.corridor, place.project.clock, PlanSource())


def marked_plans() -> list[tuple[Road, Plan, Window]]:
    """Plans that hold and meter, on the whole road and in windows of it."""
    starter, mph, missing = road("starter"), road("mph"), road("missing length")
    found = [(place, place.plan, Window.whole(place.record)) for place in (starter, mph, missing)]
    found += [(starter, starter.plan, Window.of(starter.record, *texts)) for texts in WINDOWS[1:]]
    found += [(starter, starter.plan, Window.of(starter.record, "07:30", "08:30", "Carlson..El Portal"))]
    found += [(mph, any_plan(mph, seed), Window.whole(mph.record)) for seed in range(3)]
    found += [(mph, any_plan(mph, 4), Window.of(mph.record, "07:00:10", "07:00:50", "30"))]
    return found


@pytest.mark.parametrize("quantity", LINKS)
def test_a_held_link_is_outlined_at_its_times_and_kilometres(quantity: str) -> None:
    outlined = 0
    for place, plan, window in marked_plans():
        axes = drawn(quantity, place.record, plan=plan, window=window)
        wanted = held_boxes(place, plan, window)
        found = boxes(axes, None)
        # Once in white and once in black, so that it is seen on dark and on light.
        assert len(axes.collections) - 1 == len(found) == (2 if wanted else 0)
        for each in found:
            np.testing.assert_allclose(each, wanted, rtol=1e-12)
        outlined += len(wanted)
    assert outlined > 10


@pytest.mark.parametrize("quantity", LINKS)
def test_links_that_are_held_too_often_to_be_outlined_are_underlined(quantity: str) -> None:
    """At their times, along their beginning, and so that the most of the map is still seen."""
    place = road("starter")
    plan, window = any_plan(place, 5), Window.of(place.record, "07:00", "08:00", "Gilman..Hilltop")
    wanted = np.array(held_boxes(place, plan, window))
    (found,) = map(np.array, boxes(drawn(quantity, place.record, plan=plan, window=window), "black"))
    assert len(wanted) > 200
    np.testing.assert_allclose(found[:, :3], wanted[:, :3], rtol=1e-12)
    assert (found[:, 3] > found[:, 2]).all() and (found[:, 3] - found[:, 2] <= (wanted[:, 3] - wanted[:, 2]) / 2).all()


def test_the_held_link_of_the_starter_is_the_one_of_the_table() -> None:
    """Its row says 1350,07:15,08:00,,95, and the link to 1350 is 550 m long and ends after 5.9 km."""
    axes = map_axes("starter", "speed")
    assert boxes(axes, None)[0] == [pytest.approx((26_100, 28_800, 5.35, 5.9))]
    assert [text.get_text() for text in axes.texts if "km/h" in text.get_text()][0] == "95 km/h"
    black = axes.collections[2]
    assert black.get_hatch() and tuple(black.get_edgecolor()[0]) == to_rgba("black")


def test_the_limit_that_is_posted_stands_in_the_outline_where_there_is_room() -> None:
    for name, text, times in (
        ("mph", "45 mph", (25_230, 25_260)),
        ("missing length", "20,000 units", (25_230, 25_260)),
    ):
        told = [each for each in map_axes(name, "flow").texts if each.get_text() == text]
        ends = ends_of(road(name))
        assert [each.get_position() for each in told] == [pytest.approx((sum(times) / 2, (ends[1] + ends[2]) / 2))]
    narrow = Window.of(road("starter").record, None, "07:15:20")
    texts = drawn("speed", road("starter").record, plan=road("starter").plan, window=narrow).texts
    assert not [text for text in texts if text.get_text() == "95 km/h"]


def metered_boxes(place: Road, plan: Plan, window: Window) -> list[tuple[float, ...]]:
    """The times at which a ramp of each row is metered below its capacity."""
    found = []
    shown = [node for node in ramps_of(place, place.record) if window.first_link - 1 <= node <= window.last_link]
    steps = range(window.first, min(window.last + 1, place.project.clock.steps))
    for row, node in enumerate(shown):
        most = place.corridor_word(node, RAMP_CAPACITY)
        flags = [setting(plan, place.links, step, node, 0) < most for step in steps]
        found += [(*(time_of(place, window.first + at) for at in ends), float(row)) for ends in runs(flags)]
    return sorted(found)


def test_a_metered_ramp_is_underlined_at_its_times_in_its_row() -> None:
    underlined = 0
    for place, plan, window in marked_plans():
        found = boxes(drawn("queue", place.record, plan=plan, window=window), "black")
        wanted = metered_boxes(place, plan, window)
        assert [each[:3] for each in found[0]] == wanted if wanted else not found
        # A line, which leaves the most of the row to the queue.
        assert all(0.01 < high - low <= 0.5 for *_, low, high in (found[0] if wanted else []))
        underlined += len(wanted)
    assert underlined > 20


def over_boxes(place: Road, record: Record, window: Window) -> list[tuple[float, ...]]:
    """The times at which the queue of each row is above its limit."""
    queues, found = record_words(record, place.links)[:, :, WORD["queue"]], []
    shown = [node for node in ramps_of(place, record) if window.first_link - 1 <= node <= window.last_link]
    for row, node in enumerate(shown):
        limit = place.corridor_word(node, QUEUE_LIMIT)
        flags = [int(queues[state, node]) > limit for state in range(window.first, window.last + 1)]
        found += [(*(time_of(place, window.first + at) for at in ends), row, row + 1.0) for ends in runs(flags)]
    return sorted(found)


def about_its_limit(place: Road, seed: int) -> Record:
    """A record in which the queue of the second node is just below, at or just above its limit, or nothing."""
    words = place.record.words.copy()
    limit = place.corridor_word(1, QUEUE_LIMIT)
    near = [limit - 1, limit, limit + 1, 0] if limit else [0, 1]
    words[4 + 1 : -2 : 4 * (place.links + 1)] = np.random.default_rng(seed).choice(near, place.project.clock.steps + 1)
    return Record(words, place.project.corridor, place.project.clock)


def test_over_full_cells_are_filled_and_no_others() -> None:
    starter, mph, no_room = road("starter"), road("mph"), road("no room")
    whole = Window.whole(starter.record)
    cases = [(starter, starter.record, whole), (starter, starter.other, whole)]
    cases += [(starter, starter.record, Window.of(starter.record, *texts)) for texts in WINDOWS[1:]]
    cases += [
        (place, about_its_limit(place, seed), Window.whole(mph.record)) for place in (mph, no_room) for seed in (1, 2)
    ]
    cases += [(mph, about_its_limit(mph, 3), Window.of(mph.record, "07:00:10", "07:00:40"))]
    cases += [(no_room, no_room.record, Window.whole(no_room.record))]
    filled = 0
    for place, record, window in cases:
        axes = drawn("queue", record, window=window)
        found, wanted = boxes(axes, over_colour()), over_boxes(place, record, window)
        assert found == ([wanted] if wanted else [])
        assert len(axes.collections) - 1 == len(found)
        # Also without colours it is not like any figure of the scale.
        assert all(each.get_hatch() for each in axes.collections[1:])
        filled += len(wanted)
    assert filled > 5


@pytest.mark.parametrize("quantity", QUANTITIES)
def test_maps_of_b_less_a_have_no_marks(quantity: str) -> None:
    place = road("starter")
    axes = drawn(quantity, place.record, plan=place.plan, less=place.other)
    assert len(axes.collections) == 1
    assert not [text for text in axes.texts if "km/h" in text.get_text() and text.get_text()[0].isdigit()]


def with_a_unit_more(place: Road, *where: tuple[int, int, int]) -> Record:
    """The record with one unit more in these words, each told by its state, node and place."""
    words = place.record.words.copy()
    for state, node, which in where:
        words[4 * (state * (place.links + 1) + node) + which] += 1
    return Record(words, place.project.corridor, place.project.clock)


def rings(axes: Axes) -> list[tuple[float, float]]:
    """Where places are ringed."""
    return sorted(tuple(at) for line in axes.lines if line.get_marker() == "o" for at in line.get_xydata().tolist())


def test_the_few_places_that_differ_are_ringed_and_no_others() -> None:
    """In the middle of their time and of their link, or of the row of their ramp."""
    place = road("mph")
    more, ends = with_a_unit_more(place, (2, 3, 0), (5, 1, 0), (4, 1, 1)), ends_of(place)
    middles = {state: time_of(place, state) + 5 for state in (2, 4, 5)}
    links = [(middles[2], (ends[2] + ends[3]) / 2), (middles[5], (ends[0] + ends[1]) / 2)]
    found = {quantity: drawn(quantity, more, less=place.record) for quantity in ("vehicles", "flow", "queue")}
    np.testing.assert_allclose(rings(found["vehicles"]), links)
    assert rings(found["queue"]) == [(middles[4], 1.5)] and rings(found["flow"]) == []
    cut = drawn("vehicles", more, less=place.record, window=Window.of(place.record, "07:00:30", links="20"))
    np.testing.assert_allclose(rings(cut), links[1:])
    assert rings(drawn("vehicles", place.record, less=place.other)) != [] == rings(drawn("vehicles", place.record))
    assert rings(drawn("flow", road("starter").record, less=road("starter").other)) == []


def test_it_is_said_where_nothing_differs() -> None:
    place = road("mph")
    more = with_a_unit_more(place, (2, 3, 0))
    for quantity, record, said in (("flow", more, True), ("vehicles", more, False), ("vehicles", place.record, True)):
        texts = [text.get_text() for text in drawn(quantity, record, less=place.record).texts]
        assert ("no difference here" in texts) is said


def test_without_a_plan_nothing_is_said_of_it() -> None:
    assert len(drawn("speed", road("starter").record).collections) == 1
    assert boxes(drawn("queue", road("starter").record), "black") == []


# Names and other texts


def names_of(axes: Axes) -> list[Text]:
    """The names at the right of a map, each of which has a line to its place."""
    return [text for text in axes.texts if getattr(text, "arrow_patch", None) is not None]


class Drawn(NamedTuple):
    """A text where it was drawn, in points of the picture."""

    text: str
    left: float
    bottom: float
    right: float
    top: float


def texts_of(figure_of: Figure) -> list[Drawn]:
    """All texts that come onto a picture; maps and marks are left out, which takes most of the time."""
    found, draw = [], Text.draw
    for axes in figure_of.axes:
        for collection in axes.collections:
            collection.set_visible(False)

    @functools.wraps(draw)
    def watched(self: Text, renderer: Any) -> None:
        draw(self, renderer)
        if self.get_visible() and self.get_text().strip():
            found.append(Drawn(self.get_text(), *Text.get_window_extent(self, renderer).extents))

    with style(), mock.patch.object(Text, "draw", watched):
        FigureCanvasAgg(figure_of).draw()
    return found


def overlapping(texts: list[Drawn]) -> list[tuple[str, str]]:
    """Each two texts of which one covers more than a point of the other, to the right and upwards."""
    found = []
    for at, one in enumerate(texts):
        for other in texts[at + 1 :]:
            wide = min(one.right, other.right) - max(one.left, other.left)
            high = min(one.top, other.top) - max(one.bottom, other.bottom)
            if wide > 1 and high > 1:
                found.append((one.text, other.text))
    return found


def outside(texts: list[Drawn], figure_of: Figure) -> list[str]:
    """The texts that run out of a picture."""
    width, height = figure_of.get_size_inches() * figure_of.dpi
    return [each.text for each in texts if min(each.left, each.bottom) < 0 or each.right > width or each.top > height]


LONG = "Interchange of the northern and the western bypass"
CROWDED: Files = changed(
    VALLEY,
    ("corridor.csv", "20,Mill Road,500,4500,90,18,200,900,25,20,2,,", "20,Mill Road,5000,4500,90,18,200,900,25,20,2,,"),
    ("corridor.csv", "30,Bridge,600,4500,90,18,200,,,15,,3600,60", "30,Bridge,260,4500,90,18,200,300,20,15,,3600,60"),
    (
        "corridor.csv",
        "40,Harbour,500,4500,90,18,200,,,11,,,",
        "40,Harbour,260,4500,90,18,200,300,20,11,,,\n50,Quay,260,4500,90,18,200,300,20,9,,,\n60,Sea,260,4500,90,18,200,,,8,,,",
    ),
    ("downstream.csv", "40_vph", "60_vph"),
)
"""The valley road with short links at its end, all of them with ramps."""

NAMED: Files = changed(
    VALLEY, ("corridor.csv", "Mill Road", LONG), ("corridor.csv", "Harbour", "W" * 60), ("plan-metered.csv", "450", "0")
)
"""The valley road with long names."""

WIDE_TITLE: Files = changed(
    NO_ROOM, ("project.toml", "Valley road", "NORTHBOUND MORNING PEAK, VALLEY ROAD TO HARBOUR BRIDGE AND")
)
"""The road of a plan that is not valid, which is said beside its title."""


PICTURED: dict[str, tuple[tuple[str, ...], tuple[str, ...]]] = {
    "starter": (("tight",), QUANTITIES),
    "two plans": (("open", "peak"), ("flow", "queue")),
    "over-full": (("tight", "peak"), ("queue",)),
    "full size": (("a",), ("queue",)),
    "short links": (("metered",), QUANTITIES),
    "long names": (("open", "metered"), ("vehicles", "queue")),
    "one step": (("full",), QUANTITIES),
    "no room": (("metered",), ("queue",)),
    "wide title": (("metered",), ("queue",)),
}
"""Pictures that are looked at: the plans on each, and the maps."""


@contextlib.contextmanager
def starter() -> Iterator[Project]:
    """The starter project, while its files are there."""
    with folder_of({}) as folder:
        assert run(folder, "new", "demo")[0] == 0
        yield Project.load(folder / "demo")


@functools.cache
def pictured(what: str) -> tuple[Figure, list[Drawn]]:
    """A picture of one plan or two, and its texts."""
    plans, quantities = PICTURED[what]
    if what == "full size":
        return with_texts(road("full size").project, [road("full size").plan], quantities)
    files = {"short links": CROWDED, "long names": NAMED, "one step": B, "no room": NO_ROOM, "wide title": WIDE_TITLE}
    if what not in files:
        with starter() as project:
            return with_texts(project, [project.plan(name) for name in plans], quantities)
    with folder_of(files[what]) as folder:
        project = Project.load(folder)
        return with_texts(project, [project.plan(name) for name in plans], quantities)


def with_texts(
    project: Project, plans: Sequence[Plan], quantities: Sequence[str] = QUANTITIES
) -> tuple[Figure, list[Drawn]]:
    """A picture of plans of a project, and its texts."""
    figure_of = picture(subject(*(side(project, plan) for plan in plans)), quantities)
    return figure_of, texts_of(figure_of)


@pytest.mark.parametrize("what", PICTURED)
def test_no_text_overlaps_another(what: str) -> None:
    assert overlapping(pictured(what)[1]) == []


@pytest.mark.parametrize("what", PICTURED)
def test_no_text_runs_out_of_the_picture(what: str) -> None:
    figure_of, texts = pictured(what)
    assert len(texts) > 15 and outside(texts, figure_of) == []


def test_two_plans_that_are_not_comparable_can_be_read() -> None:
    with folder_of({}) as folder:
        assert run(folder, "new", "demo")[0] == 0
        shutil.copytree(folder / "demo", folder / "other")
        corridor = (folder / "other" / "corridor.csv").read_text()
        (folder / "other" / "corridor.csv").write_text(corridor.replace("Powell,700,8600", "Powell,700,8500"))
        projects = [Project.load(folder / name) for name in ("demo", "other")]
        figure_of = picture(subject(*(side(each, each.plan("peak")) for each in projects)), ["flow"])
    texts = texts_of(figure_of)
    assert "NOT COMPARABLE" in [each.text for each in texts]
    assert (overlapping(texts), outside(texts, figure_of)) == ([], [])


@pytest.mark.parametrize("quantity", QUANTITIES)
def test_names_on_axes_of_a_notebook_do_not_overlap_and_are_not_cut_off(quantity: str) -> None:
    for name in ("starter", "full size", "mph"):
        axes = DRAW[quantity](road(name).record, plan=road(name).plan)
        shown = {text.get_text() for text in names_of(axes)}
        texts = [each for each in texts_of(axes.figure) if each.text in shown]
        pyplot.close(axes.figure)
        assert len(texts) > 1 and (overlapping(texts), outside(texts, axes.figure)) == ([], [])


def test_every_name_is_shown_where_there_is_room() -> None:
    place = road("starter")
    names = [node.name for node in place.project.corridor.nodes]
    for axes in pictured("starter")[0].axes[:3]:
        assert [text.get_text().removeprefix("▲ ") for text in names_of(axes)] == names
    queues = [names[node] for node in ramps_of(place, place.record)]
    assert [text.get_text().removeprefix("▲ ") for text in names_of(pictured("starter")[0].axes[3])] == queues


def test_each_name_has_a_line_to_its_place() -> None:
    place, ends = road("starter"), ends_of(road("starter"))
    assert [text.xy for text in names_of(map_axes("starter", "flow"))] == [(1, pytest.approx(end)) for end in ends]
    rows = [at + 0.5 for at in range(len(ramps_of(place, place.record)))]
    assert [text.xy for text in names_of(map_axes("starter", "queue"))] == [(1, row) for row in rows]


@pytest.mark.parametrize("quantity", QUANTITIES)
def test_the_name_of_an_over_full_ramp_alone_is_bold_and_has_a_triangle(quantity: str) -> None:
    place = road("starter")
    names = names_of(map_axes("starter", quantity))
    assert [name.get_text() for name in names if "▲" in name.get_text()] == ["▲ Barrett"]
    assert [name.get_text() for name in names if name.get_weight() == "bold"] == ["▲ Barrett"]
    # In a window in which its queue is within its limit, and in another plan, it is a name as any other.
    before = drawn(quantity, place.record, window=Window.of(place.record, None, "07:53"))
    first = drawn(
        quantity, place.record, window=Window.of(place.record, None, "07:53:10" if quantity == "queue" else "07:53:20")
    )
    for axes, over in ((before, []), (first, ["▲ Barrett"]), (drawn(quantity, place.other), [])):
        assert [name.get_text() for name in names_of(axes) if name.get_weight() == "bold"] == over


@pytest.mark.parametrize("plans", [("peak", "tight"), ("tight", "peak")])
def test_a_ramp_that_is_over_full_in_either_of_two_plans_has_its_triangle(plans: tuple[str, str]) -> None:
    with starter() as project:
        shown = picture(subject(*(side(project, project.plan(name)) for name in plans)), ["queue"])
    found = [name.get_text() for axes in shown.axes for name in names_of(axes)]
    assert "▲ Barrett" in found and len([text for text in found if "▲" in text]) == 1


# Colours


PROTANOPIA = [[0.152286, 1.052583, -0.204868], [0.114503, 0.786281, 0.099216], [-0.003882, -0.048116, 1.051998]]
DEUTERANOPIA = [[0.367322, 0.860646, -0.227968], [0.280085, 0.672501, 0.047413], [-0.011820, 0.042940, 0.968881]]
EYES = {"usual": np.eye(3), "protanopia": np.array(PROTANOPIA), "deuteranopia": np.array(DEUTERANOPIA)}
"""What people who lack a kind of cone see, in linear red, green and blue: Machado, Oliveira and Fernandes, 2009, of full severity."""

TO_XYZ = np.array(
    [[0.4124564, 0.3575761, 0.1804375], [0.2126729, 0.7151522, 0.0721750], [0.0193339, 0.1191920, 0.9503041]]
)
WHITE = TO_XYZ.sum(axis=1)


def seen(colours: np.ndarray, eyes: str) -> np.ndarray:
    """Lightness L*, a* and b* of colours as these eyes see them."""
    linear = np.where(colours <= 0.04045, colours / 12.92, ((colours + 0.055) / 1.055) ** 2.4)
    shares = np.clip(linear @ EYES[eyes].T, 0, 1) @ TO_XYZ.T / WHITE
    roots = np.where(shares > (6 / 29) ** 3, np.cbrt(shares), shares / (3 * (6 / 29) ** 2) + 4 / 29)
    x, y, z = roots.T
    return np.stack([116 * y - 16, 500 * (x - y), 200 * (y - z)], axis=1)


def scale_colours(axes: Axes, count: int = 65) -> np.ndarray:
    """Colours of a map, from the least figure to the greatest."""
    return np.array(axes.collections[0].get_cmap()(np.linspace(0, 1, count)))[:, :3]


@pytest.mark.parametrize("eyes", EYES)
@pytest.mark.parametrize("quantity", QUANTITIES)
def test_more_is_lighter_or_darker_all_along_the_scale(quantity: str, eyes: str) -> None:
    """Dark where there are many vehicles, or slow ones, or full ramps."""
    lightness = seen(scale_colours(map_axes("starter", quantity)), eyes)[:, 0]
    steps = np.diff(lightness) * (1 if quantity == "speed" else -1)
    assert (steps > 0).all() and abs(lightness[-1] - lightness[0]) > 60


@pytest.mark.parametrize("eyes", EYES)
def test_what_is_more_and_what_is_less_are_told_apart_without_red_and_green(eyes: str) -> None:
    place = road("starter")
    colours = scale_colours(drawn("flow", place.record, less=place.other))
    found = seen(colours, eyes)
    middle = len(found) // 2
    assert (np.diff(found[:middle, 0]) > 0).all() and (np.diff(found[middle + 1 :, 0]) < 0).all()
    assert found[middle, 0] > 90
    # From a third of the way on, the two sides differ by far more than one sees (2.3), though they are of one lightness.
    apart = [np.linalg.norm(found[at] - found[-1 - at]) for at in range(2 * middle // 3)]
    assert min(apart) > 30


@pytest.mark.parametrize("eyes", EYES)
def test_over_full_is_like_no_colour_of_the_queues(eyes: str) -> None:
    """By at least 25 in L*a*b*, where 2.3 is just seen; and it is hatched too."""
    over = seen(np.array([over_colour()[:3]]), eyes)
    scale = seen(scale_colours(map_axes("starter", "queue")), eyes)
    nothing = seen(np.array([to_rgb(map_axes("starter", "queue").collections[0].get_cmap().get_bad())]), eyes)
    assert np.linalg.norm(scale - over, axis=1).min() > 25
    assert np.linalg.norm(nothing - over) > 25


def test_what_has_no_figure_is_grey_which_no_figure_is() -> None:
    place = road("starter")
    mesh = map_axes("starter", "queue").collections[0]
    assert np.isnan(np.ma.filled(mesh.get_array(), np.nan)).any()
    for axes in (
        map_axes("starter", "queue"),
        drawn("speed", place.record),
        drawn("speed", place.record, less=place.other),
    ):
        red, green, blue, cover = axes.collections[0].get_cmap().get_bad()
        assert 0.7 < red == green == blue < 0.9 and cover == 1
    queues, grey = seen(scale_colours(map_axes("starter", "queue")), "usual"), seen(np.array([[red] * 3]), "usual")
    assert np.linalg.norm(queues - grey, axis=1).min() > 10


# Python


@pytest.fixture
def figures_closed() -> Iterator[None]:
    """Leaves no figure of pyplot behind."""
    yield
    pyplot.close("all")


@pytest.mark.parametrize("quantity", QUANTITIES)
def test_a_function_draws_on_axes_of_its_own_or_on_those_that_it_is_given(quantity: str, figures_closed: None) -> None:
    record = road("b").record
    own, given = DRAW[quantity](record), pyplot.subplots()[1]
    assert isinstance(own, Axes) and own.figure is not given.figure
    assert DRAW[quantity](record, ax=given) is given
    for axes in (own, given):
        array = np.ma.filled(axes.collections[0].get_array(), np.nan).reshape(2, -1)
        np.testing.assert_array_equal(
            array, np.ma.filled(map_axes("b", quantity).collections[0].get_array(), np.nan).reshape(2, -1)
        )
    own.set_title("a notebook goes on from here")
    assert DRAW[quantity](record).figure is not own.figure


@pytest.mark.parametrize("file", ["record.csv", "exits.csv", "record.blocks"])
def test_a_record_of_a_file_is_drawn_as_that_of_the_simulator(file: str) -> None:
    with folder_of(B) as folder:
        project = Project.load(folder)
        project.simulate("full").save(folder / "record.blocks")
        record = project.record(folder / file)
    for quantity in QUANTITIES:
        found, wanted = (axes.collections[0].get_array() for axes in (drawn(quantity, record), map_axes("b", quantity)))
        np.testing.assert_array_equal(np.ma.filled(found, np.nan), np.ma.filled(wanted, np.nan))


def test_what_somebody_has_set_for_their_figures_is_as_before(figures_closed: None) -> None:
    with matplotlib.rc_context({"font.size": 17, "axes.facecolor": "red", "savefig.bbox": "tight"}):
        before = dict(matplotlib.rcParams)
        for quantity in QUANTITIES:
            DRAW[quantity](road("b").record, plan=road("b").plan)
        with_texts(road("b").project, [road("b").plan], ["queue"])
        assert dict(matplotlib.rcParams) == before and matplotlib.rcParams["font.size"] == 17


def test_a_name_is_shown_as_it_is_written_on_axes_too(figures_closed: None) -> None:
    """And not set as a formula, or refused as a wrong one."""
    with folder_of(changed(VALLEY, ("corridor.csv", "Mill Road", r"$\nothing{$"))) as folder:
        record = Project.load(folder).simulate("open")
    axes = plots.vehicles(record)
    FigureCanvasAgg(axes.figure).draw()
    assert [name.get_text() for name in names_of(axes)][1] == r"$\nothing{$"
    assert not any(name.get_parse_math() for name in names_of(axes))


# The command


class Ended(NamedTuple):
    """How a command ended, and what it said."""

    status: int
    out: str
    error: str

    @property
    def told(self) -> dict[str, Any]:
        """The object of --json."""
        found: dict[str, Any] = json.loads(self.out)
        assert found["status"] == self.status and self.error == ""
        return found


def command(folder: Path, *arguments: str) -> Ended:
    """The whole command, with its exit statuses, in a folder and within this process."""
    out, error, before = io.StringIO(), io.StringIO(), signal.getsignal(signal.SIGPIPE)
    with contextlib.chdir(folder), contextlib.redirect_stdout(out), contextlib.redirect_stderr(error):
        with mock.patch.object(sys, "argv", ["gigorchid", *arguments]), pytest.raises(SystemExit) as ended:
            main()
    signal.signal(signal.SIGPIPE, before)
    return Ended(int(ended.value.code or 0), out.getvalue(), error.getvalue())


def written(folder: Path, *arguments: str) -> bytes:
    """What `plot` writes, with the output as the last of its arguments."""
    ended = command(folder, "plot", *arguments[:-1], "-o", arguments[-1])
    assert ended.error == "" and ended.out.endswith(f"written to {arguments[-1]}\n")
    return (folder / arguments[-1]).read_bytes()


@pytest.fixture(scope="module")
def valley(tmp_path_factory: pytest.TempPathFactory) -> Path:
    """A folder with the valley road, another one that is not comparable, and one whose plans are not valid."""
    folder = tmp_path_factory.mktemp("plots")
    other = changed(VALLEY, ("corridor.csv", "30,Bridge,600,4500", "30,Bridge,600,4400"))
    refused = changed(VALLEY, ("plan-metered.csv", "20,07:00,07:00:20,450", "20,07:00,07:00:20,1800"))
    for name, files in {"valley": VALLEY, "other": other, "over": NO_ROOM, "refused": refused}.items():
        (folder / name).mkdir()
        for file, text in files.items():
            (folder / name / file).write_text(str(text))
    return folder


SVG = "{http://www.w3.org/2000/svg}svg"


def svg_size(content: bytes) -> tuple[float, ...]:
    """The width and height of a picture, in points."""
    root = ElementTree.fromstring(content)
    assert root.tag == SVG and len(list(root.iter())) > 100
    return tuple(float(root.attrib[name].removesuffix("pt")) for name in ("width", "height"))


def png_size(content: bytes) -> tuple[int, ...]:
    """The width and height of a picture, in dots."""
    assert content[:8] == b"\x89PNG\r\n\x1a\n" and content[12:16] == b"IHDR" and content[-8:-4] == b"IEND"
    found: tuple[int, ...] = struct.unpack(">II", content[16:24])
    return found


@pytest.mark.parametrize("plans", [("metered",), ("open", "metered"), ("open", "other:open")])
def test_a_picture_is_written_as_svg_and_as_png_of_one_size(valley: Path, plans: tuple[str, ...]) -> None:
    """As wide as a page of A4, 8.27 inches, and 150 dots to an inch."""
    points = svg_size(written(valley, "valley", *plans, "--map", "flow", "picture.svg"))
    dots = png_size(written(valley, "valley", *plans, "--map", "flow", "picture.png"))
    assert points[0] == pytest.approx(8.27 * 72, abs=0.1)
    assert dots == pytest.approx([each * 150 / 72 for each in points], abs=1.5)


def test_a_map_is_drawn_alone_or_with_others_in_any_order(valley: Path) -> None:
    one = svg_size(written(valley, "valley", "open", "--map", "speed", "one.svg"))
    orders = [
        written(valley, "valley", "open", *(word for name in names for word in ("--map", name)), "two.svg")
        for names in (("speed", "queue"), ("queue", "speed", "queue"))
    ]
    assert orders[0] == orders[1]
    every = svg_size(written(valley, "valley", "open", "four.svg"))
    assert one[1] < svg_size(orders[0])[1] < every[1]


@pytest.mark.parametrize(
    ("plans", "status"),
    [
        (("valley", "open"), 0),
        (("valley", "open", "open"), 0),
        (("valley", "open", "metered"), 1),
        (("over", "metered"), 2),
        (("valley", "open", "other:open"), 4),
    ],
)
def test_the_status_and_the_verdict_are_those_of_simulate_or_compare(
    valley: Path, plans: tuple[str, ...], status: int
) -> None:
    arguments = ("plot", *plans, "--map", "flow", "-o", "told.svg")
    told = command(valley, *arguments, "--json").told
    if len(plans) == 2:
        judged = command(valley, "simulate", *plans, "--json").told
    else:
        other = plans[2] if ":" in plans[2] else f"{plans[0]}:{plans[2]}"
        judged = command(valley, "compare", f"{plans[0]}:{plans[1]}", other, "--json").told
    assert (told["status"], told["verdict"]) == (judged["status"], judged["verdict"])
    assert told["status"] == status and told["written"] == "told.svg" and told["maps"] == ["flow"]
    # Plans of two projects are told with these.
    names = [f"{plans[0]}:{plans[1]}", plans[2]] if ":" in plans[-1] else plans[1:]
    assert told["plans"] == dict(zip("AB", names))
    assert told["said"].startswith(told["verdict"])
    svg_size((valley / "told.svg").read_bytes())
    said = command(valley, *arguments)
    assert said.status == status and told["said"] in said.out and "written to told.svg" in said.out and not said.error


WRONG: list[tuple[str, str]] = [
    ("valley open -o x.pdf", "x.pdf: a picture ends in .svg or .png"),
    ("valley open -o x", "x: a picture ends in .svg or .png"),
    ("valley open -o -", "-: a picture ends in .svg or .png"),
    ("valley open -o valley/plan-open.csv", "valley/plan-open.csv: a picture ends in .svg or .png"),
    ("valley open", "Missing option '-o'"),
    ("valley -o x.svg", "Missing argument 'PLAN'"),
    ("valley open metered open -o x.svg", "unexpected extra argument"),
    ("valley nowhere -o x.svg", "there is no plan nowhere"),
    ("nowhere open -o x.svg", "there is no nowhere"),
    ("valley open nowhere:open -o x.svg", "there is no nowhere"),
    ("valley open --map speeds -o x.svg", "speeds"),
    ("valley open --from 06:00 -o x.svg", "--from 06:00: expected a time from 07:00:00 to 07:01:00"),
    ("valley open --until 07:00 -o x.svg", "--until 07:00: expected a time after 07:00:00"),
    (
        "valley open --links 40..20 -o x.svg",
        "--links 40..20: 20 comes before 40 on the road: expected them in its order",
    ),
    ("valley open -o no/x.svg", "no/x.svg: cannot be written: No such file or directory"),
    ("valley open -o folder.svg", "folder.svg: cannot be written: Is a directory"),
]


@pytest.mark.parametrize(("line", "told"), WRONG)
def test_a_wrong_command_line_ends_with_64_and_writes_nothing(valley: Path, line: str, told: str) -> None:
    (valley / "folder.svg").mkdir(exist_ok=True)
    before = {file: file.read_bytes() for file in valley.rglob("*") if file.is_file()}
    ended = command(valley, "plot", *line.split())
    assert (ended.status, ended.out) == (64, "") and told in ended.error
    assert {file: file.read_bytes() for file in valley.rglob("*") if file.is_file()} == before


def test_a_plan_that_the_library_refuses_is_not_drawn(valley: Path) -> None:
    told = command(valley, "plot", "refused", "metered", "-o", "refused.svg", "--json").told
    assert (told["status"], told["verdict"], told["refusal"]["refusal"]) == (2, "REFUSED", 6)
    assert not (valley / "refused.svg").exists()


def test_no_file_of_a_project_is_written_over(tmp_path: Path) -> None:
    """Also where it is called as a picture is, is that of the other plan, or is told by another name."""
    for name in ("one", "two"):
        files = changed(VALLEY, ("project.toml", '"corridor.csv"', '"corridor.svg"'))
        (tmp_path / name).mkdir()
        for file, text in files.items():
            (tmp_path / name / file.replace("corridor.csv", "corridor.svg")).write_text(str(text))
    (tmp_path / "link.svg").symlink_to(tmp_path / "two" / "corridor.svg")
    before = {file: file.read_bytes() for file in tmp_path.rglob("*") if file.is_file()}
    for output in ("one/corridor.svg", "two/../two/corridor.svg", "link.svg"):
        ended = command(tmp_path, "plot", "one", "open", "two:open", "--map", "flow", "-o", output)
        assert ended.status == 64 and f"{output} is a file of the project, which would be lost" in ended.error
    assert {file: file.read_bytes() for file in tmp_path.rglob("*") if file.is_file()} == before


def started(folder: Path, *arguments: str, **variables: str) -> subprocess.Popen[bytes]:
    """The command in a process of its own, with no variables but these."""
    kept = {name: os.environ[name] for name in ("PATH", "GIGORCHID_LIBRARY") if name in os.environ}
    known = kept | {"PYTHONPATH": str(golden.ROOT / "python"), "PYTHONDONTWRITEBYTECODE": "1"}
    program = [sys.executable, "-c", "from gigorchid.commands import main; main()", "plot", *arguments]
    pipes = {"stdout": subprocess.PIPE, "stderr": subprocess.PIPE}
    return subprocess.Popen(program, cwd=folder, env=known | variables, **pipes)


@pytest.fixture(scope="module")
def home(tmp_path_factory: pytest.TempPathFactory) -> dict[str, str]:
    """Variables for a home in which matplotlib has never been before the first that uses it."""
    folder = tmp_path_factory.mktemp("home")
    return {"HOME": str(folder), "MPLCONFIGDIR": str(folder / "settings")}


HOSTILE = """\
font.size: 40
font.family: monospace
axes.facecolor: red
savefig.bbox: tight
savefig.dpi: 20
svg.fonttype: none
image.cmap: jet
axes.grid: True
text.usetex: False
lines.linewidth: 9
no.such.key: 1
"""


def test_the_same_plans_give_the_same_bytes_wherever_it_is_run(
    valley: Path, tmp_path: Path, home: dict[str, str]
) -> None:
    """At another hour of the day, in another language, in a home of its own and with other settings of matplotlib; and nothing is said on standard error."""
    for name in ("calm", "rough"):
        shutil.copytree(valley / "valley", tmp_path / name / "valley")
    (tmp_path / "rough" / "matplotlibrc").write_text(HOSTILE)
    rough = {"TZ": "Asia/Tokyo", "LC_ALL": "C", "SOURCE_DATE_EPOCH": "86400", "PYTHONHASHSEED": "7", **home}
    calm = {"TZ": "UTC", "LC_ALL": "C.UTF-8", "HOME": os.environ.get("HOME", "/"), "PYTHONHASHSEED": "1"}
    for ending in ("svg", "png"):
        arguments = ("valley", "open", "metered", "--map", "queue", "--map", "speed", "-o", f"picture.{ending}")
        running = [started(tmp_path / name, *arguments, **env) for name, env in (("calm", calm), ("rough", rough))]
        told = [process.communicate() for process in running]
        assert [process.returncode for process in running] == [1, 1]
        assert [error for _, error in told] == [b"", b""]
        first, second = ((tmp_path / name / f"picture.{ending}").read_bytes() for name in ("calm", "rough"))
        assert first == second == written(valley, *arguments[:-2], f"again.{ending}")


STRANGE = {
    "signs": {
        "Mill Road": "$x$ $\\nothing{$ & <b>",
        "Harbour": "O'Neill ``]]> %s {0}",
        "Valley road": "$\\\\alpha <i> &",
    },
    "letters": {"Mill Road": "Мост", "Bridge": "Ωδός", "Harbour": "Straße"},
    "letters that few fonts have": {"Mill Road": "東京", "Valley road": "谷の道"},
}
"""Names that a language of formulas, of pages or of patterns would take for its own, and letters of other scripts."""


@pytest.mark.parametrize("strange", STRANGE)
def test_any_name_is_drawn_and_nothing_is_said_of_it(tmp_path: Path, home: dict[str, str], strange: str) -> None:
    edits = [
        ("project.toml" if "road" in name else "corridor.csv", name, text) for name, text in STRANGE[strange].items()
    ]
    for file, text in changed(VALLEY, *edits).items():
        (tmp_path / file).write_text(str(text))
    process = started(tmp_path, ".", "metered", "--map", "flow", "-o", "strange.svg", **home)
    _, error = process.communicate()
    assert (process.returncode, error.decode()) == (0, "")
    svg_size((tmp_path / "strange.svg").read_bytes())


def test_what_stands_in_the_environment_for_notebooks_is_no_failure(valley: Path) -> None:
    """A backend that is not there is for windows on a screen, and a picture needs none."""
    process = started(valley, "valley", "open", "--map", "flow", "-o", "screen.svg", MPLBACKEND="none_such")
    _, error = process.communicate()
    assert (process.returncode, error) == (0, b"")


def test_a_picture_of_full_size_is_no_large_file() -> None:
    """Below 3 million bytes, though each of its four maps has up to 92,000 figures and the plan changes in every step."""
    place = road("full size")
    shown = subject(side(place.project, any_plan(place, 9)))
    content = saved(picture(shown, ["flow"]), "svg")
    assert svg_size(content)[0] > 500 and len(content) < 3_000_000


def test_a_window_without_a_ramp_says_so() -> None:
    """Else a map without rows could be taken for one on which no queue stands."""
    place = road("mph")
    without = [link for link in range(1, place.links + 1) if not has_ramp_beside(place, link)]
    window = Window(0, place.project.clock.steps, without[-1], without[-1])
    for less in (None, place.other):
        axes = drawn("queue", place.record, window=window, less=less)
        assert [text.get_text() for text in axes.texts if text.get_text().startswith("no ")] == ["no ramp here"]


def has_ramp_beside(place: Road, link: int) -> bool:
    """Whether a ramp stands at an end of a link."""
    return any(place.corridor_word(node, RAMP_CAPACITY) for node in (link - 1, link))


def test_the_last_state_has_no_flow() -> None:
    """It is left in the grey of what has no figure, and where it can be seen a sign says why."""
    place = road("mph")
    axes = drawn("flow", place.record)
    assert to_rgba(axes.get_facecolor()) == to_rgba(plots.NOTHING)
    assert axes.get_xlim()[1] - axes.collections[0].get_coordinates()[0, -1, 0] == float(place.project.clock.step)
