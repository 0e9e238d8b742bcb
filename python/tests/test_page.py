"""The page that `gigorchid report` writes, in a browser: what it shows is what the record, the plan and the library say.

What is expected comes from the record that `gigorchid simulate` writes, from the tables of the project and from what
the other commands print.
"""

from __future__ import annotations

import base64
import csv
import hashlib
import io
import json
import re
import sys
from collections.abc import Iterator, Sequence
from concurrent.futures import Future, ThreadPoolExecutor
from fractions import Fraction
from functools import cache
from itertools import accumulate
from pathlib import Path
from subprocess import CompletedProcess
from typing import Any, NamedTuple

import numpy as np
import pytest
from browser import options, point as point_at, started
from matplotlib.image import imread
from projects import VALLEY, answer, changed, run
from selenium.webdriver import ActionChains, Keys

import golden
from gigorchid import Project

HOSTILE = (
    "<b>bold</b> & 'one' \"two\" </script><script>window.taken = 1</script><img src=x onerror=alert(1)> $\\frac$ $x$"
)
"""A name that is another thing wherever it is taken for something else than text."""
QUOTED = HOSTILE.replace("\\", "\\\\").replace('"', '\\"')
IN_A_CELL = HOSTILE.replace('"', '""')
STRANGE = changed(
    VALLEY,
    ("project.toml", 'title = "Valley road"', f'title = "Road {QUOTED}"'),
    ("project.toml", 'metered = "plan', f'"plan {QUOTED}" = "plan'),
    ("corridor.csv", "20,Mill Road,", f'20,"Mill {IN_A_CELL}",'),
    ("corridor.csv", "30,Bridge,", f'30,"Bridge {IN_A_CELL}",'),
)

REPORTS: dict[str, list[str]] = {
    "peak": "demo peak".split(),
    "two": "demo peak tight".split(),
    "tight": "demo tight".split(),
    "apart": "demo peak inserted:peak".split(),
    "window": "demo peak --from 07:00 --until 08:30 --links 1290..1480".split(),
    "both": "valley open metered --from 07:00:10 --until 07:00:40 --links 20..30".split(),
    "same": "valley open open".split(),
    "strange": ["strange", f"plan {HOSTILE}"],
    "again": "demo peak".split(),
}
"""What each page is a report on. The page `again` is that of `peak`, made by somebody else elsewhere."""

SAYING = {
    "peak": "simulate demo peak".split(),
    "tight": "simulate demo tight".split(),
    "two": "compare demo:peak tight".split(),
    "apart": "compare demo:peak inserted:peak".split(),
    "both": "compare valley:open metered".split(),
    "same": "compare valley:open open".split(),
}
"""The command that has the verdict of a page."""

VERDICTS = {
    "peak": "VALID",
    "tight": "NOT VALID",
    "two": "DIFFERENT",
    "apart": "NOT COMPARABLE",
    "both": "DIFFERENT",
    "same": "SAME",
}

VEHICLES, SPEED, FLOW, QUEUE = MAPS = ("Vehicles", "Speed", "Flow", "Queues")
"""The maps in the order of the page, by the first word of each."""
WORDS = {"vehicles": "vehicles_units", "queue": "queue_units", "flow": "flow_units", "ramp flow": "ramp_flow_units"}
"""What the page calls the words of a record, and their columns."""
CALLED = {
    "vehicles": "vehicles on the link",
    "queue": "queue at the ramp",
    "flow": "flow of the link",
    "ramp flow": "flow of the ramp",
    "rate": "metering rate",
    "limit": "speed limit",
}
"""What people read beside each word."""
NO_LIMIT = 134_217_728
CORNERS = 4


class Screen(NamedTuple):
    """A screen, or the width of a sheet of paper, in the units of a style sheet."""

    width: int
    height: int
    mobile: bool = False
    media: str = ""


LAPTOP, PHONE = Screen(1366, 768), Screen(390, 844, True)
PAPER = Screen(703, 1017, media="print")
"""A4 within the margins of the page, 186 by 269 mm."""


class Pages:
    """The folder with the projects, and the pages, which are made while the first tests run."""

    def __init__(self, folder: Path):
        self.folder = folder
        golden.prepare(folder)
        for name, files in (("valley", VALLEY), ("strange", STRANGE)):
            (folder / name).mkdir()
            for file, text in files.items():
                (folder / name / file).write_text(str(text))
        self.pool = ThreadPoolExecutor(2)
        self.made: dict[str, Future[CompletedProcess[str]]] = {
            name: self.pool.submit(self._make, name, arguments) for name, arguments in REPORTS.items()
        }

    def _make(self, name: str, arguments: list[str]) -> CompletedProcess[str]:
        home = self.folder / "home of another"
        elsewhere = ["TZ=Asia/Tokyo", "LC_ALL=C", f"HOME={home}", "PYTHONHASHSEED=7"]
        here = [sys.executable, "-c", "from gigorchid.commands import main; main()"]
        program = ["/usr/bin/env", *elsewhere, *here] if name == "again" else None
        return golden.run(self.folder, ["report", *arguments, "-o", f"{name}.html"], program)

    def status(self, name: str) -> int:
        """The exit status with which a page was made."""
        return self.made[name].result().returncode

    def file(self, name: str) -> Path:
        """A page, once it is there."""
        done = self.made[name].result()
        path = self.folder / f"{name}.html"
        assert path.exists(), done.stderr
        return path


@pytest.fixture(scope="module")
def pages(tmp_path_factory: pytest.TempPathFactory) -> Iterator[Pages]:
    made = Pages(tmp_path_factory.mktemp("pages"))
    yield made
    made.pool.shutdown(cancel_futures=True)


class Browser:
    """A browser that shows one page after the other, each in a tab."""

    def __init__(self, pages: Pages):
        how = options()
        how.set_capability("goog:loggingPrefs", {"performance": "ALL", "browser": "ALL"})
        how.add_experimental_option("perfLoggingPrefs", {"enableNetwork": True, "enablePage": False})
        self.driver = started(how)
        self.pages, self.shown = pages, ""
        self.tabs: dict[str, str] = {}
        self.screens: dict[str, Screen] = {}
        self.shots: dict[tuple[object, ...], Shot] = {}

    def ask(self, script: str, *arguments: object) -> Any:
        """What a script answers on the page."""
        return self.driver.execute_script(script, *arguments)

    def tell(self, method: str, **arguments: object) -> dict[str, Any]:
        """Gives an order to the browser itself."""
        found: dict[str, Any] = self.driver.execute_cdp_cmd(method, arguments)
        return found

    def open(self, name: str, screen: Screen = LAPTOP, again: bool = False) -> None:
        """Shows a page on a screen, with nothing under the pointer and no map in use."""
        self._turn_to(name, again)
        if self.screens.get(name) != screen:
            size = {"width": screen.width, "height": screen.height, "deviceScaleFactor": 1, "mobile": screen.mobile}
            self.tell("Emulation.setDeviceMetricsOverride", **size)
            self.tell("Emulation.setTouchEmulationEnabled", enabled=screen.mobile)
            self.tell("Emulation.setEmulatedMedia", media=screen.media)
            self.screens[name] = screen
            self.settle()
        self.ask("document.activeElement.blur()")
        self.move(1, 1)

    def _turn_to(self, name: str, again: bool) -> None:
        """Loads a page in a tab of its own, or goes back to that tab."""
        if name in self.tabs and self.shown != name:
            self.driver.switch_to.window(self.tabs[name])
            self.tell("Page.bringToFront")
        elif name not in self.tabs and self.tabs:
            self.driver.switch_to.new_window("tab")
        if again or name not in self.tabs:
            self.driver.get(self.pages.file(name).as_uri())
        self.tabs[name], self.shown = self.driver.current_window_handle, name

    def settle(self) -> None:
        """Waits until the page is drawn as it is now."""
        self.driver.execute_async_script("requestAnimationFrame(() => requestAnimationFrame(() => arguments[0]()))")

    def move(self, x: float, y: float) -> None:
        """Moves the mouse to a place of the window."""
        point_at(self.driver, x, y)

    def tap(self, x: float, y: float) -> None:
        """Taps with a finger."""
        self.tell("Input.dispatchTouchEvent", type="touchStart", touchPoints=[{"x": x, "y": y}])
        self.tell("Input.dispatchTouchEvent", type="touchEnd", touchPoints=[])

    def press(self, *keys: str) -> None:
        """Presses keys, one after the other."""
        ActionChains(self.driver).send_keys(*keys).perform()

    def text(self, selector: str) -> str:
        """The text of the first element that a selector finds, as the page holds it."""
        return str(self.ask("return document.querySelector(arguments[0]).textContent", selector))

    def texts(self, selector: str) -> list[str]:
        """The texts of all elements that a selector finds."""
        return list(self.ask("return [...document.querySelectorAll(arguments[0])].map((e) => e.textContent)", selector))

    def shot(self, box: Box) -> Shot:
        """A part of the window as it is drawn, with nothing under the pointer; taken once."""
        scrolled = self.ask("return [window.scrollX, window.scrollY, window.innerWidth]")
        key = (self.shown, *scrolled)
        if key not in self.shots:
            self.move(1, 1)
            self.settle()
            clip = {"x": box.left + scrolled[0], "y": box.top + scrolled[1], "width": box.width, "height": box.height}
            taken = self.tell("Page.captureScreenshot", clip=clip | {"scale": Shot.SCALE})
            self.shots[key] = Shot(box, base64.b64decode(taken["data"]))
        return self.shots[key]

    def sweep(self, points: Sequence[tuple[float, float]], tap: bool = False) -> list[dict[str, Any] | None]:
        """What stands in the panel at each of these places, as the page is told of a pointer there."""
        found: list[dict[str, Any] | None] = self.ask(SWEEP, points, "touch" if tap else "mouse")
        return found

    def words(self) -> dict[str, Any] | None:
        """What stands in the panel at the pointer; nothing where it is not shown."""
        found: dict[str, Any] | None = self.ask(PANEL)
        return found


PANEL = """
const panel = document.getElementById("words");
if (panel.getBoundingClientRect().width === 0) return null;
const head = panel.querySelector("strong");
const cells = [...panel.querySelectorAll("td[data-word]")];
return {
  told: head.textContent, state: Number(head.dataset.state), node: Number(head.dataset.node),
  words: cells.map((cell) => [cell.dataset.side, cell.dataset.word, Number(cell.dataset.value)]),
  texts: cells.map((cell) => cell.textContent),
  names: cells.map((cell) => cell.parentElement.firstChild.textContent),
  rows: [...panel.querySelectorAll("tr")].map((row) => [...row.children].map((cell) => cell.textContent)),
  bold: [...panel.querySelectorAll("tr.shown")].map((row) => row.firstChild.textContent),
  box: panel.getBoundingClientRect().toJSON(),
};
"""

SWEEP = f"""
const panel = () => {{ {PANEL} }};
const [points, kind] = arguments;
return points.map(([x, y]) => {{
  const type = kind === "mouse" ? "pointermove" : "pointerdown";
  const event = new PointerEvent(type, {{ clientX: x, clientY: y, pointerType: kind, bubbles: true }});
  document.elementFromPoint(x, y).dispatchEvent(event);
  return panel();
}});
"""


@pytest.fixture(scope="module")
def browser(pages: Pages) -> Iterator[Browser]:
    started = Browser(pages)
    yield started
    started.driver.quit()


class Truth:
    """What is so of a plan: the words of its record and its own, by state and node, and the road that they are on."""

    def __init__(self, folder: Path, project: str, plan: str):
        file = folder / f"{project}-{len(plan)}-truth.csv"
        run(folder, "simulate", project, plan, "-o", file.name)
        with (folder / project / "corridor.csv").open() as table:
            self.nodes = list(csv.DictReader(table))
        numbers = {row["id"]: at for at, row in enumerate(self.nodes)}
        with file.open() as table:
            self.record = {(int(row["state"]), numbers[row["id"]]): row for row in csv.DictReader(table)}
        loaded = Project.load(folder / project)
        self.plan, self.clock = loaded.plan(plan), loaded.clock

    def label(self, node: int) -> str:
        """A node as people know it."""
        return f"{self.nodes[node]['name']} ({self.nodes[node]['id']})"

    def time(self, state: int) -> str:
        """The time of day of a state, of a project whose steps are whole seconds."""
        seconds = int(self.clock.start + state * self.clock.step)
        return f"{seconds // 3600:02d}:{seconds // 60 % 60:02d}:{seconds % 60:02d}"

    def word(self, state: int, node: int, name: str) -> int:
        """A word of the record."""
        return int(self.record[state, node][WORDS[name]])

    def words(self, state: int, node: int) -> dict[str, int]:
        """All words at a place: those of the record, and those that the plan has for the step that begins there."""
        found = {name: self.word(state, node, name) for name in WORDS}
        if state == self.clock.steps:
            return found
        return found | {"rate": int(self.plan.rates[state, node]), "limit": int(self.plan.limits[state, node])}

    def length(self, node: int) -> int:
        """The metres of the link that ends at a node."""
        return int(self.nodes[node]["length_m"])

    def ramps(self) -> list[int]:
        """The nodes with an on-ramp; the first of all is what enters the road."""
        return [at for at, row in enumerate(self.nodes) if row["ramp_capacity_vph"]]

    def limit(self, node: int) -> int:
        """The limit of a ramp's queue, in units."""
        cell = self.nodes[node]["queue_limit_veh"]
        return NO_LIMIT if cell == "none" else int(Fraction(cell) * 64)


@cache
def truth(folder: Path, project: str, plan: str) -> Truth:
    """What is so of a plan, worked out once."""
    return Truth(folder, project, plan)


class Grid(NamedTuple):
    """The places of a map: the nodes of its rows from below, how high each is, its states, and how many have a figure."""

    nodes: list[int]
    heights: list[int]
    first: int
    columns: int
    filled: int

    @classmethod
    def of(
        cls, known: Truth, quantity: str, first: int = 0, last: int | None = None, links: Sequence[int] = ()
    ) -> Grid:
        """Links to their lengths, or a row for each ramp; what flows does so in steps, and the last state begins none."""
        end = known.clock.steps if last is None else last
        shown = list(links) or list(range(1, len(known.nodes)))
        columns = end + 1 - first
        filled = columns - (quantity in (SPEED, FLOW) and end == known.clock.steps)
        if quantity != QUEUE:
            return cls(shown, [known.length(node) for node in shown], first, columns, filled)
        ramps = [node for node in known.ramps() if shown[0] - 1 <= node <= shown[-1]]
        return cls(ramps, [1] * len(ramps), first, columns, filled)

    def place(self, state: int, node: int, across: float = 0.5, up: float = 0.5) -> tuple[float, float]:
        """Where a place of a cell is: shares of the map's width from the left and of its height from above."""
        row = self.nodes.index(node)
        edges = [0, *accumulate(self.heights)]
        level = (edges[row] + up * self.heights[row]) / edges[-1]
        return (state - self.first + across) / self.columns, 1 - level

    def sample(self, most: int) -> list[tuple[int, int]]:
        """The corners, and up to so many other places that lie in all rows and at times all over the map."""
        last = self.first + self.filled - 1
        corners = [(state, node) for state in (self.first, last) for node in (self.nodes[0], self.nodes[-1])]
        others = [(self.first + (389 * at + 97) % self.filled, self.nodes[at % len(self.nodes)]) for at in range(most)]
        return corners + others


class Box(NamedTuple):
    """A rectangle on the window."""

    left: float
    top: float
    width: float
    height: float

    def at(self, across: float, down: float) -> tuple[float, float]:
        """The place at these shares of it."""
        return self.left + across * self.width, self.top + down * self.height


PICTURE = """
const figure = document.querySelectorAll("figure.map")[arguments[0]];
figure.scrollIntoView({ block: "center", behavior: "instant" });
const image = [...figure.querySelectorAll("img")].find((each) => each.getBoundingClientRect().width > 0);
const box = image.getBoundingClientRect();
const map = JSON.parse(document.getElementById("data").textContent).maps[Number(figure.dataset.map)];
const told = figure.getAttribute("aria-label");
return { told, box: [box.left, box.top, box.width, box.height], shares: map[image.className] };
"""


def picture(browser: Browser, quantity: str, column: int = 0, columns: int = 1) -> tuple[Box, Box]:
    """Brings a map into the middle of the window: where its picture is, and where, as the page has it, the map is on that."""
    found = browser.ask(PICTURE, MAPS.index(quantity) * columns + column)
    assert found["told"].startswith(quantity)
    browser.settle()
    whole, shares = Box(*found["box"]), found["shares"]
    left, top = whole.at(shares["left"], shares["top"])
    return whole, Box(left, top, whole.width * shares["width"], whole.height * shares["height"])


def place_told(shown: dict[str, Any] | None) -> tuple[int, int] | None:
    """The state and the node that the panel is on."""
    return None if shown is None else (shown["state"], shown["node"])


def assert_told(shown: dict[str, Any] | None, state: int, node: int, *known: Truth, key: str = "A") -> None:
    """The panel is on this place, and has the words of each plan there and, of two plans, what the second has more."""
    assert place_told(shown) == (state, node)
    assert shown is not None
    assert shown["told"].startswith(known[0].time(state)) and shown["told"].endswith(known[0].label(node))
    found = [each.words(state, node) for each in known]
    expected, texts = [], []
    for name, word in found[0].items():
        values = [each[name] for each in found]
        expected += [(each, name, value) for each, value in zip("AB" if len(known) == 2 else key, values)]
        texts += [f"{value:,}" for value in values]
        if len(known) == 2:
            more = values[1] - word
            expected.append(("more", name, more))
            texts.append(f"+{more:,}" if more > 0 else f"{more:,}")
    assert [tuple(each) for each in shown["words"]] == expected
    assert shown["texts"] == texts
    assert shown["names"] == [CALLED[name] for _, name, _ in expected]


def assert_map_told(
    browser: Browser, frame: Box, grid: Grid, *known: Truth, most: int = 60, key: str = "A", tap: bool = False
) -> None:
    """At many places of a map, near the middles and near the edges of cells, the panel has the words of that place.

    The mouse or a finger goes to the corners; of the other places the page is told as it would be then, which is faster.
    """
    browser.ask("document.activeElement.blur()")
    places = grid.sample(most)
    shares = [(0.5, 0.5), (0.2, 0.1), (0.8, 0.9)]
    points = [frame.at(*grid.place(*place, *shares[at % 3])) for at, place in enumerate(places)]
    for place, point in zip(places[:CORNERS], points):
        (browser.tap if tap else browser.move)(*point)
        assert_told(browser.words(), *place, *known, key=key)
    for place, shown in zip(places[CORNERS:], browser.sweep(points[CORNERS:], tap), strict=True):
        assert_told(shown, *place, *known, key=key)


# The words at the pointer


@pytest.mark.parametrize("quantity", MAPS)
def test_the_words_at_the_mouse_are_those_of_the_record(browser: Browser, pages: Pages, quantity: str) -> None:
    browser.open("peak")
    known = truth(pages.folder, "demo", "peak")
    _, frame = picture(browser, quantity)
    assert_map_told(browser, frame, Grid.of(known, quantity), known)


def test_the_words_of_the_plan_change_where_the_plan_does(browser: Browser, pages: Pages) -> None:
    """The limit before Cutting and the rate of Barrett begin in step 450, 07:15, and end or change in step 720, 08:00."""
    browser.open("peak")
    known = truth(pages.folder, "demo", "peak")
    _, frame = picture(browser, VEHICLES)
    grid = Grid.of(known, VEHICLES)
    places = [(state, node) for node in (8, 9) for state in (*range(447, 453), *range(717, 723))]
    shown = browser.sweep([frame.at(*grid.place(*place)) for place in places])
    assert len({(each["node"], words_told(each, "rate"), words_told(each, "limit")) for each in shown if each}) == 5
    for place, each in zip(places, shown, strict=True):
        assert_told(each, *place, known)


def in_units(known: Truth, state: int, node: int) -> list[str]:
    """The words at a place, before the last state, as vehicles, vehicles per hour and a speed."""
    words = known.words(state, node)
    told = [rounded(Fraction(words[name], 64)) + " veh" for name in ("vehicles", "queue")]
    told += [rounded(words[name] * Fraction(45, 8)) + " veh/h" for name in ("flow", "ramp flow", "rate")]
    told[-1] += ", not metered" if words["rate"] == known.plan.corridor.word(node, 5) else ""
    speed = Fraction(words["limit"] * known.length(node) * 36, 65_536 * 100) if node else None
    full = ", full speed" if words["limit"] == known.plan.corridor.word(node, 2) else ""
    return told + ["" if speed is None else f"{rounded(speed)} km/h{full}"]


def own_figure(known: Truth, quantity: str, state: int, node: int) -> list[list[str]]:
    """What a map shows at a place, where that is no word in another unit."""
    words = known.words(state, node)
    if quantity == VEHICLES:
        return [
            ["vehicles per km", "", rounded(Fraction(words["vehicles"] * 1000, 64 * known.length(node)), 2) + " veh/km"]
        ]
    if quantity == SPEED:
        speed = Fraction(words["flow"] * known.length(node) * 36, words["vehicles"] * 100)
        return [["speed *", "", rounded(speed, 2) + " km/h"]]
    if quantity == FLOW or known.limit(node) == NO_LIMIT:
        return []
    limit = known.limit(node)
    share = rounded(Fraction(100 * words["queue"], limit), 2)
    return [["share of its limit *", "", f"{share} % of {rounded(Fraction(limit, 64))} veh"]]


@pytest.mark.parametrize("quantity", MAPS)
def test_the_words_are_also_told_in_the_units_of_the_field(browser: Browser, pages: Pages, quantity: str) -> None:
    """Below them stands what the map shows there, and the word that it comes from is in bold."""
    browser.open("peak")
    known = truth(pages.folder, "demo", "peak")
    _, frame = picture(browser, quantity)
    grid = Grid.of(known, quantity)
    places = [place for place in grid.sample(24) if place[0] < known.clock.steps] + [(500, grid.nodes[-4])]
    bold = {VEHICLES: "vehicles", SPEED: "flow", FLOW: "flow", QUEUE: "queue"}[quantity]
    for place, shown in zip(places, browser.sweep([frame.at(*grid.place(*place)) for place in places])):
        assert shown is not None and [row[2] for row in shown["rows"][1:7]] == in_units(known, *place)
        assert shown["rows"][7:] == own_figure(known, quantity, *place)
        assert shown["bold"] == [CALLED[bold]]


def test_the_speeds_of_two_plans_and_their_difference(browser: Browser, pages: Pages) -> None:
    browser.open("two")
    both = [truth(pages.folder, "demo", plan) for plan in ("peak", "tight")]
    _, frame = picture(browser, SPEED, 2, 3)
    grid = Grid.of(both[0], SPEED)
    places = grid.sample(20)
    for (state, node), shown in zip(places, browser.sweep([frame.at(*grid.place(*place)) for place in places])):
        scale = Fraction(both[0].length(node) * 36, 100)
        speeds = [Fraction(each.word(state, node, "flow"), each.word(state, node, "vehicles")) * scale for each in both]
        more = float(shown["rows"][7][3]) if shown else None
        assert shown and shown["rows"][7][:3] == ["speed *, km/h", *(rounded(speed, 2) for speed in speeds)]
        assert more == pytest.approx(float(speeds[1] - speeds[0]), abs=0.0051)


def words_told(shown: dict[str, Any], name: str) -> int:
    """A word in the panel."""
    return next(int(value) for _, each, value in shown["words"] if each == name)


@pytest.mark.parametrize("quantity", MAPS)
def test_just_outside_of_a_map_no_words_are_shown(browser: Browser, pages: Pages, quantity: str) -> None:
    browser.open("peak")
    _, frame = picture(browser, quantity)
    grid = Grid.of(truth(pages.folder, "demo", "peak"), quantity)
    right = frame.left + frame.width * grid.filled / grid.columns
    middle = frame.at(0.5, 0.5)
    bottom = frame.top + frame.height
    outside = [
        (frame.left - 1, middle[1]),
        (right + 0.6, middle[1]),
        (middle[0], frame.top - 1),
        (middle[0], bottom + 1),
    ]
    for place in outside:
        browser.move(*middle)
        assert browser.words() is not None
        browser.move(*place)
        assert browser.words() is None


def test_the_words_go_when_the_mouse_leaves_the_picture(browser: Browser) -> None:
    browser.open("peak")
    whole, frame = picture(browser, FLOW)
    browser.move(*frame.at(0.5, 0.5))
    assert browser.words() is not None
    browser.move(whole.left - 30, whole.top)
    assert browser.words() is None


@pytest.mark.parametrize("screen", [LAPTOP, PHONE], ids=["laptop", "phone"])
def test_the_words_stand_in_the_window_beside_their_place(browser: Browser, pages: Pages, screen: Screen) -> None:
    """Not cut off by the edge of the screen, and not over the place that they are about."""
    browser.open("peak", screen)
    _, frame = picture(browser, VEHICLES)
    grid = Grid.of(truth(pages.folder, "demo", "peak"), VEHICLES)
    for state, node in grid.sample(8):
        x, y = frame.at(*grid.place(state, node))
        (browser.tap if screen.mobile else browser.move)(x, y)
        shown = browser.words()
        assert shown is not None
        box = shown["box"]
        assert 0 <= box["left"] and box["right"] <= screen.width and 0 <= box["top"] and box["bottom"] <= screen.height
        assert not (box["left"] <= x <= box["right"] and box["top"] <= y <= box["bottom"])


@pytest.mark.parametrize("quantity", MAPS)
def test_the_words_at_a_finger_are_those_of_the_record(browser: Browser, pages: Pages, quantity: str) -> None:
    """On a phone, where other pictures are shown."""
    browser.open("peak", PHONE)
    known = truth(pages.folder, "demo", "peak")
    _, frame = picture(browser, quantity)
    assert_map_told(browser, frame, Grid.of(known, quantity), known, tap=True)


def test_a_finger_goes_from_a_map_to_another(browser: Browser, pages: Pages) -> None:
    """The words of the one are shown, and then those of the other, at the first tap."""
    browser.open("peak", PHONE)
    known = truth(pages.folder, "demo", "peak")
    for quantity in (VEHICLES, FLOW):
        _, frame = picture(browser, quantity)
        browser.tap(*frame.at(*Grid.of(known, quantity).place(600, 6)))
        browser.settle()
        assert_told(browser.words(), 600, 6, known)


@pytest.mark.parametrize("quantity", MAPS)
def test_the_cell_that_is_told_is_outlined(browser: Browser, pages: Pages, quantity: str) -> None:
    """The outline is at least as high and as wide as can be seen, begins where the cell does, and no other map has one."""
    browser.open("peak")
    known = truth(pages.folder, "demo", "peak")
    _, frame = picture(browser, quantity)
    grid = Grid.of(known, quantity)
    for state, node in grid.sample(3):
        browser.move(*frame.at(*grid.place(state, node)))
        script = "return [...document.querySelectorAll('.cell')].map((e) => e.getBoundingClientRect()).filter((b) => b.width)"
        outlines = browser.ask(script)
        left, bottom = frame.at(*grid.place(state, node, 0, 0))
        top = frame.at(*grid.place(state, node, 0, 1))[1]
        assert len(outlines) == 1
        found = [outlines[0][name] for name in ("left", "top", "bottom")]
        assert found == pytest.approx([left, top, bottom], abs=0.1)


@pytest.mark.parametrize(
    ("quantity", "screen"), [*((each, LAPTOP) for each in MAPS), (VEHICLES, PHONE)], ids=[*MAPS, "phone"]
)
def test_the_words_of_two_plans_and_what_the_second_has_more(
    browser: Browser, pages: Pages, quantity: str, screen: Screen
) -> None:
    browser.open("two", screen)
    plans = [truth(pages.folder, "demo", plan) for plan in ("peak", "tight")]
    for column in range(3):
        _, frame = picture(browser, quantity, column, 3)
        grid = Grid.of(plans[0], quantity)
        shown = plans if column == 2 else [plans[column]]
        assert_map_told(browser, frame, grid, *shown, most=30, key="AB-"[column], tap=screen.mobile)


def test_plans_on_two_roads_are_each_told_on_their_own(browser: Browser, pages: Pages) -> None:
    """The road of B has a link that A's has not, so that there is nothing to take from each other."""
    browser.open("apart")
    assert browser.ask("return document.querySelectorAll('figure.map').length") == 8
    for column, project in enumerate(("demo", "inserted")):
        known = truth(pages.folder, project, "peak")
        for quantity in MAPS:
            _, frame = picture(browser, quantity, column, 2)
            assert_map_told(browser, frame, Grid.of(known, quantity), known, most=30, key="AB"[column])


# Where the maps are on their pictures, by what is drawn


class Shot:
    """A picture of a map as the browser draws it, two dots to a unit, and where it is on the window."""

    SCALE = 2

    def __init__(self, box: Box, content: bytes):
        self.box = box
        self.dots = imread(io.BytesIO(content), format="png")[:, :, :3]
        self.dark = self.dots.max(axis=2) < 0.3

    def colour(self, x: float, y: float) -> np.ndarray:
        """The colour at a place of the window, red, green and blue."""
        return self.dots[int((y - self.box.top) * self.SCALE), int((x - self.box.left) * self.SCALE)]

    def frame(self) -> Box:
        """The middle of the frame around the map, by its long dark lines."""
        across, down = (np.flatnonzero(self.dark.mean(axis=axis) > 0.5) for axis in (0, 1))
        return self._box(*(middles(each) for each in (across, down)))

    def _box(self, across: tuple[float, float], down: tuple[float, float]) -> Box:
        """A rectangle of dots as one of the window."""
        left, right = (self.box.left + at / self.SCALE for at in across)
        top, bottom = (self.box.top + at / self.SCALE for at in down)
        return Box(left, top, right - left, bottom - top)

    def inner(self) -> tuple[slice, slice]:
        """The dots that lie within the frame, rows and columns."""
        frame, scale = self.frame(), self.SCALE
        top, left = (frame.top - self.box.top + 1.5) * scale, (frame.left - self.box.left + 1.5) * scale
        bottom, right = top + (frame.height - 3) * scale, left + (frame.width - 3) * scale
        return slice(int(top), int(bottom)), slice(int(left), int(right))

    def outline(self, high: float) -> Box:
        """The middle of the outline of a rectangle within the map, by its dark sides, which are nearly so high or higher."""
        rows, columns = self.inner()
        dark = self.dark[rows, columns]
        across = np.flatnonzero([longest(line) > 0.9 * high * self.SCALE for line in dark.T])
        side = np.flatnonzero(dark[:, across[0]])
        left, right = middles(across)
        line = (across[across < left + self.SCALE * 3].size) / 2
        return self._box(
            (columns.start + left, columns.start + right),
            (rows.start + side[0] + line, rows.start + side[-1] + 1 - line),
        )

    def coloured(self, colour: tuple[int, int, int]) -> Box:
        """The rectangle within the map in which a colour is found."""
        rows, columns = self.inner()
        found = np.abs(self.dots[rows, columns] - np.array(colour) / 255).max(axis=2) < 0.03
        down, across = np.flatnonzero(found.any(axis=1)), np.flatnonzero(found.any(axis=0))
        return self._box(
            (columns.start + across[0], columns.start + across[-1] + 1),
            (rows.start + down[0], rows.start + down[-1] + 1),
        )


def longest(line: np.ndarray) -> int:
    """How many dots the longest dark piece of a line has."""
    ends = np.flatnonzero(np.diff(np.concatenate([[0], line.astype(np.int8), [0]])))
    return int((ends[1::2] - ends[::2]).max(initial=0))


def middles(found: np.ndarray) -> tuple[float, float]:
    """The middle of the first and of the last piece of a row of neighbouring numbers."""
    pieces = np.split(found, np.flatnonzero(np.diff(found) > 2) + 1)
    assert len(pieces) >= 2, "two lines are wanted"
    return float(pieces[0].mean() + 0.5), float(pieces[-1].mean() + 0.5)


@pytest.mark.parametrize("screen", [LAPTOP, PHONE], ids=["laptop", "phone"])
@pytest.mark.parametrize("quantity", MAPS)
def test_a_map_is_where_the_page_says_that_it_is(browser: Browser, quantity: str, screen: Screen) -> None:
    """The frame that is drawn around it is that of the shares by which the page finds places."""
    browser.open("peak", screen)
    whole, frame = picture(browser, quantity)
    assert list(browser.shot(whole).frame()) == pytest.approx(list(frame), abs=0.75)


@pytest.mark.parametrize("screen", [LAPTOP, PHONE], ids=["laptop", "phone"])
@pytest.mark.parametrize("quantity", [VEHICLES, SPEED, FLOW])
def test_the_outlined_link_is_the_one_with_a_limit(
    browser: Browser, pages: Pages, quantity: str, screen: Screen
) -> None:
    """Within its four sides, as they are drawn, the words are those of the link to Cutting with a limit; outside, others."""
    browser.open("peak", screen)
    known = truth(pages.folder, "demo", "peak")
    whole, frame = picture(browser, quantity)
    held = browser.shot(whole).outline(frame.height * 550 / 10250)
    cutting, full = 8, int(known.plan.limits[0, 8])
    middle, right, bottom = held.at(0.3, 0.5), held.left + held.width, held.top + held.height
    within = [(held.left + 1, middle[1]), (right - 1, middle[1]), (middle[0], held.top + 2), (middle[0], bottom - 2)]
    beside = [(held.left - 1, middle[1]), (right + 1, middle[1])]
    for place, limited in [*((each, True) for each in within), *((each, False) for each in beside)]:
        found = told_at(browser, place, screen)
        assert found["node"] == cutting and (words_told(found, "limit") < full) == limited
    states = [told_at(browser, place, screen)["state"] for place in ((held.left, middle[1]), (right, middle[1]))]
    dot = 1081 / frame.width
    assert states == pytest.approx([450, 720], abs=1 + dot)
    assert told_at(browser, (middle[0], held.top - 2), screen)["node"] == cutting + 1
    assert told_at(browser, (middle[0], bottom + 2), screen)["node"] == cutting - 1


def told_at(browser: Browser, place: tuple[float, float], screen: Screen = LAPTOP) -> dict[str, Any]:
    """What the panel tells of a place at which there are words."""
    (browser.tap if screen.mobile else browser.move)(*place)
    shown = browser.words()
    assert shown is not None
    return shown


def test_the_queue_above_its_limit_is_where_it_is_marked(browser: Browser, pages: Pages) -> None:
    """Within the marked rectangle, as it is drawn, the queue of Barrett is above its limit, and beside it not."""
    browser.open("tight")
    known = truth(pages.folder, "demo", "tight")
    whole, frame = picture(browser, QUEUE)
    marked = browser.shot(whole).coloured((213, 94, 0))
    barrett, most = 9, known.limit(9)
    over = [state for state in range(1081) if known.word(state, barrett, "queue") > most]
    right, bottom, middle = marked.left + marked.width, marked.top + marked.height, marked.at(0.5, 0.5)
    across = {marked.left + 1: True, right - 1: True, marked.left - 2: False, right + 2: False}
    for x, above in across.items():
        shown = told_at(browser, (x, middle[1]))
        assert shown["node"] == barrett and (known.word(shown["state"], barrett, "queue") > most) == above
    places = [(marked.left, middle[1]), (right, middle[1])]
    assert [told_at(browser, place)["state"] for place in places] == pytest.approx([over[0], over[-1] + 1], abs=3)
    levels = [marked.top + 1, bottom - 1, marked.top - 3, bottom + 3]
    assert [told_at(browser, (middle[0], level))["node"] for level in levels] == [barrett, barrett, 10, 8]


def figures(known: Truth, quantity: str, state: int, node: int) -> float:
    """What the colour of a map stands for, of a place that has such a figure."""
    vehicles, flow = known.word(state, node, "vehicles"), known.word(state, node, "flow")
    match quantity:
        case "Vehicles":
            return vehicles / known.length(node)
        case "Speed":
            return -flow / vehicles * known.length(node)
        case "Flow":
            return flow
    return known.word(state, node, "queue") / known.limit(node)


@pytest.mark.parametrize("quantity", MAPS)
def test_it_is_darker_where_the_words_are_more(browser: Browser, pages: Pages, quantity: str) -> None:
    """Of two places the one with more vehicles to the kilometre, the slower one, or that with more flow or queue is it."""
    browser.open("tight")
    known = truth(pages.folder, "demo", "tight")
    whole, frame = picture(browser, quantity)
    shot, grid = browser.shot(whole), Grid.of(known, quantity)
    # Marks are drawn over the colours of links with a limit, of queues above theirs and of the ramp without one.
    bare = [node for node in grid.nodes if node not in ((0, 9) if quantity == QUEUE else (7, 8, 9))]
    found = []
    for state in range(15, grid.filled, 35):
        for node in bare:
            colour = shot.colour(*frame.at(*grid.place(state, node, 0.5, 0.6)))
            found.append((figures(known, quantity, state, node), float(colour @ np.array([0.299, 0.587, 0.114]))))
    values, lights = np.array(found).T
    more = values[:, None] - values[None, :] > 0.12 * np.ptp(values)
    assert np.count_nonzero(more) > 100
    assert (lights[:, None] - lights[None, :])[more].max() <= 0.004


@pytest.mark.parametrize("quantity", [VEHICLES, FLOW])
def test_every_state_has_its_own_column(browser: Browser, pages: Pages, quantity: str) -> None:
    """Of a few steps, in which a column is wide: places with more are darker, to the first and the last column."""
    browser.open("strange")
    known = truth(pages.folder, "strange", f"plan {HOSTILE}")
    whole, frame = picture(browser, quantity)
    shot, grid = browser.shot(whole), Grid.of(known, quantity)
    found = []
    for state in range(grid.filled):
        for across in (0.1, 0.9):
            # The link to node 2 has a limit, and is hatched.
            colours = [shot.colour(*frame.at(*grid.place(state, node, across, 0.6))) for node in (1, 3)]
            values = [figures(known, quantity, state, node) for node in (1, 3)]
            found += [(value, float(colour.sum())) for value, colour in zip(values, colours)]
    values, lights = np.array(found).T
    more = values[:, None] - values[None, :] > 0.05 * np.ptp(values)
    assert np.count_nonzero(more) > 100
    assert (lights[:, None] - lights[None, :])[more].max() < 0


@pytest.mark.parametrize("quantity", [VEHICLES, FLOW, QUEUE])
def test_what_the_second_has_more_is_orange_and_what_it_has_less_purple(
    browser: Browser, pages: Pages, quantity: str
) -> None:
    browser.open("two")
    peak, tight = (truth(pages.folder, "demo", plan) for plan in ("peak", "tight"))
    whole, frame = picture(browser, quantity, 2, 3)
    shot, grid = browser.shot(whole), Grid.of(peak, quantity)
    name = {VEHICLES: "vehicles", FLOW: "flow", QUEUE: "queue"}[quantity]
    signs = []
    for state in range(5, grid.filled, 12):
        for node in grid.nodes:
            place = grid.place(state, node)
            more = [tight.word(at, node, name) - peak.word(at, node, name) for at in range(state - 4, state + 4)]
            red, _, blue = shot.colour(*frame.at(*place))
            signs += [(np.sign(more[4]), red - blue)] if min(map(abs, more)) > 90 else []
    assert {sign for sign, _ in signs} >= {1}
    assert all(sign * warmth > 0 for sign, warmth in signs)


# What the page is made of


@pytest.mark.parametrize("name", ["peak", "two"])
def test_it_loads_without_a_network_and_without_a_complaint(browser: Browser, pages: Pages, name: str) -> None:
    """Nothing is asked for but the page and what it holds itself, and the console has no warning, also once it was used."""
    for log in ("performance", "browser"):
        browser.driver.get_log(log)
    browser.open(name, again=True)
    _, frame = picture(browser, VEHICLES)
    browser.move(*frame.at(0.5, 0.5))
    assert browser.words() is not None
    events = [json.loads(entry["message"])["message"] for entry in browser.driver.get_log("performance")]
    asked = {e["params"]["request"]["url"] for e in events if e["method"] == "Network.requestWillBeSent"}
    assert {address for address in asked if not address.startswith("data:")} == {pages.file(name).as_uri()}
    complaints = browser.driver.get_log("browser")
    assert [each["message"] for each in complaints if each["level"] in ("SEVERE", "WARNING")] == []


def test_its_pictures_are_drawn(browser: Browser) -> None:
    """An address that holds a picture can be loaded without a network and still be no picture."""
    browser.open("peak")
    widths = browser.ask("return [...document.querySelectorAll('figure.map img')].map((each) => each.naturalWidth)")
    assert len(widths) == 8 and min(widths) > 0


# A part of the maps


@pytest.mark.parametrize("quantity", MAPS)
def test_a_window_tells_the_words_of_its_own_places(browser: Browser, pages: Pages, quantity: str) -> None:
    """From 07:00, which is state 360, until before 08:30, and from the link to Central to that to El Portal."""
    browser.open("window")
    known = truth(pages.folder, "demo", "peak")
    _, frame = picture(browser, quantity)
    assert_map_told(browser, frame, Grid.of(known, quantity, 360, 899, range(6, 12)), known)


def test_a_window_of_two_plans_tells_the_words_of_its_own_places(browser: Browser, pages: Pages) -> None:
    browser.open("both")
    plans = [truth(pages.folder, "valley", plan) for plan in ("open", "metered")]
    for quantity in MAPS:
        _, frame = picture(browser, quantity, 2, 3)
        assert_map_told(browser, frame, Grid.of(plans[0], quantity, 1, 3, range(1, 3)), *plans)


def test_a_window_is_told_and_cuts_the_maps_alone(browser: Browser, pages: Pages) -> None:
    browser.open("peak")
    whole = {each: browser.text(each) for each in ("#verdict", "#ramps", "#settings", "#figures", "footer", "h1")}
    uncut = browser.texts("#maps > p")
    browser.open("window")
    assert {each: browser.text(each) for each in whole} == whole
    said = " ".join(text for text in browser.texts("#maps > p") if text not in uncut)
    assert all(part in said for part in ("Albany (1250)", "El Portal (1480)", "07:00:00", "until 08:30:00", "whole"))
    assert said.startswith("Only ")
    assert not any(text.startswith("Only ") for text in uncut)


# What the library answered


@pytest.mark.parametrize("name", SAYING)
def test_the_verdict_is_that_of_the_command(browser: Browser, pages: Pages, name: str) -> None:
    """To the letter, and the exit status is the command's too."""
    status, printed = run(pages.folder, *SAYING[name])
    data = answer(pages.folder, *SAYING[name])
    browser.open(name)
    assert data["verdict"] == VERDICTS[name]
    assert browser.text("#verdict") in printed.splitlines()
    assert browser.text("#verdict strong") == data["verdict"]
    assert browser.driver.title.startswith(f"{data['verdict']}: ")
    assert pages.status(name) == status


@pytest.mark.parametrize("screen", [LAPTOP, PHONE], ids=["laptop", "phone"])
@pytest.mark.parametrize("name", ["peak", "two"])
def test_the_verdict_is_on_top(browser: Browser, name: str, screen: Screen) -> None:
    """It is seen at once, and before all else but the title."""
    browser.open(name, screen)
    browser.ask("window.scrollTo({ top: 0, behavior: 'instant' })")
    script = "return [...document.querySelectorAll('#verdict, p, main table, figure, dl')].map((e) => e.getBoundingClientRect().top)"
    tops = browser.ask(script)
    assert min(tops) == browser.ask("return document.getElementById('verdict').getBoundingClientRect().top")
    assert browser.ask("return document.getElementById('verdict').getBoundingClientRect().bottom") < screen.height / 2


@pytest.mark.parametrize(
    ("name", "stopping"), [("peak", False), ("tight", True), ("two", True), ("apart", True), ("same", False)]
)
def test_a_verdict_to_stop_at_is_dark(browser: Browser, name: str, stopping: bool) -> None:
    """White on black, also on paper, where browsers leave out what is behind text."""
    browser.open(name)
    script = "const style = getComputedStyle(document.querySelector('#verdict strong')); return [style.backgroundColor, style.color]"
    behind, colour = browser.ask(script)
    assert (behind == "rgb(17, 17, 17)" and colour == "rgb(255, 255, 255)") == stopping
    browser.open(name, PAPER)
    kept = browser.ask("return getComputedStyle(document.querySelector('#verdict strong')).printColorAdjust")
    assert kept == "exact" or not stopping


def test_what_is_not_valid_of_two_plans_is_told_beneath_the_verdict(browser: Browser, pages: Pages) -> None:
    """The verdict on two plans has no word on which of them is valid."""
    browser.open("two")
    told = answer(pages.folder, *SAYING["tight"])["refusal"]
    lines = browser.texts("header p.beneath")
    assert [line for line in lines if told["told"] in line and line.startswith("B, tight, is NOT VALID: ")]
    assert browser.texts("header p.beneath.stop") == lines[:1]
    assert browser.text("#signature strong") == "DIFFERENT, B NOT VALID"
    assert [line for line in lines if line.startswith("A: ") and line.endswith("; valid")]
    assert [line for line in lines if told["rest"][0] in line]


# The tables


def table(browser: Browser, section: str, number: int = 0) -> list[dict[str, str]]:
    """The rows of a table, by the names of their columns without the mark of what is not proved."""
    script = """
      const table = document.querySelectorAll(`#${arguments[0]} table`)[arguments[1]];
      const texts = (row) => [...row.cells].map((cell) => cell.textContent);
      return [texts(table.tHead.rows[0]), ...[...table.tBodies[0].rows].map((row) => [...texts(row), row.className])];
    """
    names, *rows = browser.ask(script, section, number)
    columns = [name.removesuffix(" *") for name in names] + ["class"]
    return [dict(zip(columns, row, strict=True)) for row in rows]


def rounded(value: Fraction | int, places: int = 1) -> str:
    """A figure to so many decimals, halves up."""
    whole, rest = divmod(int(Fraction(value) * 10**places + Fraction(1, 2)), 10**places)
    return f"{whole:,}.{rest:0{places}d}"


def short(value: Fraction) -> str:
    """A figure to one decimal, without it where that is zero."""
    return rounded(value).removesuffix(".0")


def longest_queues(known: Truth) -> list[tuple[str, str, str, str]]:
    """Of each ramp its longest queue, its limit, and the first time at which it is that long, by the record."""
    found = []
    for node in known.ramps():
        queues = [known.word(state, node, "queue") for state in range(known.clock.steps + 1)]
        limit = known.limit(node)
        told = "none" if limit == NO_LIMIT else short(Fraction(limit, 64))
        at = known.time(queues.index(max(queues)))
        found.append((known.label(node), rounded(Fraction(max(queues), 64)), told, at))
    return found


@pytest.mark.parametrize("plan", ["peak", "tight"])
def test_the_ramps_are_those_of_the_record(browser: Browser, pages: Pages, plan: str) -> None:
    browser.open(plan)
    found = [(row["ramp"], row["longest, veh"], row["limit, veh"], row["at"]) for row in table(browser, "ramps")]
    assert found == longest_queues(truth(pages.folder, "demo", plan))


def test_the_ramps_of_two_plans_are_those_of_their_records(browser: Browser, pages: Pages) -> None:
    browser.open("two")
    script = "return [...document.querySelectorAll('#ramps tbody tr')].map((row) => [...row.cells].map((cell) => cell.textContent))"
    a, b = (longest_queues(truth(pages.folder, "demo", plan)) for plan in ("peak", "tight"))
    assert browser.ask(script) == [
        [label, limit, most, at, other[1], other[3]] for (label, most, limit, at), other in zip(a, b)
    ]
    heads = browser.texts("#ramps th")
    assert [heads.index(head) for head in ("A longest, veh *", "B longest, veh *")] == [2, 4]


@pytest.mark.parametrize(("name", "over"), [("peak", []), ("tight", ["Barrett (1380)"]), ("two", ["Barrett (1380)"])])
def test_a_ramp_above_its_limit_is_marked(browser: Browser, name: str, over: list[str]) -> None:
    browser.open(name)
    assert [row["ramp"] for row in table(browser, "ramps") if row["class"] == "over"] == over


def posted(known: Truth) -> list[tuple[str, str, str, str, str]]:
    """What a plan sets below full speed or the ramp's capacity, in runs of steps, by its words."""
    plan, per_hour = known.plan, Fraction(3600, 640)
    found = []
    for node in range(len(known.nodes)):
        full = (int(plan.rates[0, node]), int(plan.limits[0, node]))
        words = [(int(plan.rates[step, node]), int(plan.limits[step, node])) for step in range(known.clock.steps)]
        starts = [0, *(step for step in range(1, len(words)) if words[step] != words[step - 1]), len(words)]
        for start, end in zip(starts, starts[1:]):
            rate, limit = words[start]
            if (rate, limit) != full:
                speed = Fraction(limit * known.length(node) * 36, 65536 * 100)
                told = (
                    short(rate * per_hour) if rate != full[0] else "",
                    f"{short(speed)} km/h" if limit != full[1] else "",
                )
                found.append((known.label(node), known.time(start), known.time(end), *told))
    return found


@pytest.mark.parametrize(("name", "number", "plan"), [("peak", 0, "peak"), ("two", 0, "peak"), ("two", 1, "tight")])
def test_the_settings_are_the_words_of_the_plan(
    browser: Browser, pages: Pages, name: str, number: int, plan: str
) -> None:
    """All of these plans set full speed and the ramps' capacity at the start."""
    browser.open(name)
    found = [
        tuple(row[column] for column in ("node", "from", "until", "rate, veh/h", "limit"))
        for row in table(browser, "settings", number)
    ]
    expected = posted(truth(pages.folder, "demo", plan))
    assert len(expected) in (8, 9) and found == expected


@pytest.mark.parametrize("name", ["peak", "two"])
def test_the_sums_are_those_of_the_command(browser: Browser, pages: Pages, name: str) -> None:
    """Of each plan the cost, which the record has, and the hours that the command prints."""
    browser.open(name)
    lists = browser.ask("return [...document.querySelectorAll('#figures ul')].map((e) => e.innerText)")
    plans = ["peak", "tight"][: len(lists)]
    assert len(lists) == (2 if name == "two" else 1)
    for text, plan in zip(lists, plans):
        data = answer(pages.folder, "simulate", "demo", plan)
        assert f"cost: {data['cost_units']:,} " in text
        assert f"vehicle hours *: {data['not_proved']['vehicle_hours']:,.1f}, " in text


# What it was made from


def hashes(browser: Browser) -> dict[str, str]:
    """The footer's list of what the page was made from."""
    names, values = browser.texts("footer dt"), browser.texts("footer dd")
    return dict(zip(names, values, strict=True))


def test_the_footer_names_the_library(browser: Browser, pages: Pages) -> None:
    version, _, digest = golden.run(pages.folder, ["--version"]).stdout.splitlines()
    browser.open("peak")
    found = hashes(browser)
    assert [found["library"], found["its SHA-256"]] == [version, digest.removeprefix("sha256 ")]


@pytest.fixture(scope="module")
def packed(pages: Pages) -> dict[str, str]:
    """The SHA-256 of every block file that is packed from both projects."""
    found = {}
    for project in ("demo", "inserted"):
        status, _ = run(pages.folder, "pack", project, "--into", f"{project}-blocks")
        assert status == 0
        for file in (pages.folder / f"{project}-blocks").iterdir():
            found[f"{project}/{file.stem}"] = hashlib.sha256(file.read_bytes()).hexdigest()
    return found


LISTS = {
    "peak": {"corridor": "demo/corridor", "demands": "demo/demands", "plan peak": "demo/plan-peak"},
    "two": {
        "corridor": "demo/corridor",
        "demands": "demo/demands",
        "plan A": "demo/plan-peak",
        "plan B": "demo/plan-tight",
    },
    "apart": {
        "corridor of A": "demo/corridor",
        "corridor of B": "inserted/corridor",
        "demands of A": "demo/demands",
        "demands of B": "inserted/demands",
        "plan A": "demo/plan-peak",
        "plan B": "inserted/plan-peak",
    },
}
"""What the footer of a page calls each list, and the project and the file of it."""


@pytest.mark.parametrize("name", LISTS)
def test_the_footer_has_the_hashes_of_the_block_files(browser: Browser, packed: dict[str, str], name: str) -> None:
    browser.open(name)
    lists = {label: value for label, value in hashes(browser).items() if label not in ("library", "its SHA-256")}
    # Of two plans each has its letter before its name.
    found = {re.sub("^(plan [AB]), .*", r"\1", label): value for label, value in lists.items()}
    assert len(found) == len(lists) and found == {label: packed[file] for label, file in LISTS[name].items()}


# Names


def test_names_are_shown_as_they_are(browser: Browser) -> None:
    """Whatever signs they have: in the title, in the tables, in the footer and at the pointer."""
    browser.open("strange")
    assert browser.text("h1") == f"Road {HOSTILE}: plan plan {HOSTILE}"
    assert browser.driver.title == f"VALID: Road {HOSTILE}: plan plan {HOSTILE}"
    assert f"Mill {HOSTILE} (20)" in [row["ramp"] for row in table(browser, "ramps")]
    assert f"Bridge {HOSTILE} (30)" in [row["node"] for row in table(browser, "settings")]
    assert f"plan plan {HOSTILE}" in hashes(browser)
    assert f"the plan plan {HOSTILE}, word for word" in browser.text("#signature")


def test_a_name_at_the_pointer_is_shown_as_it_is(browser: Browser, pages: Pages) -> None:
    browser.open("strange")
    known = truth(pages.folder, "strange", f"plan {HOSTILE}")
    _, frame = picture(browser, VEHICLES)
    browser.move(*frame.at(*Grid.of(known, VEHICLES).place(3, 2)))
    assert known.label(2) == f"Bridge {HOSTILE} (30)"
    assert_told(browser.words(), 3, 2, known)


def test_no_name_becomes_a_part_of_the_page(browser: Browser) -> None:
    """Nothing of what the names have is an element, and no script of theirs runs, also once they were shown at the pointer."""
    browser.open("strange", again=True)
    _, frame = picture(browser, VEHICLES)
    browser.move(*frame.at(0.5, 0.5))
    assert browser.words() is not None
    assert browser.ask(
        "return [window.taken === undefined, document.querySelectorAll('b, img:not(.map img)').length]"
    ) == [
        True,
        0,
    ]
    assert browser.ask("return document.scripts.length") == 2


# The keyboard


def test_the_arrow_keys_go_from_a_place_to_the_next(browser: Browser, pages: Pages) -> None:
    """From the first place to the right in time, upwards along the road, and no further than the map goes."""
    browser.open("peak", again=True)
    known = truth(pages.folder, "demo", "peak")
    picture(browser, VEHICLES)
    browser.ask("document.querySelector('figure.map').focus({ preventScroll: true })")
    assert browser.ask("return document.activeElement.dataset.map") == "0"
    keys = {"right": Keys.ARROW_RIGHT, "left": Keys.ARROW_LEFT, "up": Keys.ARROW_UP, "down": Keys.ARROW_DOWN}
    # The key, and the state and the node to which it goes.
    there = ["right 0 1", "right 1 1", "up 1 2", "up 1 3", "right 2 3"]
    back = ["left 1 3", "left 0 3", "left 0 3", "down 0 2", "down 0 1", "down 0 1"]
    for key, state, node in map(str.split, there + back):
        browser.press(keys[key])
        assert_told(browser.words(), int(state), int(node), known)
    assert browser.ask("return document.activeElement.dataset.map") == "0"


def test_the_arrow_keys_go_on_from_the_pointer_to_the_end(browser: Browser, pages: Pages) -> None:
    """In the last state of a map of flows there is none, so that the one before is the last place; the last row is on top."""
    browser.open("peak")
    known = truth(pages.folder, "demo", "peak")
    _, frame = picture(browser, FLOW)
    browser.ask("document.querySelectorAll('figure.map')[2].focus({ preventScroll: true })")
    browser.move(*frame.at(*Grid.of(known, FLOW).place(1078, 12)))
    browser.press(Keys.ARROW_RIGHT, Keys.ARROW_RIGHT, Keys.ARROW_RIGHT, Keys.ARROW_UP, Keys.ARROW_UP)
    assert_told(browser.words(), 1079, 13, known)


def test_escape_hides_the_words(browser: Browser) -> None:
    browser.open("peak")
    picture(browser, QUEUE)
    browser.ask("document.querySelectorAll('figure.map')[3].focus({ preventScroll: true })")
    browser.press(Keys.ARROW_RIGHT)
    assert browser.words() is not None
    browser.press(Keys.ESCAPE)
    assert browser.words() is None
    assert browser.ask("return [...document.querySelectorAll('.cell')].every((each) => each.hidden)")


def test_every_map_can_be_reached_by_the_keyboard(browser: Browser) -> None:
    browser.open("two")
    assert browser.ask("return [...document.querySelectorAll('figure.map')].map((each) => each.tabIndex)") == [0] * 12


# On screens and on paper


@pytest.mark.parametrize("screen", [LAPTOP, PHONE, PAPER], ids=["laptop", "phone", "paper"])
@pytest.mark.parametrize("name", ["peak", "window", "strange", "two", "apart"])
def test_nothing_is_wider_than_the_page(browser: Browser, name: str, screen: Screen) -> None:
    browser.open(name, screen)
    wide, shown = browser.ask("return [document.documentElement.scrollWidth, document.documentElement.clientWidth]")
    # A sheet of paper has no bar to scroll it with.
    assert wide <= (screen.width if screen.media else shown)


@pytest.mark.parametrize("screen", [LAPTOP, PHONE], ids=["laptop", "phone"])
@pytest.mark.parametrize("name", ["peak", "two", "apart"])
def test_no_column_of_a_table_is_cut_off(browser: Browser, name: str, screen: Screen) -> None:
    """A time that ends at the edge of a phone reads as another time."""
    browser.open(name, screen)
    script = """
      const hidden = (table) => table.getBoundingClientRect().right - table.parentElement.getBoundingClientRect().right > 1;
      return [...document.querySelectorAll("main table")].filter(hidden).map((table) => table.closest("section").id);
    """
    assert browser.ask(script) == []


@pytest.mark.parametrize("name", ["peak", "two", "apart"])
def test_it_prints_on_sheets_of_a4(browser: Browser, name: str) -> None:
    browser.open(name)
    sheet = base64.b64decode(browser.tell("Page.printToPDF", preferCSSPageSize=True)["data"])
    sizes = re.findall(rb"/MediaBox *\[([^\]]*)\]", sheet)
    assert len(sizes) == len(re.findall(rb"/Type */Page\b", sheet)) >= 2
    for size in sizes:
        assert [float(number) for number in size.split()] == pytest.approx([0, 0, 595.3, 841.9], abs=1)


@pytest.mark.parametrize("name", ["peak", "two", "apart"])
def test_no_map_is_cut_by_the_end_of_a_sheet(browser: Browser, name: str) -> None:
    """Each is to be kept whole, is lower than a sheet, and the wide picture of it is printed."""
    browser.open(name, PAPER)
    script = """
      return [...document.querySelectorAll("figure.map")].map((figure) => [
        getComputedStyle(figure).breakInside, figure.getBoundingClientRect().height,
        [...figure.querySelectorAll("img")].filter((image) => image.offsetWidth > 0).map((image) => image.className)]);
    """
    for kept, high, shown in browser.ask(script):
        assert (kept, shown) == ("avoid", ["wide"])
        assert 100 < high < PAPER.height


def test_what_is_at_the_pointer_is_not_printed(browser: Browser) -> None:
    browser.open("peak")
    _, frame = picture(browser, VEHICLES)
    browser.move(*frame.at(0.5, 0.5))
    assert browser.words() is not None
    browser.open("peak", PAPER._replace(width=LAPTOP.width))
    browser.sweep([frame.at(0.5, 0.5)])
    assert browser.words() is None


def test_the_same_input_gives_the_same_page(pages: Pages) -> None:
    """In another zone, locale and home, in which no fonts were looked through before."""
    assert pages.file("again").read_bytes() == pages.file("peak").read_bytes()
