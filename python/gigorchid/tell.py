"""Refusals in people's terms: the cells that a refusal's place came from, and a sentence that says what is wrong there.

Where a place has several words, which of them is at fault is asked of the library itself: with one word changed, does it still refuse there?
"""

from __future__ import annotations

from collections.abc import Callable, Iterable
from fractions import Fraction
from math import ceil, floor
from typing import TYPE_CHECKING, NamedTuple

import numpy as np

from . import calls, layout, probe
from .layout import Words
from .corridor import NO_LIMIT
from .refusals import Refusal
from .sheets import Cell
from .sizes import BLOCK_BYTES, GREATEST_WORD, KINDS, MOST_LINKS, MOST_STEPS, file_bytes, file_kind, list_words
from .units import ONE, SYMBOLS, UNITS_PER_VEHICLE, decimal, factor, tidy, told_apart

if TYPE_CHECKING:
    from .corridor import Corridor
    from .plans import Plan
    from .project import Project
    from .records import Record

Ask = Callable[[Words], object]


class Told(Refusal):
    """A refusal with the cells that it speaks of, what is wrong there, and what else the record shows."""

    def __init__(self, refusal: Refusal, sentence: str, cells: Iterable[Cell | None] = (), rest: Iterable[str] = ()):
        super().__init__(refusal.number, refusal.row, refusal.node, refusal.call, refusal.work)
        self.sentence = sentence
        self.cells = [cell for cell in cells if cell is not None]
        self.rest = list(rest)

    def __str__(self) -> str:
        place = f"{self.cells[0].place}: " if self.cells else ""
        return f"{place}{self.sentence} [refusal {self.number}]"

    def __reduce__(self) -> tuple[object, ...]:
        plain = Refusal(self.number, self.row, self.node, self.call, self.work)
        return (Told, (plain, self.sentence, self.cells, self.rest))

    def as_json(self) -> dict[str, object]:
        """The refusal as commands print it with --json."""
        return {
            "refusal": self.number,
            "row": self.row,
            "node": self.node,
            "text": self.text,
            "call": self.call,
            "told": self.sentence,
            "cells": [cell.as_json() for cell in self.cells],
            "rest": self.rest,
        }


def of_plan(refusal: Refusal, project: Project, plan: Plan) -> Told:
    """A refusal of a call that was given a plan."""
    if refusal.number == 6:
        return _bounds(refusal, project, plan)
    if refusal.number == 12:
        return _overflow_of_plan(refusal, project, plan)
    return _of_lists(refusal, project)


def of_record(refusal: Refusal, project: Project, record: Record) -> Told:
    """A refusal of a call that was given a record."""
    if refusal.number <= 5:
        return _of_lists(refusal, project)
    return _RECORD[refusal.number](refusal, project, record)


_ARTICLES = {"corridor": "a corridor", "demands": "demands", "record": "a record", "plan": "a plan"}


def of_file(refusal: Refusal, file: str, place: str, content: bytes, links: int, steps: int) -> Told:
    """A refusal of a reader of block files."""
    block = f"block {refusal.row}, bytes {refusal.row * BLOCK_BYTES:,} to {(refusal.row + 1) * BLOCK_BYTES - 1:,},"
    kinds = str(file_kind(place, content)) if refusal.row else " or ".join(map(str, KINDS[place]))
    found = _first_word(content[refusal.row * BLOCK_BYTES :])
    most = f"a file has 1 to {MOST_LINKS} links and 1 to {MOST_STEPS:,} steps, and its own"
    sentences = {
        1: f"{links:,} links and {steps:,} steps: {most}",
        14: _wrong_length(place, content, links, steps),
        15: f"{block} has a wrong check word: it was changed after it was written",
        16: f"{block} is of kind {found:,}: expected {kinds}, {_ARTICLES[place]}",
        17: f"{block} has the number of another block",
        18: f"{block} has words after the end of the list that are not zero",
    }
    return Told(refusal, sentences[refusal.number], [Cell(file)])


def _first_word(content: bytes) -> int:
    return int.from_bytes(content[:4], "little")


def _wrong_length(place: str, content: bytes, links: int, steps: int) -> str:
    """14: how many bytes there are and should be, and whether the file begins as one of another list."""
    wanted = file_bytes(list_words(place, file_kind(place, content), links, steps)) or 0
    other = next((name for name, kinds in KINDS.items() if _first_word(content) in kinds and name != place), None)
    begins = f"; it begins as a file of {_ARTICLES[other]} does" if other else ""
    return f"{len(content):,} bytes: expected {wanted:,}, of {_ARTICLES[place]} of {links} links and {steps:,} steps{begins}"


# ---- words in people's units ----


def vehicles(word: int) -> Fraction:
    """A count of vehicles."""
    return Fraction(word, UNITS_PER_VEHICLE)


def _per_hour(word: int, project: Project) -> str:
    return f"{tidy(decimal(word / factor('vph', project.clock.step), 1))} veh/h"


def _given(cell: Cell | None, word: int) -> str:
    """What was written in a cell, with its unit."""
    if cell is None or not cell.text:
        return f"{word:,} units"
    ending = cell.column.rpartition("_")[2]
    return f"{cell.text} {SYMBOLS[ending]}" if ending in SYMBOLS else cell.text


# ---- which word of a place is at fault ----


def _refuses(ask: Ask, words: Words, refusal: Refusal) -> bool:
    """Whether the library, asked again, refuses by the same number at the same place."""
    try:
        ask(words)
    except Refusal as again:
        return again.answer == refusal.answer
    return False


class Suspect(NamedTuple):
    """Places of a list that one cell says, and a word that is never at fault there."""

    places: list[int]
    sound: int


def _at_fault(refusal: Refusal, words: Words, suspects: list[Suspect], ask: Ask) -> list[int]:
    """Which of the suspects are at fault: a sound word in the place of one alone ends the refusal; or, where several are
    at fault, the refusal stays while all the others have sound words."""

    def stays(changed: list[Suspect]) -> bool:
        other = words.copy()
        for suspect in changed:
            other[suspect.places] = suspect.sound
        return _refuses(ask, other, refusal)

    numbered = range(len(suspects))
    alone = [each for each in numbered if not stays([suspects[each]])]
    several = [each for each in numbered if stays(suspects[:each] + suspects[each + 1 :])]
    return alone or several or list(numbered)


# ---- refusals 1 to 5: corridor and demands ----


def _of_lists(refusal: Refusal, project: Project) -> Told:
    return _LISTS[refusal.number](refusal, project)


def _closed_plan(project: Project) -> Words:
    """Rate and limit zero everywhere: within bounds whatever the corridor."""
    return np.zeros(2 * project.steps * (project.links + 1), dtype=np.uint32)


def _ask_corridor(project: Project) -> Ask:
    return lambda words: calls.simulate_words(words, project.demands.words, _closed_plan(project))


def _ask_demands(project: Project) -> Ask:
    return lambda words: calls.simulate_words(project.corridor.words, words, _closed_plan(project))


def _sizes(refusal: Refusal, project: Project) -> Told:
    """1: N or K of the project; else what was given beside it, a step, a node, or a list of another project."""
    one_step = np.concatenate([[1], np.zeros(2 * (project.links + 1))]).astype(np.uint32)
    plan = np.zeros(2 * (project.links + 1), dtype=np.uint32)
    if _refuses(lambda words: calls.simulate_words(words, one_step, plan), project.corridor.words, refusal):
        wrong = f"the row of node {project.links}, so {project.links} links: a corridor has 1 to {MOST_LINKS}"
        return Told(refusal, wrong, [project.corridor.nodes[-1].cell])
    if _refuses(_ask_demands(project), project.demands.words, refusal):
        wrong = f"{project.steps:,} steps: a project has 1 to {MOST_STEPS:,}"
        return Told(refusal, wrong, [project.steps_cell])
    wrong = f"a step that is not below {project.steps:,}, a node above {project.links}, or a plan or record of another project"
    return Told(refusal, wrong)


def _node_fault(refusal: Refusal, project: Project, sound: dict[int, int]) -> list[int]:
    """The places within a node of the words that are at fault there, told a sound word for each.

    What a link that does not drop repeats, of its capacity and its jam, goes with the word itself.
    """
    corridor, node = project.corridor, refusal.node
    places = [place for place in sound if _has_cell(corridor, node, place)]
    copies = {layout.CAPACITY: layout.DROPPED_CAPACITY, layout.JAM: layout.DROP_DENSITY}
    if corridor.kind == 1 or layout.DROPPED_CAPACITY in places:
        copies = {}
    base = 1 + node * corridor.width
    suspects = [
        Suspect([base + place] + ([base + copies[place]] if place in copies else []), sound[place]) for place in places
    ]
    return [places[each] for each in _at_fault(refusal, corridor.words, suspects, _ask_corridor(project))]


def _has_cell(corridor: Corridor, node: int, place: int) -> bool:
    """Whether a cell says the word, which a blank one of the drop does not."""
    cell = corridor.cell(node, place)
    return cell is not None and (place < layout.DROPPED_CAPACITY or cell.text != "")


def _link(refusal: Refusal, project: Project) -> Told:
    """2: a link's words."""
    corridor, node = project.corridor, refusal.node
    sound = {layout.CAPACITY: ONE, layout.FULL_SPEED: ONE, layout.WAVE_SPEED: ONE, layout.JAM: ONE}
    sound |= {layout.DROPPED_CAPACITY: 0, layout.DROP_DENSITY: 0}
    fault = _node_fault(refusal, project, sound if node else dict.fromkeys(sound, 0))
    speeds = [place for place in fault if place in (layout.FULL_SPEED, layout.WAVE_SPEED)]
    worst = max(speeds, key=lambda place: corridor.word(node, place)) if speeds else fault[-1]
    places = [worst] + [place for place in fault if place != worst]
    return Told(refusal, _link_sentence(project, node, worst), [corridor.cell(node, place) for place in places])


def _link_sentence(project: Project, node: int, place: int) -> str:
    corridor = project.corridor
    word, cell = corridor.word(node, place), corridor.cell(node, place)
    given, label = _given(cell, word), corridor.nodes[node].label
    if node == 0:
        return f"{given} at {label}: the first row is the entry, where no link ends; leave it blank"
    if word == 0:
        return f"{given} on the link to {label}: a link needs more than that, at least one unit"
    if place in (layout.FULL_SPEED, layout.WAVE_SPEED):
        return _too_fast(project, node, place, given)
    if place == layout.DROPPED_CAPACITY:
        return f"the dropped capacity {given} on the link to {label} is above its capacity"
    if place == layout.DROP_DENSITY:
        return f"the drop density {given} on the link to {label} is above its jam density"
    held = tidy(decimal(vehicles(word), 1))
    if place == layout.JAM:
        parts = ceil(Fraction(word, ONE))
        return f"{given} on the link to {label}: it would hold {held} vehicles, and may hold 1,024; cut it into {parts}"
    return f"{given} on the link to {label}: {held} vehicles per step, and it may be 1,024; take shorter steps"


def _too_fast(project: Project, node: int, place: int, given: str) -> str:
    """A speed above a section per step, from the figure that was given, and what would make it fit."""
    known, step = project.corridor.nodes[node], project.clock.step
    cell = project.corridor.cell(node, place)
    ending = cell.column.rpartition("_")[2] if cell else "units"
    figure = Fraction(cell.text) if cell else Fraction(project.corridor.word(node, place))
    sections = figure * factor(ending, step, known.length) / ONE
    remedy = f"take steps of at most {floor(step / sections * 100) / 100:g} s"
    if known.length is not None:
        remedy += f" or a link of at least {ceil(known.length * sections):,} m"
    times, _ = told_apart(sections, Fraction(1), 2)
    return f"{given} on the link to {known.label} is {times} sections per step, more than a section per step: {remedy}"


def _ramp(refusal: Refusal, project: Project) -> Told:
    """3: identifier, ramp capacity and queue limit."""
    corridor, node = project.corridor, refusal.node
    used = {each.identifier for each in corridor.nodes}
    unused = next(number for number in range(1, len(used) + 2) if number not in used)
    fault = _node_fault(refusal, project, {layout.IDENTIFIER: unused, layout.RAMP_CAPACITY: 0, layout.QUEUE_LIMIT: 0})
    return Told(refusal, _ramp_sentence(project, node, fault[0]), [corridor.cell(node, place) for place in fault])


def _ramp_sentence(project: Project, node: int, place: int) -> str:
    corridor = project.corridor
    word, cell = corridor.word(node, place), corridor.cell(node, place)
    given, label = _given(cell, word), corridor.nodes[node].label
    if place == layout.IDENTIFIER:
        earlier = next(each for each in corridor.nodes if each.identifier == word)
        return "the identifier is 0" if word == 0 else f"the identifier {word} is that of line {earlier.cell.line} too"
    if node == corridor.links:
        return f"{given} at {label}: the last row is the corridor's end, where there is no ramp; leave it blank"
    if place == layout.RAMP_CAPACITY:
        return f"the ramp capacity {given} at {label} is {tidy(decimal(vehicles(word), 1))} vehicles per step, and may be 1,024"
    return f"the queue limit {given} at {label}: at most {NO_LIMIT // UNITS_PER_VEHICLE:,} vehicles, or none"


def _start(refusal: Refusal, project: Project) -> Told:
    """4: what stands on link and ramp at the start."""
    corridor, node = project.corridor, refusal.node
    fault = _node_fault(refusal, project, {layout.START_VEHICLES: 0, layout.START_QUEUE: 0})
    place = fault[0]
    most_at = layout.JAM if place == layout.START_VEHICLES else layout.QUEUE_LIMIT
    start, most = told_apart(vehicles(corridor.word(node, place)), vehicles(corridor.word(node, most_at)))
    label = corridor.nodes[node].label
    if place == layout.START_VEHICLES and node == 0:
        sentence = f"{start} vehicles at {label}: the first row is the entry, where no link ends; leave it blank"
    elif place == layout.START_QUEUE and node == corridor.links:
        sentence = f"a queue of {start} vehicles at {label}: the last row has no ramp; leave it blank"
    elif place == layout.START_VEHICLES:
        sentence = f"the link to {label} starts with {start} vehicles, and holds {most}"
    else:
        sentence = f"the queue of {label} starts with {start} vehicles, and its limit is {most}"
    return Told(refusal, sentence, [corridor.cell(node, place) for place in fault])


def _demand(refusal: Refusal, project: Project) -> Told:
    """5: arrivals, split and what may leave downstream."""
    step, node, demands = refusal.row, refusal.node, project.demands
    base = 1 + 2 * (step * (project.links + 1) + node)
    places = [base, base + 1]
    if demands.downstream is not None and node == project.links:
        places.append(1 + 2 * project.steps * (project.links + 1) + step)
    suspects = [Suspect([place], 0) for place in places]
    fault = places[_at_fault(refusal, demands.words, suspects, _ask_demands(project))[0]]
    word, label, time = int(demands.words[fault]), project.corridor.nodes[node].label, project.clock.at(step)
    if fault == base:
        cell, what = demands.cell(step, node, layout.ARRIVALS), f"arrivals at {label}"
        fixed = "nobody arrives at the last node, which has no ramp"
    elif fault == base + 1:
        cell, what = demands.cell(step, node, layout.SPLIT), f"the split at {label}"
        fixed = (
            "nobody leaves at the entry" if node == 0 else "what leaves the last link is all gone: it has no off-ramp"
        )
    else:
        cell, what, fixed = demands.downstream_cell(step), f"what may leave {label}", ""
    given = f"at {time} {what}: {_given(cell, word)}"
    if word <= ONE or (fault <= base + 1 and node == project.links) or (fault == base + 1 and node == 0):
        return Told(refusal, f"{given}; {fixed}", [cell])
    most = "100 %" if fault == base + 1 else "1,024 vehicles per step"
    return Told(refusal, f"{given} is {word:,} units, and may be 65,536, {most}", [cell])


_LISTS: dict[int, Callable[[Refusal, Project], Told]] = {1: _sizes, 2: _link, 3: _ramp, 4: _start, 5: _demand}


# ---- refusals of a plan ----


def _bounds(refusal: Refusal, project: Project, plan: Plan) -> Told:
    """6: a rate above the ramp's capacity, or a limit above full speed."""
    step, node = refusal.row, refusal.node
    base = 2 * (step * (project.links + 1) + node)
    suspects = [Suspect([base + place], 0) for place in (layout.RATE, layout.LIMIT)]
    place = _at_fault(refusal, plan.words, suspects, _ask_plan(project))[0]
    label, time, word = project.corridor.nodes[node].label, project.clock.at(step), int(plan.words[base + place])
    if place == layout.RATE and not project.corridor.word(node, layout.RAMP_CAPACITY):
        sentence = f"at {time} a rate at {label}: it has no on-ramp to meter"
    elif place == layout.RATE:
        rate, most = _both(word, project.corridor.word(node, layout.RAMP_CAPACITY), factor("vph", project.clock.step))
        sentence = f"at {time} the rate of {label} is {rate} veh/h, and its ramp's capacity {most} veh/h"
    elif node == 0:
        sentence = f"at {time} a limit at {label}: the entry has no link to post it on"
    else:
        limit, most = _both_speeds(word, node, project, plan.cell(step, node, place))
        sentence = f"at {time} the limit on the link to {label} is {limit}, and its full speed {most}"
    return Told(refusal, sentence, [plan.cell(step, node, place)])


def _ask_plan(project: Project) -> Ask:
    return lambda words: calls.simulate_words(project.corridor.words, project.demands.words, words)


def _both(one: int, other: int, scale: Fraction) -> tuple[str, str]:
    """Two words in the unit of which one is so many words, with decimals enough to tell them apart."""
    return told_apart(one / scale, other / scale)


def _both_speeds(limit: int, node: int, project: Project, cell: Cell | None) -> tuple[str, str]:
    """A limit and the full speed of its link, in the unit in which the limit was given."""
    full, length = project.corridor.word(node, layout.FULL_SPEED), project.corridor.nodes[node].length
    if length is None:
        return f"{limit:,} units", f"{full:,} units"
    given = cell.column.rpartition("_")[2] if cell is not None else ""
    ending = given if given in ("kmh", "mph") else project.corridor.speeds
    first, second = _both(limit, full, factor(ending, project.clock.step, length))
    return f"{first} {SYMBOLS[ending]}", f"{second} {SYMBOLS[ending]}"


def _overflow_of_plan(refusal: Refusal, project: Project, plan: Plan) -> Told:
    """12 of a plan: the first queue that passes its limit, the row that meters the ramp, and the rest as the record shows them."""
    queues = layout.record_states(refusal.work, project.links, project.steps)[:, :, layout.QUEUE]
    sentence = _overflow(refusal, project, int(queues[refusal.row + 1, refusal.node]))
    cell = project.corridor.cell(refusal.node, layout.QUEUE_LIMIT)
    if not project.corridor.word(refusal.node, layout.RAMP_CAPACITY):
        sentence += "; there is no ramp capacity there"
    elif _passes_unmetered(refusal, project, plan):
        sentence += "; it does so unmetered too, held up by the mainline or by its own capacity"
    else:
        steps = range(refusal.row, -1, -1)
        said = (plan.cell(step, refusal.node, layout.RATE) for step in steps)
        cell = next((each for each in said if each is not None), cell)
    return Told(refusal, sentence, [cell], overflows(queues, project))


def _passes_unmetered(refusal: Refusal, project: Project, plan: Plan) -> bool:
    """Whether the queue passes its limit then also with the ramp at its capacity all along, the rest of the plan as it is."""
    words = plan.words.copy()
    capacity = project.corridor.word(refusal.node, layout.RAMP_CAPACITY)
    layout.plan_steps(words, project.links, project.steps)[:, refusal.node, layout.RATE] = capacity
    record = calls.simulate_words(project.corridor.words, project.demands.words, words)
    queue = layout.record_states(record, project.links, project.steps)[refusal.row + 1, refusal.node, layout.QUEUE]
    return int(queue) > project.corridor.word(refusal.node, layout.QUEUE_LIMIT)


def _overflow(refusal: Refusal, project: Project, queue: int) -> str:
    limit = project.corridor.word(refusal.node, layout.QUEUE_LIMIT)
    reached, most = told_apart(vehicles(queue), vehicles(limit))
    time, label = project.clock.at(refusal.row + 1), project.corridor.nodes[refusal.node].label
    return f"at {time} the queue of {label} reaches {reached} vehicles, and its limit is {most}"


def overflows(queues: Words, project: Project) -> list[str]:
    """A sentence for each ramp whose queue passes its limit: when first and last, and the most."""
    told = []
    for node, known in enumerate(project.corridor.nodes):
        limit = project.corridor.word(node, layout.QUEUE_LIMIT)
        above = np.flatnonzero(queues[:, node] > limit)
        if len(above):
            most = int(queues[:, node].argmax())
            reached, allowed = told_apart(vehicles(int(queues[most, node])), vehicles(limit))
            first, last, when = (project.clock.at(int(state)) for state in (above[0], above[-1], most))
            breaks = ", with breaks" if above[-1] - above[0] >= len(above) else ""
            told.append(
                f"{known.label}: above its limit of {allowed} vehicles from {first} to {last}{breaks}; "
                f"most {reached} at {when}"
            )
    return told


# ---- refusals of a record ----


def _ask_record(project: Project) -> Ask:
    return lambda words: calls.check_words(project.corridor.words, project.demands.words, words)


def _faulty_words(refusal: Refusal, project: Project, record: Record, sound: dict[int, int]) -> list[int]:
    """The places within a node's words in state `row` that are at fault, told a sound word for each."""
    _, nodes, width = record.states.shape
    base = (refusal.row * nodes + refusal.node) * width
    places = [place for place in sound if place < width]
    suspects = [Suspect([base + place], sound[place]) for place in places]
    return [places[each] for each in _at_fault(refusal, record.words, suspects, _ask_record(project))]


_WHAT = (
    "the count of vehicles on the link to",
    "the queue of",
    "the flow out of the link to",
    "the ramp flow of",
    "the exit flow at",
)
"""The words of a node in a record, before the node's name."""


def _fixed(refusal: Refusal, project: Project, record: Record) -> Told:
    """7: a start that is not the corridor's, or a word that is fixed at zero."""
    state, node = refusal.row, refusal.node
    starts = {
        layout.VEHICLES: project.corridor.word(node, layout.START_VEHICLES),
        layout.QUEUE: project.corridor.word(node, layout.START_QUEUE),
    }
    zeros = dict.fromkeys(range(layout.EXIT_FLOW + 1), 0)
    fault = _faulty_words(refusal, project, record, zeros | starts if state == 0 else zeros)
    place = fault[0]
    word, label = int(record.states[state, node, place]), project.corridor.nodes[node].label
    time = project.clock.at(state)
    given = f"at {time} {_WHAT[place]} {label} is {word:,} units"
    if state == 0 and place in starts:
        sentence = f"{given}, and the corridor starts with {starts[place]:,}"
    else:
        sentence = f"{given}, and is fixed at zero there"
    return Told(refusal, sentence, [record.cell(state, node, place) for place in fault])


def _flow_at(refusal: Refusal, project: Project, record: Record, place: int) -> str:
    """A flow of the place that is refused, in units and vehicles per hour."""
    word = int(record.states[refusal.row, refusal.node, place])
    return f"{word:,} units ({_per_hour(word, project)})"


def _sending(refusal: Refusal, project: Project, record: Record) -> Told:
    """8: more than the link can send."""
    step, node = refusal.row, refusal.node
    flow, label = _flow_at(refusal, project, record, layout.FLOW), project.corridor.nodes[node].label
    most = probe.sends(project, record, step, node)
    on_link = tidy(decimal(vehicles(int(record.vehicles[step, node])), 1))
    time = project.clock.at(step)
    sentence = f"at {time} {flow} leave the link to {label}, and with {on_link} vehicles on it {most:,} can"
    return Told(refusal, sentence, [record.cell(step, node, layout.FLOW)])


def _merge(refusal: Refusal, project: Project, record: Record) -> Told:
    """9: more than the next link can take in."""
    step, node = refusal.row, refusal.node
    fault = _faulty_words(refusal, project, record, {layout.FLOW: 0, layout.RAMP_FLOW: 0})
    flow, ramp = (_flow_at(refusal, project, record, place) for place in (layout.FLOW, layout.RAMP_FLOW))
    time, label = project.clock.at(step), project.corridor.nodes[node].label
    if node == project.links:
        sentence = f"at {time} {flow} leave the last link, more than may leave it downstream"
    else:
        most, after = probe.takes_in(project, record, step, node), project.corridor.nodes[node + 1].label
        sentence = (
            f"at {time} {flow} of the mainline, less what exits, and {ramp} of the ramp of {label} are more than the "
            f"{most:,} that the link to {after} can take in"
        )
    return Told(refusal, sentence, [record.cell(step, node, place) for place in fault])


def _ramp_flow(refusal: Refusal, project: Project, record: Record) -> Told:
    """10: more than waits, or than the ramp can pass."""
    flow, label = _flow_at(refusal, project, record, layout.RAMP_FLOW), project.corridor.nodes[refusal.node].label
    queue = int(record.queues[refusal.row, refusal.node])
    most = project.corridor.word(refusal.node, layout.RAMP_CAPACITY)
    time = project.clock.at(refusal.row)
    sentence = f"at {time} {flow} leave the ramp of {label}, where {queue:,} units wait and {most:,} may pass"
    return Told(refusal, sentence, [record.cell(refusal.row, refusal.node, layout.RAMP_FLOW)])


def _next_state(refusal: Refusal, project: Project, record: Record) -> Told:
    """11: an exit, or vehicles or queue of the next state, each beside what the library makes of the flows."""
    step, node = refusal.row, refusal.node
    label = project.corridor.nodes[node].label
    wanted = [(step, layout.EXIT_FLOW, probe.exits)] if record.kind == 7 and 0 < node < project.links else []
    wanted += [(step + 1, layout.VEHICLES, probe.next_vehicles)] if node > 0 else []
    wanted += [(step + 1, layout.QUEUE, probe.next_queue)] if node < project.links else []
    sentences, cells = [], []
    for state, place, right in wanted:
        found, expected = int(record.states[state, node, place]), right(project, record, step, node)
        if found != expected:
            made = f"the flows from {project.clock.at(step)} on make it {expected:,}"
            sentences.append(f"at {project.clock.at(state)} {_WHAT[place]} {label} is {found:,} units, and {made}")
            cells.append(record.cell(state, node, place))
    return Told(refusal, "; ".join(sentences) or refusal.text, cells)


def _overflow_of_record(refusal: Refusal, project: Project, record: Record) -> Told:
    """12 of a record: a queue above its limit."""
    queue = int(record.states[refusal.row + 1, refusal.node, layout.QUEUE])
    cell = record.cell(refusal.row + 1, refusal.node, layout.QUEUE)
    return Told(refusal, _overflow(refusal, project, queue), [cell], overflows(record.queues, project))


def _cost(refusal: Refusal, project: Project, record: Record) -> Told:
    """13: a wrong cost, beside the one that the library accepts."""
    total = int(record.vehicles[1:].sum(dtype=np.uint64)) + int(record.queues[1:].sum(dtype=np.uint64))
    words = record.words.copy()
    words[-2:] = total & GREATEST_WORD, total >> 32
    accepted = f", and the library accepts {total:,}" if not _refuses(_ask_record(project), words, refusal) else ""
    return Told(refusal, f"the cost is {record.cost:,}{accepted}", [record.cost_cell])


_RECORD: dict[int, Callable[[Refusal, Project, Record], Told]] = {
    7: _fixed,
    8: _sending,
    9: _merge,
    10: _ramp_flow,
    11: _next_state,
    12: _overflow_of_record,
    13: _cost,
}
