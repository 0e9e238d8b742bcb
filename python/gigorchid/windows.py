"""The part of a record that is shown: from one time of day until another, and from one link to another."""

from __future__ import annotations

from fractions import Fraction
from typing import NamedTuple

from .corridor import Corridor
from .records import Record
from .times import EXPECTED_TIME, Clock, parse_time

BETWEEN = ".."
"""What stands between the first and the last of the links."""


class WrongWindow(ValueError):
    """A window that the record does not have; the text says what was expected."""

    def __init__(self, option: str, given: str, wrong: str):
        self.option = option
        """Which of from, until and links it is."""
        super().__init__(f"{given}: {wrong}")


class Window(NamedTuple):
    """The states `first` to `last`, and the links `first_link` to `last_link`, all of them among what is shown.

    A link has the number of the node at which it ends.
    """

    first: int
    last: int
    first_link: int
    last_link: int

    @classmethod
    def whole(cls, record: Record) -> Window:
        """All of a record."""
        return cls(0, record.clock.steps, 1, record.corridor.links)

    @classmethod
    def of(cls, record: Record, start: str | None = None, until: str | None = None, links: str | None = None) -> Window:
        """The states from one time of day until before another, and the links FIRST..LAST by the nodes at which they end, by identifier or name.

        What is left out is not cut: without an end the last state is shown too.
        """
        whole, clock = cls.whole(record), record.clock
        first = whole.first if start is None else _state(clock, start, "from")
        last = whole.last if until is None else _state(clock, until, "until") - 1
        if last < first:
            after = clock.at(0 if start is None else first)
            raise WrongWindow("until", str(until), f"expected a time after {after}")
        ends = (whole.first_link, whole.last_link) if links is None else _links(record.corridor, links)
        return cls(first, last, *ends)

    @property
    def nodes(self) -> range:
        """The nodes at the ends of the links: the one before the first, and each at which a link ends."""
        return range(self.first_link - 1, self.last_link + 1)


def _state(clock: Clock, text: str, option: str) -> int:
    """The state at a time of day, which must be the start of a step or the end of the last."""
    time = parse_time(text)
    if time is None:
        raise WrongWindow(option, text, f"expected {EXPECTED_TIME}")
    state = clock.states_from_start(time)
    if not 0 <= state <= clock.steps:
        raise WrongWindow(option, text, f"expected a time from {clock.at(0)} to {clock.at(clock.steps)}")
    if state.denominator != 1:
        raise WrongWindow(option, text, f"no step starts then: expected {clock.neighbours(time)}")
    return int(state)


def _links(corridor: Corridor, text: str) -> tuple[int, int]:
    """The first and the last of the links that a text names."""
    first, between, last = text.partition(BETWEEN)
    ends = _link(corridor, first, text), _link(corridor, last if between else first, text)
    if ends[0] > ends[1]:
        raise WrongWindow(
            "links", text, f"{last.strip()} comes before {first.strip()} on the road: expected them in its order"
        )
    return ends


def _link(corridor: Corridor, text: str, whole: str) -> int:
    """The link that ends at the node of an identifier or a name."""
    wanted = text.strip()
    found = [place for place, node in enumerate(corridor.nodes) if wanted == str(node.identifier)]
    found = found or [place for place, node in enumerate(corridor.nodes) if wanted and wanted == node.name]
    if len(found) == 1 and found[0] > 0:
        return found[0]
    if found == [0]:
        raise WrongWindow("links", whole, f"no link ends at the entry, {wanted}")
    if len(found) > 1:
        raise WrongWindow("links", whole, f"{len(found)} nodes are called {wanted}: expected an identifier")
    known = ", ".join(node.label for node in corridor.nodes[1:])
    raise WrongWindow("links", whole, f"no link ends at {wanted or 'nothing'}: expected FIRST{BETWEEN}LAST of {known}")


def kilometres(corridor: Corridor) -> list[Fraction] | None:
    """Where each node is, in kilometres from the entry; None where the length of a link is missing."""
    places = [Fraction(0)]
    for node in corridor.nodes[1:]:
        if node.length is None:
            return None
        places.append(places[-1] + node.length / 1000)
    return places
