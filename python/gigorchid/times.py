"""Times of day as people write them, in seconds, exactly; and the clock of a project, from steps to times and back."""

from __future__ import annotations

import re
from dataclasses import dataclass
from fractions import Fraction
from functools import lru_cache

_TIME = re.compile(r"([0-9]{1,3}):([0-5][0-9])(?::([0-5][0-9])(\.[0-9]+)?)?")

EXPECTED_TIME = "a time of day such as 07:30 or 07:30:10"


@lru_cache(maxsize=4096)
def parse_time(text: str) -> Fraction | None:
    """Seconds after midnight, or None where the text is no time. The hours go on past 24."""
    match = _TIME.fullmatch(text.strip())
    if match is None:
        return None
    hours, minutes, seconds, fraction = match.groups()
    return int(hours) * 3600 + int(minutes) * 60 + int(seconds or 0) + Fraction("0" + (fraction or ""))


def format_time(seconds: Fraction) -> str:
    """The time of day of so many seconds after midnight, with decimals only where it has some."""
    whole = int(seconds)
    text = f"{whole // 3600:02d}:{whole // 60 % 60:02d}:{whole % 60:02d}"
    decimals = decimal_text(seconds - whole)
    return text if decimals == "0" else text + decimals[1:]


def decimal_text(value: Fraction) -> str:
    """A number that has finitely many decimals, with all of them."""
    places = 0
    while (value * 10**places).denominator != 1:
        places += 1
    whole, rest = divmod(int(value * 10**places), 10**places)
    return f"{whole}.{rest:0{places}d}" if places else str(whole)


@dataclass(frozen=True)
class Clock:
    """When the states of a project are: state k is k steps after the start."""

    start: Fraction
    step: Fraction
    steps: int

    @lru_cache(maxsize=4096)
    def at(self, state: int) -> str:
        """The time of day of a state, which is also that at which the step of this number starts."""
        return format_time(self.start + state * self.step)

    def states_from_start(self, time: Fraction) -> Fraction:
        """How many steps after the start a time is: a whole number where it lies on the start of a step."""
        return (time - self.start) / self.step

    def neighbours(self, time: Fraction) -> str:
        """The starts of steps before and after a time that lies on none, for a message."""
        before = int(self.states_from_start(time) // 1)
        return f"{self.at(before)} or {self.at(before + 1)}"
