"""What a command and a page both say of a record and of a plan, in words and figures for people."""

from __future__ import annotations

from fractions import Fraction

from . import layout
from .corridor import NO_LIMIT
from .figures import MARK, NOT_PROVED, greatest_queues, slowest, travel, waiting_hours
from .plans import Plan, runs
from .records import Record
from .tell import vehicles
from .units import KILOMETRES_PER_MILE, SYMBOLS, decimal, factor, nearest, tidy

QUEUE_COLUMNS = ["ramp", f"longest, veh {MARK}", "limit, veh", f"share {MARK}", f"at {MARK}", f"hours {MARK}"]
POSTED_COLUMNS = ["node", "from", "until", "rate, veh/h", "limit"]


def queue_rows(record: Record) -> list[list[str]]:
    """The longest queue of each ramp beside its limit."""
    rows = []
    for most in greatest_queues(record):
        limit = "none" if most.limit == NO_LIMIT else tidy(decimal(vehicles(most.limit), 1))
        share = (
            ""
            if most.limit == NO_LIMIT or not most.limit
            else f"{decimal(Fraction(100 * most.queue, most.limit), 0)} %"
        )
        hours = decimal(waiting_hours(record, most.node), 1)
        label, time = record.corridor.nodes[most.node].label, record.clock.at(most.state)
        rows.append([label, decimal(vehicles(most.queue), 1), limit, share, time, hours])
    return rows


def travel_lines(record: Record) -> list[str]:
    """Cost, and the figures that are not proved."""
    sums = travel(record)
    total, on_links = (nearest(hours * 10) for hours in (sums.hours, sums.hours_on_links))
    parts = [decimal(Fraction(tenths, 10), 1) for tenths in (total, on_links, total - on_links)]
    lines = [
        f"cost: {record.cost:,} (1/64 vehicle times steps)",
        f"vehicle hours {MARK}: {parts[0]}, of them {parts[1]} on links and {parts[2]} in queues",
    ]
    per, unit = (KILOMETRES_PER_MILE, "miles") if record.corridor.speeds == "mph" else (Fraction(1), "kilometres")
    symbol = SYMBOLS[record.corridor.speeds]
    if sums.kilometres is not None and sums.mean_speed is not None:
        distance, speed = decimal(sums.kilometres / per, 0), decimal(sums.mean_speed / per, 1)
        lines.append(f"vehicle {unit} {MARK}: {distance}; mean speed on links {MARK}: {speed} {symbol}")
    slow = slowest(record)
    if slow is not None:
        where, when = record.corridor.nodes[slow.node].label, record.clock.at(slow.state)
        lines.append(f"slowest {MARK}: {decimal(slow.speed, 1)} {symbol} on the link to {where} at {when}")
    return lines + [NOT_PROVED]


def per_hour(word: int, plan: Plan) -> str:
    """A rate in vehicles per hour."""
    return tidy(decimal(word / factor("vph", plan.clock.step), 1))


def limit_text(word: int, node: int, plan: Plan) -> str:
    """A limit in the unit of speeds, or in units where the link's length is not known."""
    return plan.corridor.speed_text(word, node, plan.clock.step)


def posted_rows(plan: Plan) -> list[list[str]]:
    """What a plan sets other than full speed at the ramp's capacity: a row for each run of steps in which a node's setting stays the same."""
    rows = []
    for node in range(plan.corridor.links + 1):
        places = (layout.RAMP_CAPACITY, layout.FULL_SPEED)
        capacity, full = (plan.corridor.word(node, place) for place in places)
        for start, end in runs(plan.settings[:, node]):
            rate, limit = plan.settings[start, node].tolist()
            if (rate, limit) != (capacity, full):
                said = [
                    per_hour(rate, plan) if rate != capacity else "",
                    limit_text(limit, node, plan) if limit != full else "",
                ]
                rows.append([plan.corridor.nodes[node].label, plan.clock.at(start), plan.clock.at(end), *said])
    return rows
