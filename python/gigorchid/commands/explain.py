"""gigorchid explain: a refusal in words."""

from __future__ import annotations

import re

import click

from ..project import Project
from ..refusals import REFUSALS, taken_apart
from .base import Outcome, command as make_command, load_project

STEP, STATE, NODE, BLOCK = "step", "state", "node", "block"

ROWS = {
    **{number: STEP for number in (5, 6, 8, 9, 10, 11, 12)},
    7: STATE,
    **{number: BLOCK for number in (15, 16, 17, 18)},
}
NODES = range(2, 13)

LETTERS = {
    "N": "number of links",
    "K": "number of steps",
    "F": "capacity",
    "V": "full speed",
    "W": "wave speed",
    "J": "jam, vehicles on a full link",
    "C": "ramp capacity",
    "L": "queue limit",
    "n": "vehicles on a link",
    "l": "queue of a ramp",
    "Q": "arrivals",
    "b": "split to the off-ramp",
    "P": "flow that may leave the last link",
    "f": "flow out of a link",
    "r": "flow off a ramp",
    "T(f)": "what of f stays on the mainline",
    "S": "what the next link can take in",
    "rule 6": "what was there, plus what came, less what left",
}
"""The letters of the texts, as docs/MODEL.md has them."""

GIVEN_BY = {
    range(1, 2): "every call",
    range(2, 6): "every call on a corridor and demands",
    range(6, 7): "simulator and normal form",
    range(7, 12): "checker, converter and search",
    range(12, 13): "checker, converter, search and normal form",
    range(13, 14): "checker, converter and search",
    range(14, 19): "readers of block files, and the calls on them",
}

REMEDIES = {
    1: "Look at the number of links (1 to 64) and steps (1 to 1,440), and at the length of each list.",
    2: "Look at the link's capacity, speeds and jam: at most 1,024 vehicles, and at most one section per step.",
    3: "Look at the identifier, the ramp's capacity and its queue limit.",
    4: "Look at what stands on the link and the ramp at the start.",
    5: "Look at arrivals, split and what may leave downstream in that step.",
    6: "Look at the plan's rate and limit in that step: at most the ramp's capacity, at most full speed.",
    7: "A record begins with the corridor's start; what is not there, and every flow of the last state, is zero.",
    8: "The record lets more leave the link than stands on it and can move, or than its capacity.",
    9: "The record lets more into the next link than it can take in.",
    10: "The record lets more off the ramp than waits there, or than its capacity.",
    11: "What stands on the link or the ramp after the step is not what stood there, plus what came, less what left; or an exit is wrong.",
    12: "The queue passes its limit after this step. Raise the rate before it, or look at what blocks the ramp; `gigorchid simulate` shows the rest.",
    13: "Sum all vehicles and queues of states 1 to the last.",
    14: "The file is cut off, has something after its end, or belongs to another number of links or steps.",
    15: "The block was changed after it was written, or damaged.",
    16: "This is a file of another list.",
    17: "Blocks are missing, twice there, or out of order.",
    18: "The last block has words after the list's end.",
}


def _place(number: int, row: int, node: int, project: Project | None) -> list[str]:
    """Row and node of a refusal as they would be named."""
    lines = []
    if number in ROWS:
        what = ROWS[number]
        time = ""
        if project is not None and what != BLOCK:
            after = ", and speaks of the state after it" if number == 12 else ""
            time = (
                f", which starts at {project.clock.at(row)}{after}" if what == STEP else f", at {project.clock.at(row)}"
            )
        lines.append(f"{what} {row:,}{time}")
    if number in NODES:
        known = f", {project.corridor.nodes[node].label}" if project is not None and node <= project.links else ""
        lines.append(f"node {node}{known}")
    return lines


def _legend(text: str) -> str:
    """The letters of a text, each with its meaning."""
    used = [letter for letter in LETTERS if re.search(rf"(?<![\w(]){re.escape(letter)}(?!\w)", text)]
    return "; ".join(f"{letter}: {LETTERS[letter]}" for letter in used)


def _test_place(number: int, row: int, node: int, project: Project) -> None:
    """Refuses a place that the project does not have."""
    most = {STEP: project.steps - 1, STATE: project.steps}.get(ROWS.get(number, ""), row)
    if row > most or (number in NODES and node > project.links):
        raise click.UsageError(
            f"row {row:,}, node {node}: the project has {project.steps:,} steps and nodes 0 to {project.links}"
        )


@make_command("explain", short_help="A refusal in words.")
@click.argument("number", type=click.IntRange(0, 2**32 - 1), metavar="NUMBER")
@click.option("--row", type=click.IntRange(0, 65_535), metavar="ROW", help="The row that came with a refusal number.")
@click.option("--node", type=click.IntRange(0, 255), metavar="NODE", help="The node that came with it.")
@click.option("--project", metavar="PROJECT", help="Name times and nodes as this project does.")
def command(number: int, row: int | None, node: int | None, project: str | None) -> Outcome:
    """Explain a refusal: NUMBER is its number, 1 to 18, or the whole answer of a C call, row × 65,536 + node × 256 + number."""
    refusal, told_row, told_node = taken_apart(number)
    row, node = told_row if row is None else row, told_node if node is None else node
    if refusal == 0 and number == 0:
        return Outcome({"refusal": 0, "text": "accepted"}, ["0: accepted"])
    if refusal not in REFUSALS:
        raise click.UsageError(f"{number}: there is no refusal {refusal}; they are 1 to {max(REFUSALS)}")
    road = load_project(project) if project else None
    placed = number > 255 or row or node or road is not None
    text = REFUSALS[refusal][1]
    given_by = next(who for numbers, who in GIVEN_BY.items() if refusal in numbers)
    if road is not None:
        _test_place(refusal, row, node, road)
    place = _place(refusal, row, node, road) if placed else []
    legend = _legend(text)
    meant = [f"its row is the {ROWS[refusal]}"] if refusal in ROWS and not placed else []
    lines = [
        f"refusal {refusal}: {text}",
        *([f"({legend})"] if legend else []),
        *place,
        f"given by {given_by}",
        *meant,
        REMEDIES[refusal],
    ]
    data = {
        "refusal": refusal,
        "row": row,
        "node": node,
        "text": text,
        "letters": legend,
        "place": place,
        "given_by": given_by,
        "remedy": REMEDIES[refusal],
    }
    return Outcome(data, lines)
