"""Projects and block files: the lists of a project written as files, and files read back into the tables of a project."""

from __future__ import annotations

import json
import re
from collections.abc import Mapping
from fractions import Fraction
from pathlib import Path
from typing import NamedTuple

from . import calls, layout, tell
from .layout import Words
from .corridor import Corridor, Node, write_corridor
from .demands import write_demands
from .plans import Plan, PlanSource, write_plan
from .project import Project
from .records import record_of_blocks, write_record
from .refusals import Refusal
from .sheets import Cell, Fault
from .sizes import KINDS
from .times import Clock, decimal_text

PLACES = {kind: place for place, kinds in KINDS.items() for kind in kinds}
"""Which list a file of each kind holds."""

READERS = {
    "corridor": calls.read_corridor,
    "demands": calls.read_demands,
    "record": calls.read_record,
    "plan": calls.read_plan,
}


class BlockFile(NamedTuple):
    """A block file and what it says of itself."""

    name: str
    place: str
    content: bytes

    @property
    def opening(self) -> int:
        """The first word of its list: N of a corridor, K of demands."""
        return int.from_bytes(self.content[8:12], "little")


def load(path: Path) -> BlockFile:
    """A block file, with the list that its first word tells, or else the one after which it is named."""
    content = path.read_bytes()
    kind = int.from_bytes(content[:4], "little") if len(content) >= 4 else 0
    named = next((place for place in KINDS if path.stem.startswith(place)), None)
    if kind not in PLACES and named is None:
        known = ", ".join(f"{number} ({place})" for number, place in sorted(PLACES.items()))
        raise Fault(Cell(str(path)), f"its first word is {kind:,}: expected a block file, of kind {known}")
    return BlockFile(str(path), PLACES.get(kind) or str(named), content)


def _the_one(files: list[BlockFile], place: str) -> BlockFile:
    """The one file of a corridor or of demands: where none says so, the one that is named so, which its reader will refuse."""
    found = [file for file in files if file.place == place]
    found = found or [file._replace(place=place) for file in files if Path(file.name).stem.startswith(place)]
    if len(found) != 1:
        given = ", ".join(f"{file.name} ({file.place})" for file in files)
        raise ValueError(f"{len(found) or 'no'} files of the {place} among {given}: one is wanted")
    return found[0]


def words_of(file: BlockFile, links: int, steps: int) -> Words:
    """The words of a block file, by the proved reader."""
    try:
        return READERS[file.place](links, steps, file.content)
    except Refusal as refusal:
        raise tell.of_file(refusal, file.name, file.place, file.content, links, steps) from None


def packed(project: Project) -> dict[str, bytes]:
    """The block files of a project: corridor, demands and every plan, by the proved writers."""
    told = (project.links, project.steps)
    files = {
        "corridor.blocks": calls.write_corridor(*told, project.corridor.words),
        "demands.blocks": calls.write_demands(*told, project.demands.words),
    }
    for name in project.plans:
        files[f"plan-{name}.blocks"] = calls.write_plan(*told, project.plan(name).words)
    return {name: file.tobytes() for name, file in files.items()}


class Unpacked(NamedTuple):
    """The text files of a project that was read from block files, and its size."""

    texts: dict[str, str]
    links: int
    steps: int


def unpacked(files: list[BlockFile], title: str, start: Fraction, step: Fraction, like: Project | None) -> Unpacked:
    """The tables of a corridor, its demands, and any plans and records, all in exact units."""
    first, second = _the_one(files, "corridor"), _the_one(files, "demands")
    others = [file for file in files if file.name not in (first.name, second.name)]
    by_place = {place: [file for file in others if file.place == place] for place in KINDS}
    links, steps = first.opening, second.opening
    words, demands = words_of(first, links, steps), words_of(second, links, steps)
    clock = Clock(start, step, steps)
    nodes = _nodes(words, like)
    corridor = Corridor(nodes, words, {}, [])
    series = write_demands(demands, nodes, clock)
    texts = {"corridor.csv": write_corridor(words, nodes), **{f"{name}.csv": text for name, text in series.items()}}
    for file in by_place["plan"]:
        plan = Plan(_plan_name(file), words_of(file, links, steps), corridor, clock, PlanSource())
        _add(texts, f"plan-{plan.name}.csv", write_plan(plan, [f"Unpacked from {Path(file.name).name}."]), file)
    for file in by_place["record"]:
        record = record_of_blocks(words_of(file, links, steps), corridor, clock, file.name)
        _add(texts, f"{Path(file.name).stem}.csv", write_record(record), file)
    texts["project.toml"] = _toml(title, clock, ["corridor", *series], [_plan_name(file) for file in by_place["plan"]])
    return Unpacked(texts, links, steps)


def _add(texts: dict[str, str], name: str, text: str, file: BlockFile) -> None:
    """Adds a table, which takes the place of no other."""
    if name in texts:
        raise Fault(Cell(file.name), f"would become {name}, which is another table here: expected another name")
    texts[name] = text


def _nodes(words: Words, like: Project | None) -> list[Node]:
    """The corridor's nodes, with names and lengths where a project knows them."""
    known: Mapping[int, Node] = {node.identifier: node for node in like.corridor.nodes} if like else {}
    identifiers = layout.corridor_nodes(words)[:, layout.IDENTIFIER].tolist()
    if like is not None and not known.keys() & set(identifiers):
        raise ValueError(f"{like.title} has none of these identifiers: it is no project to take names and times from")
    return [Node(each, known[each].name, known[each].length) if each in known else Node(each) for each in identifiers]


def _plan_name(file: BlockFile) -> str:
    return Path(file.name).stem.removeprefix("plan-")


def _toml(title: str, clock: Clock, files: list[str], plans: list[str]) -> str:
    lines = [
        f"title = {json.dumps(title, ensure_ascii=False)}",
        f'start = "{clock.at(0)}"',
        f"step_s = {decimal_text(clock.step)}",
        f"steps = {clock.steps}",
        "",
        "[files]",
        *(f'{name} = "{name}.csv"' for name in files),
    ]
    if plans:
        lines += [
            "",
            "[plans]",
            *(f"{_key(name)} = {json.dumps(f'plan-{name}.csv', ensure_ascii=False)}" for name in plans),
        ]
    return "\n".join(lines) + "\n"


def _key(name: str) -> str:
    return name if re.fullmatch(r"[A-Za-z0-9_-]+", name) else json.dumps(name, ensure_ascii=False)
