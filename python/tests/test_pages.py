"""What readers see is what the tool does: the columns, endings, exit statuses and commands of the pages against those of the code."""

import re

import pytest
from conftest import HEADER, ROOT

from gigorchid import __version__
from gigorchid.commands import COMMANDS, base
from gigorchid.commands.explain import GIVEN_BY, REMEDIES
from gigorchid.corridor import QUANTITIES
from gigorchid.plans import QUANTITIES as PLAN_QUANTITIES
from gigorchid.project import FILES, KEYS
from gigorchid.records import COLUMNS
from gigorchid.refusals import REFUSALS
from gigorchid.units import FLOW, LENGTH, SPLIT, SYMBOLS

FORMATS = (ROOT / "docs" / "FORMATS.md").read_text()


def section(heading: str) -> list[list[str]]:
    """The rows of the tables below a heading, without the line of names."""
    text = FORMATS.split(f"\n## {heading}\n", 1)[1].split("\n## ", 1)[0]
    rows = [line.strip("|").split("|") for line in text.splitlines() if line.startswith("|")]
    return [row for at, row in enumerate(rows) if row[0] != "-" and (at + 1 == len(rows) or rows[at + 1][0] != "-")]


def quoted(cell: str) -> tuple[str, ...]:
    return tuple(re.findall(r"`_?([^`]+)`", cell))


def test_the_corridor_has_the_columns_of_the_page() -> None:
    page = {quoted(name)[0]: quoted(endings) for name, endings, _ in section("corridor.csv")}
    code = {stem: endings for stem, (endings, _) in QUANTITIES.items()}
    assert {name: set(endings) for name, endings in page.items()} == {
        name: set(endings) for name, endings in (code | {"id": (), "name": (), "length": LENGTH}).items()
    }


def test_series_have_the_endings_of_the_page() -> None:
    page = {
        quoted(name)[0]: quoted(endings) for name, endings, *_ in section("arrivals.csv, splits.csv, downstream.csv")
    }
    assert page == {"arrivals.csv": FLOW, "splits.csv": SPLIT, "downstream.csv": FLOW}


def test_a_plan_has_the_columns_of_the_page() -> None:
    page = {quoted(name): quoted(endings) for name, endings, _ in section("A plan, plan.csv")}
    assert page == {
        ("id",): (),
        ("from", "until"): (),
        **{(name,): endings for name, endings in PLAN_QUANTITIES.items()},
    }


def test_a_record_has_the_columns_of_the_page() -> None:
    page = [quoted(name)[0] for name, _ in section("A record, record.csv")]
    assert page == ["state", "id", *COLUMNS, "cost_units"]


def test_the_endings_are_those_of_the_page() -> None:
    assert [ending for row in section("Tables") for ending in quoted(row[0])] == [
        "vph", "kmh", "mph", "m", "veh", "vpkm", "pct", "units"
    ]  # fmt: skip
    assert set(SYMBOLS) == {ending for row in section("Tables") for ending in quoted(row[0])}


def test_the_keys_of_a_project_are_those_of_the_page() -> None:
    assert tuple(quoted(row[0])[0].strip("[]") for row in section("project.toml")) == KEYS
    assert {name for name in FILES if f"`{name}`" in FORMATS} == set(FILES)


def test_the_exit_statuses_are_those_of_the_page() -> None:
    page = [int(status) for status, _ in section("What commands print")]
    assert page == [base.ACCEPTED, base.DIFFERENT, base.REFUSED, base.FAULTY, base.NOT_COMPARABLE, base.USAGE]


def test_every_refusal_is_explained() -> None:
    assert set(REMEDIES) == set(REFUSALS) == {number for numbers in GIVEN_BY for number in numbers}


def test_one_version() -> None:
    assert f'#define GIGORCHID_VERSION_TEXT "{__version__}"' in HEADER
    assert f"gigorchid_{__version__}_amd64.deb" in (ROOT / "README.md").read_text()


@pytest.mark.parametrize(("page", "least"), [("README.md", 8), ("docs/FORMATS.md", 5), ("docs/USE.md", 7)])
def test_the_commands_that_a_page_names_exist(page: str, least: int) -> None:
    named = set(re.findall(r"(?:`|^)gigorchid ([a-z]+)\b", (ROOT / page).read_text(), re.MULTILINE))
    assert named <= set(COMMANDS) and len(named) >= least
