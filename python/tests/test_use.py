"""docs/USE.md: its commands, run one after another from the unpacked package in an empty folder, print what it says and draw the pictures that it shows."""

import io
from pathlib import Path

import numpy as np
import pytest
from packages import MODULES
from PIL import Image

import use


@pytest.fixture(scope="module")
def folder(unpacked: Path, tmp_path_factory: pytest.TempPathFactory) -> Path:
    """The folder in which the page was followed."""
    made = tmp_path_factory.mktemp("use")
    for passage in use.passages():
        done = use.run(passage, made, unpacked / "usr/bin", unpacked / MODULES)
        assert (done.returncode, done.stderr) == (0, ""), passage.text + done.stdout + done.stderr
        if passage.printed is not None:
            assert done.stdout == passage.printed, passage.text
    return made


def test_the_page_is_followed_to_its_end(folder: Path) -> None:
    fences = [use.PAGE.read_text().count(f"```{language}\n") for language in ("shell", "python", "text")]
    found = use.passages()
    assert fences == [
        *([passage.language for passage in found].count(language) for language in ("shell", "python")),
        len([passage for passage in found if passage.printed]),
    ]
    assert (folder / "mine.html").read_text().count("VALID") >= 1
    assert Image.open(folder / "speed.png").size == (827, 320)


def test_every_command_of_the_page_is_in_a_passage_that_is_run() -> None:
    """What looks like a command and is in no passage would not be run."""
    kept = "".join(passage.text + (passage.printed or "") for passage in use.passages())
    others = [line for line in use.PAGE.read_text().splitlines() if line.startswith(("gigorchid ", "$ "))]
    assert others and all(line in kept for line in others)


@pytest.mark.parametrize("picture", [name for name in use.pictures() if name != use.SCREENSHOT])
def test_a_picture_is_the_one_that_the_command_writes(folder: Path, picture: str) -> None:
    assert (use.PICTURES / picture).read_bytes() == (folder / picture).read_bytes()


def test_no_picture_is_left_over() -> None:
    assert sorted(path.name for path in use.PICTURES.iterdir()) == sorted(use.pictures())


def test_the_picture_of_the_page_is_how_a_browser_shows_it(folder: Path) -> None:
    """But for some edges of letters, which another version of the browser may draw otherwise."""
    shown = [
        Image.open(file).convert("L")
        for file in (use.PICTURES / use.SCREENSHOT, io.BytesIO(use.screenshot(folder / "mine.html")))
    ]
    assert shown[0].size == shown[1].size
    one, other = (np.asarray(image, dtype=int) for image in shown)
    assert (np.abs(one - other) > 64).mean() < 0.01
