"""docs/USE.md as a program: its commands in their order, what they print, and the pictures. Run as a program, it writes what was printed and the pictures anew."""

from __future__ import annotations

import os
import re
import subprocess
import sys
import tempfile
from pathlib import Path
from typing import NamedTuple

ROOT = Path(__file__).resolve().parents[2]
PAGE = ROOT / "docs" / "USE.md"
PICTURES = ROOT / "docs" / "pictures"
SCREENSHOT = "report.png"
"""The one picture that no command writes: the page mine.html as a browser shows it."""

_FENCES = re.compile(r"^```(shell|python)\n(.*?)^```\n(?:\n```text\n(.*?)^```\n)?", re.MULTILINE | re.DOTALL)


class Passage(NamedTuple):
    """Commands of the page, or a program in Python, and what the page says that they print; None where it says nothing."""

    language: str
    text: str
    printed: str | None


def passages() -> list[Passage]:
    """What the page has to run, in its order."""
    return [Passage(*match.groups()) for match in _FENCES.finditer(PAGE.read_text())]


def pictures() -> list[str]:
    """The pictures that the page shows, in its order."""
    return re.findall(r"\]\(pictures/([^)]+)\)", PAGE.read_text())


def run(passage: Passage, folder: Path, commands: Path, modules: Path) -> subprocess.CompletedProcess[str]:
    """Runs a passage in a folder, with the command `gigorchid` of one folder and the modules of another."""
    variables = {
        "PATH": f"{commands}:/usr/bin:/bin",
        "HOME": str(folder),
        "LC_ALL": "C.UTF-8",
        "PYTHONPATH": str(modules),
        "PYTHONDONTWRITEBYTECODE": "1",
    }
    program = ["bash", "-euo", "pipefail"] if passage.language == "shell" else ["/usr/bin/python3"]
    return subprocess.run(
        program, input=passage.text, cwd=folder, env=variables, capture_output=True, text=True, encoding="utf-8"
    )


def screenshot(page: Path) -> bytes:
    """The top of a page as a browser shows it on a high screen, with the pointer on a place of the first map."""
    from browser import opened, point

    with opened(1060, 1160) as browser:
        browser.get(page.as_uri())
        # The font that matplotlib brings along, since what a browser takes for its own differs from one machine to the next.
        browser.execute_script("document.body.style.fontFamily = 'DejaVu Sans'")
        point(browser, 480, 1000)
        return bytes(browser.get_screenshot_as_png())


def write() -> None:
    """Writes what the commands print into the page, and the pictures."""
    with tempfile.TemporaryDirectory() as name:
        folder, commands = Path(name) / "empty", Path(name) / "commands"
        folder.mkdir(), commands.mkdir()
        launcher = commands / "gigorchid"
        launcher.write_text("#!/usr/bin/python3\nfrom gigorchid.commands import main\n\nmain()\n")
        launcher.chmod(0o755)
        text = PAGE.read_text()
        for passage in passages():
            done = run(passage, folder, commands, ROOT / "python")
            if done.returncode != 0:
                sys.exit(f"{passage.text}{done.stdout}{done.stderr}")
            opening = f"```{passage.language}\n{passage.text}```\n\n```text\n"
            if passage.printed is not None:
                before, after = text.split(opening, 1)
                text = before + opening + done.stdout + after[after.index("```\n") :]
        PAGE.write_text(text)
        for picture in pictures():
            made = folder / picture
            (PICTURES / picture).write_bytes(
                screenshot(folder / "mine.html") if picture == SCREENSHOT else made.read_bytes()
            )


if __name__ == "__main__":
    os.umask(0o022)
    write()
