"""The manual page of the command in roff, made of the help that the commands themselves give.

    python3 -m gigorchid.manual VERSION DATE

A paragraph of the help, or of the epilog, of the whole command that begins with "Exit status:" is its own section.
"""

import inspect
import re
import sys
from collections.abc import Iterator
from typing import NamedTuple

import click

NAME = "gigorchid"
EXIT_STATUS = "Exit status:"

# Characters that roff takes for its own, or prints as others, and how they are written.
_SPECIAL = {"\\": r"\e", "-": r"\-", "'": r"\(aq", "`": r"\(ga", "^": r"\(ha", "~": r"\(ti", '"': r"\(dq"}
_FILES = {
    "/usr/include/gigorchid.h": "the header of the library, for C and C++",
    "/usr/lib/python3/dist-packages/gigorchid": "the Python package",
    "/usr/share/doc/gigorchid": "the documents, and examples in C",
}
_SEE_ALSO = (
    "Files and columns are in /usr/share/doc/gigorchid/FORMATS.md, the model and the refusals in "
    "/usr/share/doc/gigorchid/MODEL.md."
)


class Paragraph(NamedTuple):
    """A paragraph of a help text; as click has it, one that begins with a line of a backspace keeps its lines."""

    lines: list[str]
    kept: bool


def page(group: click.Group, version: str, date: str) -> str:
    """The whole manual page of the group."""
    context = _context(group, NAME)
    told = _paragraphs(group.help) + _paragraphs(group.epilog)
    ends = [paragraph for paragraph in told if paragraph.lines[0].startswith(EXIT_STATUS)]
    if not ends:
        raise ValueError(f"no paragraph of the help begins with {EXIT_STATUS!r}")
    named = group.get_short_help_str(limit=1000).rstrip(".")
    described = [of for of in told if of not in ends and " ".join(of.lines).rstrip(".") != named]
    lines = [
        f'.TH {NAME.upper()} 1 "{_escaped(date)}" "Gigorchid {_escaped(version)}" "User Commands"',
        ".nh",
        ".ad l",
        ".SH NAME",
        f"{NAME} \\- {_escaped(named)}",
        ".SH SYNOPSIS",
        _line(_usage(context)),
        ".SH DESCRIPTION",
        *_text(described),
        ".SH OPTIONS",
        *_options(context),
        ".SH COMMANDS",
        *(line for command in _commands(context) for line in _command(command)),
        '.SH "EXIT STATUS"',
        *_text([_without_heading(paragraph) for paragraph in ends]),
        ".SH FILES",
        *(line for path, what in _FILES.items() for line in _item(path, what)),
        '.SH "SEE ALSO"',
        _line(_SEE_ALSO),
    ]
    return "\n".join(lines) + "\n"


def _context(command: click.Command, name: str, parent: click.Context | None = None) -> click.Context:
    """The context in which click would run the command."""
    return click.Context(command, info_name=name, parent=parent, **command.context_settings)


def _commands(context: click.Context) -> Iterator[click.Context]:
    """Every command below, a group before its own commands, in the order in which the help lists them."""
    group = context.command
    if not isinstance(group, click.Group):
        return
    for name in group.list_commands(context):
        command = group.get_command(context, name)
        if command is not None and not command.hidden:
            below = _context(command, name, context)
            yield below
            yield from _commands(below)


def _command(context: click.Context) -> list[str]:
    """The subsection of a command."""
    command = context.command
    lines = [f'.SS "{_escaped(_usage(context))}"', *_text(_paragraphs(command.help)), *_options(context)]
    return lines + _text(_paragraphs(command.epilog))


def _usage(context: click.Context) -> str:
    """How a command is called."""
    return " ".join([context.command_path, *context.command.collect_usage_pieces(context)])


def _options(context: click.Context) -> list[str]:
    """The options; that for help, which every command has, with those of the whole command alone."""
    left_out = context.help_option_names if context.parent else []
    parameters = [of for of in context.command.get_params(context) if not set(of.opts) & set(left_out)]
    records = [parameter.get_help_record(context) for parameter in parameters]
    return [line for record in records if record for line in _item(*record)]


def _item(term: str, text: str) -> list[str]:
    """A term and, below it, what is said of it."""
    return [".TP", f".B {_escaped(term)}", *([_line(text)] if text else [])]


def _paragraphs(text: str | None) -> list[Paragraph]:
    """The paragraphs of a help text as click shows them."""
    # Click shows nothing that stands after a form feed.
    shown = inspect.cleandoc((text or "").partition("\f")[0])
    found = []
    for block in re.split(r"\n[ \t]*\n", shown):
        lines = [line.rstrip() for line in block.splitlines() if line.strip()]
        kept = lines[:1] == ["\b"]
        found.append(Paragraph(lines[1:] if kept else lines, kept))
    return [paragraph for paragraph in found if paragraph.lines]


def _without_heading(paragraph: Paragraph) -> Paragraph:
    """The paragraph of the exit status without these words, which are its section's title."""
    first = paragraph.lines[0].removeprefix(EXIT_STATUS).strip()
    return Paragraph([line for line in (first, *paragraph.lines[1:]) if line], paragraph.kept)


def _text(paragraphs: list[Paragraph]) -> list[str]:
    """The paragraphs in roff."""
    lines = []
    for paragraph in paragraphs:
        lines.append(".PP")
        if paragraph.kept:
            lines += [".nf", *(_line(line, keep=True) for line in paragraph.lines), ".fi"]
        else:
            lines.append(_line(" ".join(paragraph.lines)))
    return lines


def _line(text: str, keep: bool = False) -> str:
    """One line of text, in which nothing is a request to roff."""
    escaped = _escaped(text if keep else " ".join(text.split()))
    return f"\\&{escaped}" if escaped.startswith((".", " ")) else escaped


def _escaped(text: str) -> str:
    """The text with every special character written so that roff prints it as it is."""
    return "".join(_SPECIAL.get(character) or _plain(character) for character in text)


def _plain(character: str) -> str:
    """A character that is not special; outside ASCII by its number, whatever encoding roff expects."""
    return character if character.isascii() else f"\\[u{ord(character):04X}]"


if __name__ == "__main__":
    from gigorchid.commands import cli

    sys.stdout.write(page(cli, *sys.argv[1:]))
