#!/usr/bin/env python3
"""Brings this repository's own definitions and lemmas to the spelling of today's Rattle.

usage: python3 tools/port/respell.py [FOLDER]

It ran once, right after the toolchain's port.py, and is kept so that the step can be done again on an older checkout.
Each name of the repository's own that is in camel case or has dashes goes to snake case, as `rowWords` becomes `row_words`;
types, facts and modules keep their capitals. Names that the toolchain's library has, and those that Rattle makes from the code,
stay. FOLDER is the checkout, the current folder if left out. Names that would fall together are told, and then nothing is written.
"""

import collections
import os
import re
import subprocess
import sys

# `rt doc` prints the path of the toolchain's first page, beside which its library lies.
LIBRARY = os.path.join(
    os.path.dirname(subprocess.run(["rt", "doc"], stdout=subprocess.PIPE, text=True).stdout.strip()), "rattle"
)
# What ends a name in antt. A dash is part of a name.
PART = r"[^\s(){}\[\].,;:\"`|⌜⌝=]+"
NAME = re.compile(PART)
# A name that no dot stands before, so none of the code's and none that Rattle makes.
BARE = re.compile(r"(?<![^\s(){}\[\],;:\"`|⌜⌝=])" + PART)
HEAD = re.compile(r"^[ \t]*(?:unfoldable |abbrev )?(?:pub )?([^\s(){}]+) :(?: |$)", re.M)
WORD = re.compile(r"[A-Za-z][A-Za-z0-9₀-₉'_]*(-[A-Za-z0-9₀-₉'_]+)*")
MADE = re.compile(r"(invariant|decreases)-loop.*|Rattle-.*")
PAGES = ("README.md", "docs/MODEL.md", "docs/PROMISES.md", "docs/READING.md", "docs/TRUST.md", "docs/DECISIONS.md")
# Names that would fall together with another, which is named first.
APART = {
    "first-node": "at_first_node",  # first_node
    "one-plan": "only_plan",  # one_plan
    "one-setting": "only_setting",  # one_setting
    # Lemmas that port.py respelled, beside the definitions that they tell of.
    "convert_answer": "convert_answer_lem",
    "node_in": "node_in_lem",
    "row_fits": "row_fits_lem",
    "table_fits": "table_fits_lem",
}
# Fields of a record of specs/ that mirrors a struct of the code, whose fields have the same names.
ALIKE = {"drop_density", "dropped_capacity", "full_speed", "queue_limit", "wave_speed"}


def files(folder, endings=(".rt", ".antt"), without=("out", "must-fail")):
    for top, folders, names in os.walk(folder):
        folders[:] = sorted(it for it in folders if it not in without)
        yield from (os.path.join(top, it) for it in sorted(names) if it.endswith(endings))


def text_of(path):
    with open(path, encoding="utf-8", errors="replace") as file:
        return file.read()


def snake(name):
    if name in APART:
        return APART[name]
    parts = name.split("-")
    for at, it in enumerate(parts):
        if re.fullmatch(r"[a-z][a-z0-9]*([A-Z][a-z0-9]*)+'*", it):
            parts[at] = re.sub(r"(?<=[a-z0-9])([A-Z])", r"_\1", it).lower()
    return "_".join(parts)


def own_names(texts):
    """The names that the files of specs/ and proofs/ declare or bind, and those that they declare."""
    bare, declared = set(), set()
    for path, text in texts.items():
        if path.endswith(".antt"):
            declared.update(HEAD.findall(text))
            for line in text.split("\n"):
                if not re.match(r"\s*(--|(pub )?use |(pub )?mod )", line):
                    bare.update(BARE.findall(line))
    return bare, declared


def main():
    folder = sys.argv[1] if len(sys.argv) > 1 else "."
    texts = {it: text_of(it) for it in files(os.path.join(folder, "crates"))}
    library = {name for it in files(LIBRARY, (".antt",), ()) for name in NAME.findall(text_of(it))}
    bare, declared = own_names(texts)
    turned = {}
    for name in sorted(bare | declared):
        if WORD.fullmatch(name) and not MADE.fullmatch(name) and (name in declared or name not in library):
            if snake(name) != name:
                turned[name] = snake(name)
    # A lemma that would have the name of what it tells of says that it is one.
    words = {new for old, new in turned.items() if "-" not in old}
    turned = {old: new + "_lem" if "-" in old and new in words | bare else new for old, new in turned.items()}
    counts = collections.Counter(turned.values())
    clash = [
        f"{old} and {new}"
        for old, new in turned.items()
        if (new in bare | declared and new not in ALIKE | set(APART)) or counts[new] > 1
    ]
    for it in clash:
        print(f"falls together: {it}")
    if clash and "--anyway" not in sys.argv:
        sys.exit(1)
    pages = [os.path.join(folder, it) for it in PAGES]
    for path in list(texts) + [it for it in pages if os.path.isfile(it)]:
        old = text_of(path)
        walk = path.endswith("Proof.antt")

        def new_name(it):
            new = turned.get(it[0], it[0])
            # Behind a dot in a walk through the code stands a step's name more often than a lemma's.
            return new.removesuffix("_lem") if walk and old[it.start() - 1 : it.start()] == "." else new

        new = NAME.sub(new_name, old)
        if new != old:
            with open(path, "w", encoding="utf-8") as file:
                file.write(new)
    for old, new in turned.items():
        print(f"{old} -> {new}")


if __name__ == "__main__":
    main()
