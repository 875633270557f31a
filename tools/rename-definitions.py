#!/usr/bin/env python3
"""Gives the repository's own definitions, lemmas and fields names with underscores in place of hyphens.

usage: tools/rename-definitions.py, once, at the top of a checkout that port.py of the kit has turned

Which names: those that a file of specs/ or proofs/ declares, but for the goals that an answer file answers, whose names are
the kit's. A name that a file takes from a library too is left as it is, and said. Words in docs/ and README.md follow where
they stand in backticks.
"""

import pathlib
import re

ANSWER_FILES = ("Answers.antt", "Invariants.antt", "Proof.antt", "Choices.antt")
ALIASES = {"lostTree": "lost_tree"}
WORD = r"[^\s(){};,.:\[\]`]"
DECLARED = re.compile(rf"^\s*(?:(?:abbrev|pub|unfoldable)\s+)*({WORD}+)\s+:(?=\s)")
GOAL = re.compile(r":\s+(?:goal|given|need)\.")
IMPORT = re.compile(r"^\s*(?:ghost )?use ([^\s{;]+)\.\{([^}]*)\}")


def texts(root):
    for p in sorted(root.rglob("*")):
        if p.is_file() and p.suffix in (".antt", ".rt", ".edit") and "out" not in p.parts:
            yield p


def main():
    root = pathlib.Path("crates")
    own_crates = {p.name for p in root.iterdir()}
    declared, taken = set(), set()
    for p in texts(root):
        for line in p.read_text(encoding="utf-8").splitlines():
            m = IMPORT.match(line)
            if m:
                path = m[1].split(".")
                if not (path[0] == "Rattle" and path[1] in own_crates):
                    taken.update(w.strip().split(" as ")[0] for w in m[2].split(","))
            if p.suffix != ".antt" or line.lstrip().startswith("--"):
                continue
            m = DECLARED.match(line)
            if m and "-" in m[1].strip("-") and re.match(r"^[a-z]", m[1]):
                if not (p.name in ANSWER_FILES and GOAL.search(line)):
                    declared.add(m[1])
    for name in sorted(declared & taken):
        print("left, since a library has it too:", name)
    names = sorted(declared - taken, key=len, reverse=True)
    names += ALIASES
    new = {n: n.replace("-", "_") for n in names} | ALIASES
    word = re.compile(r"(?<![^\s(){};,.:\[\]`])(" + "|".join(map(re.escape, names)) + r")(?![^\s(){};,.:\[\]`])")
    ticked = re.compile(r"`[^`\n]+`")
    for p in list(texts(root)) + sorted(pathlib.Path("docs").glob("*.md")) + [pathlib.Path("README.md")]:
        old = p.read_text(encoding="utf-8")
        if p.suffix == ".md":
            text = ticked.sub(lambda m: word.sub(lambda w: new[w[1]], m[0]), old)
        else:
            text = "".join(turn(line, word, new) for line in old.splitlines(keepends=True))
        if text != old:
            p.write_text(text, encoding="utf-8")
    print(len(names), "names")


def turn(line, word, new):
    """A comment on a line of its own keeps its words: they are prose."""
    if line.lstrip().startswith(("--", "//")):
        return line
    return word.sub(lambda w: new[w[1]], line)


main()
