#!/usr/bin/env python3
"""Checks that no .antt file imports what it doesn't name.

  check_imports.py ROOT

Of each `use` that isn't `pub`, each name must stand somewhere else in the file: of an operator, one of its words or its name. Two
names are the toolchain's own and are read by tactics: `rules` and `omega`. It reads text alone, so a name in another sense counts.
"""
import re
import sys
from pathlib import Path

IMPORT = re.compile(r" *(?P<public>pub )?use +(?P<path>[^\s{]+?)(?:\.\{(?P<names>.*)\})?(?: as (?P<alias>\S+))? *$")
WORD = re.compile(r'[^\s(){}\[\],;λ"]+')
BY_TACTICS = {"rules", "omega", "[]"}


def without_comment(line):
    """A line without its comment."""
    return "" if line.lstrip().startswith("--") else line.split(" -- ")[0]


def imported(match):
    """The names by which the file knows what an import gives."""
    if match["names"] is not None:
        return [name.split(" as ")[-1].strip() for name in match["names"].split(",")]
    return [match["alias"] or match["path"].split(".")[-1]]


def words_of(name):
    """The words by which a file may name this: an operator also by its whole name, in front of its operands."""
    return [name, *(part for part in name.split("◌") if part)]


def unused(path):
    """Each name that the file imports and doesn't name, with its line."""
    imports, named = [], set()
    for number, line in enumerate(path.read_text(encoding="utf-8").split("\n"), 1):
        line = without_comment(line)
        match = IMPORT.match(line)
        if match is None:
            for word in WORD.findall(line):
                named.update((word, word.split(".")[0]))
        elif not match["public"]:
            imports += [(number, name) for name in imported(match)]
    return [(number, name) for number, name in imports if name not in BY_TACTICS and named.isdisjoint(words_of(name))]


def main(root):
    files = sorted(path for folder in ("specs", "proofs") for path in Path(root, "crates").glob(f"*/{folder}/**/*.antt"))
    found = [f"{path}:{number}: imports {name}, and doesn't name it" for path in files for number, name in unused(path)]
    print("\n".join(found), end="\n" if found else "")
    return 1 if found else 0


if __name__ == "__main__":
    sys.exit(main(sys.argv[1]))
