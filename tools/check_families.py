#!/usr/bin/env python3
"""Checks that families of crates, which are the groups of crates.txt, stand on families before them alone, and that docs/architecture.md has them so.

  check_families.py [ROOT]

A group begins at a comment. The first is what all share, and the machine stands on that alone: so it knows of no source, and no families stand in a
cycle. The document has a section for each group, in this order and with these crates, and of each crate only such below it as crates.txt has. It
prints what is otherwise, and ends with 1 where there is something.
"""
import os
import re
import sys

MACHINE = "the machine"
ROW = re.compile(r"^\| `(mv_\w+)` \|(.*?)\|", re.M)


def text_of(*names):
    with open(os.path.join(*names), encoding="utf-8") as it:
        return it.read()


def families_of(text):
    """Returns the groups in order, each with its title and its crates, and what each crate stands on."""
    families, below = [], {}
    for line in text.splitlines():
        if line.startswith("#"):
            families.append((line[1:].strip().lower(), []))
        elif ":" in line:
            crate, stands_on = line.split(":")
            families[-1][1].append(crate.split()[0])
            below[crate.split()[0]] = stands_on.split()
    return families, below


def wrong_in(root):
    families, below = families_of(text_of(root, "crates.txt"))
    place = {crate: n for n, (_, crates) in enumerate(families) for crate in crates}
    for crate, n in place.items():
        for other in below[crate]:
            at = place.get(other, 0)
            if at > n or families[n][0] == MACHINE and 0 < at < n:
                yield f"crates.txt: {crate} ({families[n][0]}) stands on {other} ({families[at][0]})"
    parts = re.split(r"^##+ ", text_of(root, "docs", "architecture.md"), flags=re.M)
    told = [(title.lower(), ROW.findall(rows)) for title, _, rows in (it.partition("\n") for it in parts) if "| Stands on |" in rows]
    if [title for title, _ in told] != [title for title, _ in families]:
        yield "docs/architecture.md has other sections than crates.txt has groups"
    for (title, rows), (_, crates) in zip(told, families):
        for crate in {crate for crate, _ in rows} ^ set(crates):
            yield f"docs/architecture.md or crates.txt alone has {crate} in '{title}'"
        for crate, cell in rows:
            for other in set(re.findall(r"`(\w+)`", cell)) - set(below.get(crate, ())):
                yield f"docs/architecture.md: {crate} stands on {other}, by crates.txt not"


def main():
    root = sys.argv[1] if len(sys.argv) > 1 else os.path.join(os.path.dirname(os.path.abspath(__file__)), "..")
    wrong = sorted(wrong_in(root))
    print(*wrong, sep="\n", end="\n" * bool(wrong))
    return 1 if wrong else 0


sys.exit(main())
