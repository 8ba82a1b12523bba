#!/usr/bin/env python3
"""Compares the rows that scripts write with what these write: each is run on a copy of the rows, and has to leave there the sections that stand here.

  check_rows.py

It prints which rows are otherwise, and ends with 1 where there are some. An order of sections is nothing to it.
"""
import collections
import os
import re
import shutil
import subprocess
import sys
import tempfile

TOP = os.path.dirname(os.path.dirname(os.path.realpath(__file__)))
# The scripts, each with the crate whose rows it writes.
SCRIPTS = {"patching_rows.py": "mv_test_top", "call_rows.py": "mv_test_top", "harts_rows.py": "mv_test_harts", "image_rows.py": "mv_test_image", "elf_rows.py": "mv_test_elf"}


def sections_of(file):
    """Returns the sections of a file of rows, each of which begins at a remark, and how often each is there."""
    with open(file, encoding="latin-1") as it:
        return collections.Counter(filter(None, re.split(r"^(?=# )", it.read(), flags=re.M)))


def wrong_of(room, script, crate):
    """Runs a script in a copy, and returns which rows it writes otherwise."""
    copied = os.path.join(room, "crates", crate)
    shutil.copytree(os.path.join(TOP, "crates", crate), copied, ignore=shutil.ignore_patterns("out", "src", "proofs"), dirs_exist_ok=True)
    subprocess.run([sys.executable, os.path.join(room, "tools", script)], stdout=subprocess.DEVNULL, check=True)
    for at, _, names in os.walk(copied):
        for file in (os.path.relpath(os.path.join(at, name), room) for name in names):
            here, there = (sections_of(os.path.join(top, file)) for top in (TOP, room))
            for section in (here - there) + (there - here):
                yield f"{file} or tools/{script} alone has: {section.splitlines()[0]}"


def main():
    with tempfile.TemporaryDirectory() as room:
        shutil.copytree(os.path.join(TOP, "tools"), os.path.join(room, "tools"))
        wrong = [line for it in SCRIPTS.items() for line in wrong_of(room, *it)]
    print(*wrong, sep="\n", end="\n" * bool(wrong))
    return 1 if wrong else 0


if __name__ == "__main__":
    sys.exit(main())
