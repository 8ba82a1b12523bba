#!/usr/bin/env python3
"""Checks that what the headers of the crates, README.md and docs/ name is there.

  check_headers.py [ROOT]

Of each text in back quotes it looks at the paths, and at the names: in headers and README.md at each word, in docs/ at those of several words, as
`of_parts` and `OfParts`. A path has to be a file or folder of the repository, or of the crate whose header it stands in, or in a document of some crate,
where `.antt` may be left out. A name has to be that of a crate or of a file at the top, or a word of the sources of some crate. It prints what isn't there,
and ends with 1 where there is something.
"""
import glob
import os
import re
import sys

WORD = re.compile(r"[A-Za-z_][A-Za-z0-9_]*")
QUOTED = re.compile(r"`([^`]+)`")
PATH = re.compile(r"^[\w.]+(/[\w.*]+)+/?$")
# A name of several words.
NAME_OF_WORDS = re.compile(r"[a-z][a-z0-9]*(_[a-z0-9]+)+|([A-Z][a-z0-9]+){2,}")
# Words of C, of Rust, of the commands and of shells, which stand in no source of ours.
OUTSIDE = {"EOF", "ptr_eq", "rt", "ci", "gcc", "clang", "as", "objdump", "llvm"}


def words_below(folder):
    """Returns the words of all sources below a folder, headers aside, and their names."""
    found = set()
    for at, _, files in os.walk(folder):
        if f"{os.sep}out{os.sep}" in at + os.sep:
            continue
        for name in files:
            if name.endswith((".rt", ".antt")):
                with open(os.path.join(at, name), encoding="utf-8") as it:
                    text = "\n".join(line for line in it if not line.startswith("//!"))
                found.update(WORD.findall(text))
                found.add(name.rpartition(".")[0])
    return found


def header_of(crate):
    """Returns the text of a crate's header."""
    for name in ("lib.rt", "main.rt"):
        file = os.path.join(crate, "src", name)
        if os.path.isfile(file):
            with open(file, encoding="utf-8") as it:
                lines = [line[3:].strip() for line in it if line.startswith("//!")]
            return " ".join(lines)
    return ""


def is_there(path, root, crate):
    """Whether a path is that of a file or folder of the repository, or of a crate."""
    places = [os.path.join(at, path) for at in (root, crate, os.path.join(root, "crates"), os.path.join(root, "crates", "*"))]
    return any(glob.glob(place + ending) for place in places for ending in ("", ".antt"))


def missing_paths(text, root):
    """Returns the paths that a text has which aren't there, those of what is made (`out`) and of any NAME aside."""
    paths = [quoted for quoted in QUOTED.findall(text) if PATH.match(quoted) and not re.search(r"(^|/)out/|NAME", quoted)]
    return [path for path in paths if not is_there(path, root, root)]


def missing_names(text, every, crates):
    """Returns the names of several words that a text has which aren't there."""
    words = {word for quoted in QUOTED.findall(text) if re.fullmatch(r"[\w:{}, ]+", quoted) for word in WORD.findall(quoted)}
    return sorted(it for it in words if NAME_OF_WORDS.fullmatch(it) and it not in every and it not in crates and it not in OUTSIDE)


def missing(text, root, crate, every, crates):
    """Returns what a text names that isn't there."""
    found = []
    for quoted in QUOTED.findall(text):
        if PATH.match(quoted):
            if not is_there(quoted, root, crate):
                found.append(quoted)
            continue
        if not re.fullmatch(r"[\w:{}, ]+", quoted):
            continue
        for word in WORD.findall(quoted):
            known = word in every or word in crates or word in OUTSIDE
            if not known and not os.path.exists(os.path.join(root, word)):
                found.append(word)
    return found


def main():
    root = os.path.abspath(sys.argv[1] if len(sys.argv) > 1 else os.path.join(os.path.dirname(__file__), ".."))
    top = os.path.join(root, "crates")
    crates = sorted(os.listdir(top))
    every = words_below(top)
    bad = 0
    for name in crates:
        crate = os.path.join(top, name)
        header = header_of(crate)
        for lacks in ["a header"] * (not header) + missing(header, root, crate, every, crates):
            print(f"{name}: {lacks} isn't there")
            bad += 1
    for file in [os.path.join(root, "README.md"), *sorted(glob.glob(os.path.join(root, "docs", "*.md")))]:
        with open(file, encoding="utf-8") as it:
            text = re.sub(r"```.*?```", "", it.read(), flags=re.S)
        is_readme = os.path.dirname(file) == root
        for lacks in missing(text, root, root, every, crates) if is_readme else [*missing_paths(text, root), *missing_names(text, every, crates)]:
            print(f"{os.path.relpath(file, root)}: {lacks} isn't there")
            bad += 1
    return 1 if bad else 0


if __name__ == "__main__":
    sys.exit(main())
