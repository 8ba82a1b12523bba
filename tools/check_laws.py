#!/usr/bin/env python3
"""Checks that docs/laws.md lists the laws: each in its crate's family, with the crates whose code calls it.

  check_laws.py [ROOT]

A law is a public function that takes nothing and gives nothing, and so does nothing: its contract is a theorem about definitions. The document has a
section for each group of crates.txt with laws, in this order, and in its table a row for each crate with laws and, below that, one for each law of the
crate. The last cell of a law has its callers, or `for readers` where there is none. It prints what is otherwise, and ends with 1 where there is something.
"""
import glob
import os
import re
import sys

LAW = re.compile(r"\bpub fn (\w+)(?:<\w+>)?\(\)\s+(?:requires|ensures)\b")
USE = re.compile(r"\buse (mv_\w+)::([^;]*);")
# A call without arguments, with the crate that its path names.
CALL = re.compile(r"(?<!fn )\b(?:(mv_\w+)::)?(?:\w+::)*(\w+)(?:::<[^;]*?>)?\(\)")
HEAD = re.compile(r"\| Law \||\|---\|")
CRATE = re.compile(r"\| \*\*`(\w+)`\*\* \| \| \|$")
ROW = re.compile(r"\| `(\w+)` \| [^|]+ \| ([^|]+) \|$")
NOBODY = "for readers"


def text_of(*names):
    with open(os.path.join(*names), encoding="utf-8") as it:
        return it.read()


def families_of(text):
    """Returns the family of each crate, in order."""
    family, families = "", {}
    for line in text.splitlines():
        if line.startswith("#"):
            family = line[1:].strip().lower()
        elif ":" in line:
            families[line.split(":")[0].split()[0]] = family
    return families


def brought_by(text):
    """Returns the names that a file brings from other crates, each with the crate that it names for it."""
    return {name: crate for crate, names in USE.findall(text) for name in re.findall(r"\w+", names)}


def laws_of(root, families):
    """Returns the laws, each by family, crate and name, with the crates that call it, in the order of crates.txt."""
    texts = {crate: [text_of(it) for it in sorted(glob.glob(os.path.join(root, "crates", crate, "src", "**", "*.rt"), recursive=True))] for crate in families}
    brought = {crate: {name: other for it in texts[crate] for name, other in brought_by(it).items()} for crate in families}
    laws = {(families[crate], crate, name): [] for crate in families for it in texts[crate] for name in LAW.findall(it)}
    for caller in families:
        for it in texts[caller]:
            here = brought_by(it)
            for named, name in set(CALL.findall(it)):
                owner = named or here.get(name, caller)
                # A crate between may pass a law on.
                while owner in families and (families[owner], owner, name) not in laws:
                    owner = brought[owner].get(name)
                if owner in families and caller not in laws[families[owner], owner, name]:
                    laws[families[owner], owner, name].append(caller)
    return laws


def listed_in(text):
    """Returns the document's crates, each by family and name, its laws with their callers, and the rows that are neither."""
    at, crates, laws, others = ("", ""), [], [], []
    for line in text.splitlines():
        crate, law = CRATE.match(line), ROW.match(line)
        if line.startswith("## "):
            at = (line[3:].lower(), "")
        elif crate:
            at = (at[0], crate[1])
            crates.append(at)
        elif law:
            laws.append(((*at, law[1]), law[2]))
        elif line.startswith("|") and not HEAD.match(line):
            others.append(line)
    return crates, laws, others


def wrong_in(root):
    laws = laws_of(root, families_of(text_of(root, "crates.txt")))
    crates, told, others = listed_in(text_of(root, "docs", "laws.md"))
    for row in others:
        yield f"docs/laws.md has a row of no law: {row}"
    for (family, crate, law), _ in told:
        if (family, crate, law) not in laws:
            yield f"docs/laws.md has {law} of {crate} in '{family}', which is no law there"
    for (family, crate, law), callers in laws.items():
        cells = [cell for at, cell in told if at == (family, crate, law)]
        if len(cells) != 1:
            yield f"docs/laws.md has {law} of {crate} in '{family}' {len(cells)} times; called by: {', '.join(callers) or NOBODY}"
        elif sorted(cells[0].split(", ")) != sorted(callers or [NOBODY]):
            yield f"docs/laws.md has {law} of {crate} with other callers; called by: {', '.join(callers) or NOBODY}"
    if crates != list(dict.fromkeys(at[:2] for at in laws)):
        yield "docs/laws.md has other crates than those of crates.txt with laws, or in another order"


def main():
    root = sys.argv[1] if len(sys.argv) > 1 else os.path.join(os.path.dirname(os.path.abspath(__file__)), "..")
    wrong = list(wrong_in(root))
    print(*wrong, sep="\n", end="\n" * bool(wrong))
    return 1 if wrong else 0


sys.exit(main())
