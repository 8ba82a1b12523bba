#!/usr/bin/env python3
"""The refusals, of which docs/refusals.ini is the one table.

  refusals.py     writes the tables of docs/refusals.md anew

A table of docs/refusals.md stands below a comment that names a kind of sections, and the keys of its columns behind the first. Of what one may write
`looks` tells the text from the place on, and `behind` how the text of its line ends before it, each as a regular expression.
"""
import configparser
import os
import re

import causes

DOCS = os.path.join(os.path.dirname(os.path.dirname(os.path.realpath(__file__))), "docs")
LINE = re.compile(r"refused (\d+)(?: (\d+):(\d+))?(?: (rule|limit) (\d+))?")
MARKED = re.compile(r"(<!-- (\w+): (.*) -->\n\|.*\n\|.*\n)((?:\|.*\n)*)")


def all_refusals():
    """Returns the sections of the table, in order."""
    found = configparser.ConfigParser(interpolation=None, delimiters=("=",))
    with open(os.path.join(DOCS, "refusals.ini"), encoding="utf-8") as it:
        found.read_file(it)
    return found


def advice(last_line, before, after):
    """Returns what to write in place of what stands at the place of a refusal, between these texts: of the sections that tell it, that which tells most; or None."""
    number, rule = LINE.match(last_line).group(1, 5)
    found = []
    for name, section in all_refusals().items():
        if "looks" not in section or LINE.match(section["answer"]).group(1, 5) != (number, rule):
            continue
        looks, behind = re.match(section["looks"], after), re.search(f"(?:{section.get('behind', '')})$", before)
        if looks and behind:
            found.append((len(looks[0]) + len(behind[0]), section["do"]))
    return re.sub(r"\[(.*?)\]\(.*?\)", r"\1", max(found, key=lambda it: it[0])[1]) if found else None


def whole_cause(section):
    """Returns all that a section has for its cause, in one line."""
    return "; ".join(section["cause"].split("\n"))


def explained(last_line, source):
    """Returns the place of a refusal, or None, its cause, and what to do; None where the table has no such refusal.

    Of a rule with several causes it is the one that holds, and by a limit of functions that which passes it, where a source is told that shows them.
    """
    read = LINE.match(last_line)
    if not read:
        return None
    number, line, column, kind, detail = read.groups()
    name = f"{kind} {detail}" if kind else f"refusal {number}"
    known = all_refusals()
    if name not in known:
        return None
    found = known[name]
    cause = ", at most ".join([whole_cause(found), *([found["greatest"]] if "greatest" in found else [])])
    place = (int(line), int(column)) if line and "LINE:" in found.get("line", "LINE:") else None
    if source is not None and kind == "rule":
        held = causes.cause_of(int(detail), source, place)
        cause = cause if held is None else found["cause"].split("\n")[held]
    elif source is not None and kind == "limit":
        passing = causes.passing_function(int(detail), int(last_line.split()[-1]), source)
        place, cause = (passing[0], f"{cause}: {passing[1]}") if passing else (place, cause)
    return place, f"{name}: {cause}" if kind else cause, found["do"]


def place_in(example):
    """Returns the line and the column that `^` marks in a text, and the text without it."""
    before, mark, after = example.partition("^")
    place = (before.count("\n") + 1, len(before.rpartition("\n")[2]) + 1) if mark else None
    return place, before + after


def with_place(answer, place):
    """Returns a last line with the place behind the number of the refusal, if it names one."""
    return re.sub(r"^refused \d+", rf"\g<0> {place[0]}:{place[1]}", answer) if place else answer


def cell(section, key):
    """Returns what a table has of a section under a key."""
    text = whole_cause(section) if key == "cause" else section[key]
    if key == "answer":
        text = f"`{with_place(text, place_in(section['example'])[0])}`"
    elif key == "example":
        pieces = place_in(text)[1].split("\n")
        text = ", ".join(re.sub(r"`\*(\d+) ", lambda it: f"{int(it[1]):,} times `", f"`{piece}`") for piece in pieces)
    return text.replace("|", r"\|")


def with_tables(text):
    """Returns a text with each of its tables as the sections have it."""
    known = all_refusals()

    def table(found):
        kind, keys = found[2], found[3].split(", ")
        rows = []
        for name in known.sections():
            if name.startswith(f"{kind} "):
                number = [name.partition(" ")[2]] if keys[0] == "number" else []
                cells = number + [cell(known[name], key) for key in keys if key != "number"]
                rows.append(f"| {' | '.join(cells)} |\n")
        return found[1] + "".join(rows)

    return MARKED.sub(table, text)


def main():
    file = os.path.join(DOCS, "refusals.md")
    with open(file, encoding="utf-8") as it:
        text = it.read()
    with open(file, "w", encoding="utf-8") as it:
        it.write(with_tables(text))


if __name__ == "__main__":
    main()
