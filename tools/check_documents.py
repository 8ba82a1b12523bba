#!/usr/bin/env python3
"""Checks that what the documents say of commands is what crates/mv_test_top and, of `mvharts`, the stored run of crates/mv_harts_cli have of them, which the gate runs.

  check_documents.py     prints what differs, and ends with 1 where something does

Looked up are: in README.md and docs/*.md each row of a table of commands, with its output and its last line, and each command of a block
`console`; the examples of docs/refusals.ini; and each `examples/NAME.out`, which is the output of what has the input NAME.in, or of NAME.c. A program
in a block `c` is a file of `examples/`, each other block `c` of docs/idioms.md a part of one, each program of `examples/` that a document leads to is one
that some row names, and what the rows have beside them of `examples/` is the same there. The tables of docs/refusals.md are those of docs/refusals.ini. Of
what `list` writes the rows have ADDRESS in place of each address. And no line of prose in README.md and docs/*.md is above 160 columns.
"""
import filecmp
import glob
import os
import re
import sys

sys.dont_write_bytecode = True
import explanations
import refusals

TOP = os.path.dirname(os.path.dirname(os.path.realpath(__file__)))
ROWS = os.path.join(TOP, "crates", "mv_test_top")
HARTS = os.path.join(TOP, "crates", "mv_harts_cli")
TITLE = re.compile(r"^# .*\n", re.M)
BLOCK = re.compile(r"^```(\w+)\n(.*?)^```$", re.M | re.S)
# What is no prose: blocks, and the lists that tools/definitions.py writes.
LISTED = re.compile(r"^```.*?^```$|^<!-- definitions -->$.*?^<!-- end of definitions -->$", re.M | re.S)
# The columns that a line of prose may have; a row of a table can't be broken.
COLUMNS = 160
COMMANDS = "| Command | Output | Last line |\n|---|---|---|\n"
SYNOPSES = "| Command | What it does |\n|---|---|\n"
SESSION = re.compile(r"^\$ \./(multiverse|mvharts) ", re.M)
# Where a document leads to a program.
LINKED = re.compile(r"\((?:\.\./)?examples/([\w/]+\.[cs])\)")
# The addresses of a listing.
ADDRESS = re.compile(r"\b0x[0-9a-f]{8}\b")
# The lines on a run that stand before a last line.
LINES = re.compile(r"^(bound|freed|binding|word|instructions) .*\n", re.M)
ATTRIBUTE = "__attribute__((multiverse))"
# What stands around the examples of rules, as docs/refusals.md says.
BEFORE = f"{ATTRIBUTE} int s; int n; const int c = 1; int a[2]; int (*p)(void); int g(int i) {{ return i; }} void v(void) {{ }}\n"
AROUND = {
    "function": (f"{BEFORE}int f(void) {{ ", " }\nint main(void) { }"),
    "unit": (BEFORE, "\nint main(void) { }"),
    "source": ("", ""),
}


def text_of(*names):
    with open(os.path.join(*names), encoding="utf-8") as it:
        return it.read()


def rows():
    """Returns what the rows have of each command, with the text that it is given."""
    given, wanted = (TITLE.split(text_of(ROWS, name))[1:] for name in ("stdin", "stdout"))
    found = {}
    for row, answer in zip(given, wanted):
        command, _, text = row.partition("\n")
        found[command, "\n".join(line[4:] for line in text.splitlines())] = answer
    words = text_of(HARTS, "args").split()
    found[" ".join(["mvharts", *words]), ""] = text_of(HARTS, "stdout") + "done\n"
    return found


def lines_of(text):
    """Returns a text with its last line ended, as the rows have it."""
    return text + "\n" * (text != "" and not text.endswith("\n"))


def in_tables(text):
    """Returns the commands of a document's tables, each with its output and last line, and nothing said behind it."""
    for table in text.split(COMMANDS)[1:]:
        for line in re.match(r"(\|.*\n?)*", table)[0].splitlines():
            command, output, last_line = (it.strip() for it in line.strip("|").split("|"))
            linked = re.search(r"\(\.\./(examples/.*\.out)\)", output)
            output = text_of(TOP, linked[1]) if linked else output.strip("`")
            yield command.strip("`"), lines_of(output) + lines_of(last_line.strip("`")), ""


def in_blocks(text):
    """Returns the commands of a document's blocks, as the rows have them, with what they write and what is said behind it."""
    for kind, block in BLOCK.findall(text):
        parts = SESSION.split(block)[1:] if kind == "console" else []
        for name, session in zip(parts[::2], parts[1::2]):
            words, _, answer = session.partition("\n")
            said = "".join(re.findall(rf"^{name}: .*\n", answer, re.M))
            yield words if name == "multiverse" else f"{name} {words}", answer.replace(said, ""), said


def explanation(command, answer):
    """Returns what the launcher says at a terminal behind the notes of a command."""
    os.chdir(TOP)
    words = command.split(" < ")[0].split()
    name = words.pop(0) if words[0] == "mvharts" else "multiverse"
    return "".join(f"{name}: {line}\n" for line in explanations.of_notes(name, answer, words))


def wrong_in(document, known):
    """Returns what a document says of commands that isn't so."""
    text = text_of(document)
    for command, answer, said in [*in_tables(text), *in_blocks(text)]:
        has = known.get((command.replace("examples/", ""), ""))
        if command.startswith("list "):
            answer = ADDRESS.sub("ADDRESS", answer)
        if has != answer:
            yield f"`{command}` gives {has!r}"
        elif said and said != explanation(command, answer):
            yield f"of `{command}` is said {explanation(command, answer)!r}"
    synopses = known["help", ""].splitlines() + explanations.SYNOPSES["mvharts"].splitlines()
    for table in text.split(SYNOPSES)[1:]:
        for command in re.findall(r"^\| `(.*?)`", re.match(r"(\|.*\n?)*", table)[0], re.M):
            if all(command not in (line, line.rpartition("] ")[2]) for line in synopses):
                yield f"`{command}` is no line of the synopsis"


def wrong_programs_in(document, known):
    """Returns what a document has of programs that is none of examples/, or that no row names."""
    text = text_of(document)
    examples = [text_of(file) for file in glob.glob(os.path.join(TOP, "examples", "*.c"))]
    blocks = [block for kind, block in BLOCK.findall(text) if kind == "c"]
    for block in blocks:
        if "int main(void)" in block and block not in examples:
            yield f"a program is no file of examples/: {block.splitlines()[0]}"
        elif os.path.basename(document) == "idioms.md" and all(block not in example for example in examples):
            yield f"an idiom is no part of a file of examples/: {block.splitlines()[0]}"
    for name in sorted(set(LINKED.findall(text))):
        if all(name not in command.split() for command, _ in known):
            yield f"examples/{name} is named by no row"


def too_long_in(document):
    """Returns the lines of a document's prose that are too long."""
    prose = LISTED.sub(lambda it: "\n" * it[0].count("\n"), text_of(document))
    for number, line in enumerate(prose.splitlines(), 1):
        if len(line) > COLUMNS and not line.startswith("|"):
            yield f"line {number} has {len(line)} columns, above {COLUMNS}"


def wrong_refusals(known):
    """Returns the examples of refusals of which the rows have something else."""
    for name, section in refusals.all_refusals().items():
        if "example" in section:
            before, after = AROUND[section.get("in", "source")]
            place, source = refusals.place_in(before + re.sub(r"\bM\b", ATTRIBUTE, section["example"]) + after)
            answer = refusals.with_place(section.get("answer", f"refused 6 {name}"), place)
            if known.get(("run a.c", source)) != f"{answer}\n":
                yield f"{name}: `{source}` gives {known.get(('run a.c', source))!r}, not {answer!r}"
    text = text_of(TOP, "docs", "refusals.md")
    if refusals.with_tables(text) != text:
        yield "docs/refusals.md has other tables: run tools/refusals.py"


def wrong_outputs(known):
    """Returns the outputs in examples/ that the rows have otherwise."""
    for file in sorted(glob.glob(os.path.join(TOP, "examples", "*.out"))):
        name = os.path.basename(file)[: -len(".out")]
        answers = [it for (command, _), it in known.items() if command.endswith(f" < {name}.in") or command.split()[:2] in (["run", f"{name}.c"], ["eval", f"{name}.c"])]
        wanted = lines_of(text_of(file))
        if not answers or any(LINES.sub("", it).splitlines(keepends=True)[:-1] != wanted.splitlines(keepends=True) for it in answers):
            yield f"examples/{name}.out is another output"


def wrong_copies():
    """Returns the files beside the rows that are otherwise in examples/."""
    for file in sorted(it for crate in (ROWS, HARTS) for it in glob.glob(os.path.join(crate, "data", "**", "*.*"), recursive=True)):
        example = os.path.join(TOP, "examples", file.partition("/data/")[2])
        if os.path.exists(example) and not filecmp.cmp(example, file, shallow=False):
            yield f"{os.path.relpath(file, TOP)} is another in examples/"


def main():
    known = rows()
    documents = [os.path.join(TOP, "README.md"), *sorted(glob.glob(os.path.join(TOP, "docs", "*.md")))]
    wrong = [f"{os.path.relpath(it, TOP)}: {what}" for it in documents for what in [*wrong_in(it, known), *wrong_programs_in(it, known), *too_long_in(it)]]
    wrong += [*wrong_refusals(known), *wrong_outputs(known), *wrong_copies()]
    print(*wrong, sep="\n", end="\n" * bool(wrong))
    return 1 if wrong else 0


if __name__ == "__main__":
    sys.exit(main())
