"""What `./multiverse` and `./mvharts` say behind the program's notes, at a terminal or where `--explain on` asks for it."""
import os
import re

import hints
import refusals

# Of each program what its launcher takes. What the commands of `multiverse` are it tells itself.
SYNOPSES = {
    "multiverse": """\
usage: ./multiverse [--explain on|off] [--preprocess] COMMAND
       ./multiverse --build
--preprocess stands before run, build, eval and check; docs/commands.md has all""",
    "mvharts": """\
usage: ./mvharts [--explain on|off] [--preprocess] FILE COUNT NUMBER TURNS
       ./mvharts --build
COUNT is 2 to 4, NUMBER 0 to 4294967295, TURNS 1 to 10000000; docs/harts.md has all""",
}

# The options whose value may be a word of its own.
VALUED = ("--steps", "--at", "--oracle", "--bound")

# The commands of `multiverse` whose file is a source, and the last lines of those that accepted it.
COMPILING = ("run", "build", "eval", "check")
ACCEPTED = re.compile("done|ended|trapped|steps|differs")

# What is wrong with bytes that are no image, and with those of an ELF file that holds none.
FAULTS = {
    "10": "something is missing",
    "11": "a field breaks a rule",
    "12": "something follows the end",
    "20": "a field of the header is wrong",
    "21": "a segment breaks its rule, or none has a word of text,",
    "22": "it is made for something else",
    "23": "the note gives none",
}

# How many characters of a line are shown, and how many of these at most before the place.
WIDTH, BEFORE = 100, 60


def line_at(source, place):
    """Returns the text of a line of a source before a place and from it on."""
    line, column = place
    text = b"".join(source.split(b"\n")[line - 1 : line])
    return tuple(part.decode(errors="replace") for part in (text[: column - 1], text[column - 1 :]))


def text_of(file):
    """Returns the bytes of a file, or None where it can't be read again."""
    if not os.path.isfile(file):
        return None
    with open(file, "rb") as it:
        return it.read()


def shown(before, after):
    """Returns a line, and a caret below the place between its two parts."""
    start = max(0, len(before) - BEFORE)
    blank = "".join("\t" if it == "\t" else " " for it in before[start:])
    whole = "".join(it if it.isprintable() or it == "\t" else " " for it in (before + after)[start : start + WIDTH])
    return [f"    {whole}", f"    {blank}^"]


def operands(words, start):
    """Returns the places of those of some words from a place on that are files or numbers: of all but options."""
    found, at = [], start
    while at < len(words):
        if words[at] == "--":
            return found + list(range(at + 1, len(words)))
        if words[at] in VALUED:
            at += 1
        elif not words[at].startswith("--"):
            found.append(at)
        at += 1
    return found


def places_of_files(name, words):
    """Returns the places of the files that the words of a program name, or of its number."""
    return operands(words, 0)[:1] if name == "mvharts" else operands(words, 1)


def written(word):
    """Returns a word as it is shown: each of its bytes that is no text by its number."""
    return os.fsencode(word).decode(errors="backslashreplace")


def of_words(words, told):
    """Returns the lines that say what no command knows of these words, by what the program tells of its commands."""
    strange = [f"`{written(it)}` is no UTF-8 text" for it in words if written(it) != it]
    asks_for_help = any(it in ("--help", "-h") for it in words)
    known = {line.split()[0]: line for line in told.splitlines()[1:] if line.strip() and not line.startswith(" ")}
    named = words[1:2] if words[:1] == ["help"] else words[:1]
    if not known or not named or strange or asks_for_help:
        return strange
    if named[0] not in known:
        return [f"`{named[0]}` is no command"]
    options = [it.partition("=")[0] for it in words[1:] if it.startswith("-") and it != "-"]
    options = options[: options.index("--")] if "--" in options else options
    return [f"`{words[0]}` has no `{it}`" for it in options if it not in re.findall(r"--\w+", known[words[0]])][:1]


def of_difference(last_line, files):
    """Returns the line that explains where an image differs from that of a source, if this last line says so."""
    if not last_line.startswith("differs "):
        return []
    return [f"{files[1]} isn't the image of {files[0]}: the files of the two differ from byte {last_line.split()[1]} on"]


def of_notes(name, notes, words, source=None, told=lambda: ""):
    """Returns the lines that explain the last line of the notes of a program with these words.

    Where its source is told, that is what it was handed as its file; `told()` is what the program tells of its commands.
    """
    last_line = notes.rstrip("\n").rpartition("\n")[2]
    if last_line == "usage":
        help_of_all = told()
        return [*of_words(words, help_of_all), *SYNOPSES[name].splitlines(), *help_of_all.splitlines()]
    paths = [words[at] for at in places_of_files(name, words)]
    files = [written(it) for it in paths]
    if last_line == "shelf fault" and len(files) > 1 and words[0] != "check":
        return [f"{files[0]} can't be read, or isn't there; or {files[1]} can't be written"]
    if last_line == "shelf fault":
        return [f"{' or '.join(files)} can't be read, or isn't there"]
    if last_line.startswith("bad image "):
        what = "holds no image" if words[0] == "unelf" else "is no image, as `build` saves one"
        return [f"{files[0]} {what}: {FAULTS[last_line.split()[2]]} at byte {last_line.split()[3]}"]
    if source is None and files:
        source = text_of(paths[0])
    if source is not None and ACCEPTED.match(last_line) and (name == "mvharts" or words[0] in COMPILING):
        found = hints.hints(source.decode("latin-1"))
        return of_difference(last_line, files) + [f"{files[0]}:{line}:{column}: hint: {text}" for (line, column), text in found]
    explained = refusals.explained(last_line, source)
    if not explained:
        return []
    place, cause, remedy = explained
    line = line_at(source, place) if place and source is not None else None
    at = f"{files[0]}:{place[0]}:{place[1]}" if place else files[0]
    remedy = (line and refusals.advice(last_line, *line)) or remedy
    return [f"{at}: {cause}", *(shown(*line) if line else []), f"what to do: {remedy}"]
