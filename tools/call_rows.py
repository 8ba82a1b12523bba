#!/usr/bin/env python3
"""Images by hand that make one environment call, and what comes of it by the rules of docs/machine.md and docs/switches.md: the rows `# an image: ..` of
crates/mv_test_top.

  call_rows.py     writes these rows anew, at the end of stdin and stdout

Each image makes a call with the words of a7, a0, a1 and s10, stores the pairs of the plan into text, executes FENCE.I and exits with the answer. It has no
tables, or those of a switch `s` of the values -1 and 3 and two functions: `dp`, which has the switch, with a site, a variant for 3 with an inline body and one for
-1 without; and `g2` without switches, with one variant. What is bound, told and stored is worked out here, by a model of the rules that knows nothing of the machine.
"""
import os
import re

ROWS = os.path.join(os.path.dirname(os.path.dirname(os.path.realpath(__file__))), "crates", "mv_test_top")
TITLE = "# an image: "
NOP = 0x13
COMMIT, POLL = 4, 5
CALLS = [
    # a7, a0, a1, s10, and the word of the switch, or None where there are no tables
    *[(COMMIT, a0, a1, 0, 7) for a0, a1 in ((0, 0), (1, 0), (2, 0), (2, 1), (3, 1), (4, 0))],
    *[(COMMIT, a0, a1, 0, 3) for a0, a1 in ((4, 0), (0, 0), (5, 0))],
    (POLL, 0, 0, 0, 3),
    *[(COMMIT, a0, a1, 0, 3) for a0, a1 in ((6, 0), (2, 2), (3, 2), (4, 1), (5, 1))],
    *[(COMMIT, a0, 0, 1, 3) for a0 in (0, 1, 6)],
    (POLL, 0, 0, 1, 3),
    *[(COMMIT, a0, a1, 0, 3) for a0, a1 in ((0, 9), (-1, 0), (3, -1))],
    *[(COMMIT, a0, a1, 1, 3) for a0, a1 in ((2, 2), (2, 1), (3, 0), (4, 0), (5, 0))],
    (COMMIT, 0, 0, -1, 3),
    (POLL, 0, 0, -1, 3),
    (6, 0, 0, 0, 3),
    (COMMIT, 0, 0, 0, -1),
    *[(COMMIT, a0, 0, 0, None) for a0 in (0, 1, 2, 3, 4, 5, 6)],
    *[(COMMIT, a0, 0, 1, None) for a0 in (0, 1)],
    *[(POLL, 0, 0, live, None) for live in (0, 1)],
]


def addi(register, value):
    return (value & 0xFFF) << 20 | register << 7 | NOP


def text(a7, a0, a1, live):
    """Returns the words of text: the call, the loop over the pairs, FENCE.I, the exit; and from 0x104c on the functions with their variants."""
    call = [addi(17, a7), addi(10, a0), addi(11, a1), addi(26, live), 0x73]
    pairs = [0x004002B7, 0x0002A303, 0x00030E63, 0x0042A383, 0x0082AE03, 0x01C3A023, 0x00828293, 0xFFF30313, 0xFE9FF06F]
    return [*call, *pairs, 0x100F, addi(17, 0), 0x73, NOP, NOP, NOP, NOP, 0xFF9FF0EF, *[NOP] * 7]


def image(a7, a0, a1, live, switch):
    """Returns the words of an image."""
    words = text(a7, a0, a1, live)
    if switch is None:
        return [0x3149564D, 1, 0x1000, len(words), *[0] * 8, *words]
    tables = [
        [1, 0x100000, 5, 2, -1, 3, *[0] * 14],
        [2, 0x104C, 1, *[0] * 6, 2],
        [2, 0x105C, 0, *[0] * 6, 1],
        [0x1064, 1, 0x00100513, 0x00200593, 1],
        [0x1068, 0, 0, 0, 1],
        [0x106C, 0, 0, 0, 1],
        [3, *[0] * 5, 3, *[0] * 5],
        [-1, *[0] * 5, -1, *[0] * 5],
        [0] * 12,
        [0x1054, 0],
    ]
    names = [int.from_bytes(b"sdpg", "little"), int.from_bytes(b"2", "little")]
    return [0x3149564D, 1, 0x1000, len(words), 1, 1, 2, 3, 3, 1, 5, 0, *words, switch, *sum(tables, []), *names]


def executed(known, pairs):
    """Returns how many instructions an image executes: those up to the call, and behind it a load of the area, 7 for each pair, a last test, FENCE.I and the exit."""
    return 11 + 7 * pairs if known else 5


def is_known(a7, a0, a1, functions, switches):
    """Whether there is a call of these words."""
    if a7 == POLL or a0 in (0, 1):
        return a7 in (COMMIT, POLL)
    return a7 == COMMIT and (a0 in (2, 3) and 0 <= a1 < functions or a0 in (4, 5) and 0 <= a1 < switches)


def bound(a7, a0, a1, live, switch):
    """Returns what is bound behind a call that is known, from all functions free, by number; and its answer."""
    if a7 == POLL or live:
        return {}, 0 if a7 == POLL else 255
    addressed = ([0, 1] if a0 < 2 else [a1] if a0 < 4 else [0]) if switch is not None else []
    if a0 % 2:
        return {}, 0
    values = {0: [switch] if switch in (3, -1) else None, 1: []}
    found = {number: values[number] for number in addressed if values[number] is not None}
    return found, len(found)


def changed(bindings):
    """Returns the words of text that are others under bindings: address, old and new word."""
    words = []
    if 0 in bindings:
        inlined = bindings[0] == [3]
        words.append((0x104C, NOP, 0x0180006F if inlined else 0x01C0006F))
        words += [(0x1054, 0xFF9FF0EF, 0x00100513), (0x1058, NOP, 0x00200593)] if inlined else [(0x1054, 0xFF9FF0EF, 0x014000EF)]
    if 1 in bindings:
        words.append((0x105C, NOP, 0x0100006F))
    return words


def answer(a7, a0, a1, live, switch):
    """Returns what is printed of a row."""
    functions = [] if switch is None else ["dp", "g2"]
    known = is_known(a7, a0, a1, len(functions), min(len(functions), 1))
    bindings, status = bound(a7, a0, a1, live, switch) if known else ({}, 0)
    shown = {number: "".join(f" s={it}" for it in values) for number, values in bindings.items()}
    lines = [f"bound {functions[number]}{values}" for number, values in shown.items()]
    for number, name in enumerate(functions):
        lines.append(f"binding {name}{shown.get(number, ' free')}")
    lines += [f"word {address:#010x} {old:#010x} {new:#010x}" for address, old, new in changed(bindings)]
    lines.append(f"instructions {executed(known, len(changed(bindings)))}")
    lines.append(f"ended {status}" if known else "machine fault 0x00001010 call")
    log = [" ".join(str(it & 0xFFFFFFFF) for it in [number, *values]) for number, values in bindings.items()]
    lines.append(f"{2 - bool(log)} left, {len(log)} events{': ' * bool(log)}{', '.join(log)}")
    return "".join(f"{it}\n" for it in lines)


def printed(words):
    """Returns words as a row has them, with zeros counted."""
    text = " ".join(f"0x{it & 0xFFFFFFFF:x}" for it in words)
    return re.sub(r"0x0(?: 0x0)+", lambda it: f"00000000*{it[0].count(' ') + 1}", text)


def title(a7, a0, a1, live, switch):
    tables = "without tables" if switch is None else f"the switch at {switch}"
    return f"{TITLE}call {a7} with {a0} and {a1}, {live} live, {tables}\n"


def replace_rows(name, rows):
    path = os.path.join(ROWS, name)
    with open(path, encoding="utf-8") as it:
        kept = re.sub(rf"^{TITLE}.*\n(?:(?!# ).*\n)*", "", it.read(), flags=re.M)
    with open(path, "w", encoding="utf-8") as it:
        it.write(kept + "".join(rows))


def main():
    replace_rows("stdin", [f"{title(*call)}exec b.img --log --bindings --words --stats !log\n    @b.img {printed(image(*call))}\n" for call in CALLS])
    replace_rows("stdout", [title(*call) + answer(*call) for call in CALLS])


if __name__ == "__main__":
    main()
