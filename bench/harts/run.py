#!/usr/bin/env python3
"""How many host instructions a turn of `mvharts` takes, beside an instruction of `exec` of the same program, for two and four harts: run.py [GUEST..]

Each guest goes on for ever. It is run by both with two numbers of turns or steps under callgrind; the difference leaves out what it takes to compile and to start. A second
difference, with three times as many turns, tells whether that is linear in the turns. Needs the programs that .ci/run leaves (or MULTIVERSE and MVHARTS), and valgrind.
"""
import os
import re
import subprocess
import sys
import tempfile

TOP = os.path.join(os.path.dirname(os.path.realpath(__file__)), "..", "..")
MULTIVERSE = os.environ.get("MULTIVERSE", os.path.join(TOP, "crates", "mv_cli", "out", "mv_cli"))
MVHARTS = os.environ.get("MVHARTS", os.path.join(TOP, "crates", "mv_harts_cli", "out", "mv_harts_cli"))
TURNS = (1_000_000, 3_000_000, 9_000_000)
COUNTS = (2, 4)
NUMBER = "7"
MARK = "__attribute__((multiverse))"
GUESTS = {
    "counting": "int n; int main(void) { while (1) n = n + 1; }",
    "arrays": "int a[64]; int main(void) { int i; while (1) for (i = 0; i < 64; i++) a[i] = a[63 - i] + i; }",
    "calls": f"{MARK} int on; int n; {MARK} void count(int k) {{ while (k) {{ if (on) n = n + k; k = k - 1; }} }} int main(void) {{ while (1) count(3); }}",
    "polls": "int main(void) { while (1) multiverse_poll(); }",
}


def host_instructions(*command):
    """Returns how many instructions a command takes, by callgrind."""
    ran = subprocess.run(["valgrind", "--tool=callgrind", "--callgrind-out-file=/dev/null", *command], stdin=subprocess.DEVNULL, capture_output=True, text=True, check=False)
    found = re.search(r"Collected : (\d+)", ran.stderr)
    if found is None:
        sys.exit(f"callgrind counts nothing: {ran.stderr}")
    return int(found.group(1))


def each(run, few, many):
    """Returns the host instructions of one turn; `run` gives those of a number of them."""
    return (run(many) - run(few)) / (many - few)


def measured(room, name):
    """Prints what a guest takes."""
    source, image = os.path.join(room, "guest.c"), os.path.join(room, "guest.img")
    with open(source, "w", encoding="utf-8") as it:
        it.write(GUESTS[name])
    subprocess.run([MULTIVERSE, "build", source, image], stdin=subprocess.DEVNULL, stderr=subprocess.DEVNULL, check=True)
    alone = each(lambda steps: host_instructions(MULTIVERSE, "exec", image, "--steps", str(steps)), *TURNS[:2])
    for count in COUNTS:
        taken = {turns: host_instructions(MVHARTS, source, str(count), NUMBER, str(turns)) for turns in TURNS}
        first, second = each(taken.get, *TURNS[:2]), each(taken.get, *TURNS[1:])
        print(f"{name}, {count} harts: host instructions a turn {first:.1f}, an instruction of exec {alone:.1f}; ratio {first / alone:.3f}, growth {second / first:.3f}", flush=True)


def main(guests):
    for program in (MULTIVERSE, MVHARTS):
        if not os.access(program, os.X_OK):
            sys.exit(f"no {program}: .ci/run makes it")
    with tempfile.TemporaryDirectory() as room:
        for name in guests or GUESTS:
            measured(room, name)


if __name__ == "__main__":
    main(sys.argv[1:])
