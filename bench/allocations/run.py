#!/usr/bin/env python3
"""Allocations of the program for sources with many short lists and names: run.py [KIND..]

Each kind of source has 1,000 items and 2,000. Printed is by how many allocations the program takes more for one item. Needs the program that .ci/run
leaves (or PROGRAM), and gcc for the library that counts.
"""
import os
import subprocess
import sys
import tempfile

HERE = os.path.dirname(os.path.realpath(__file__))
PROGRAM = os.environ.get("PROGRAM", os.path.join(HERE, "..", "..", "crates", "mv_cli", "out", "mv_cli"))
ITEMS = 1000
MARK = "__attribute__((multiverse))"
MAIN = "int main(void){return 0;}"
EIGHT = ",".join(["int"] * 8)


def declared(text):
    """Returns a source of so many texts, each with its number, before `main`."""
    return lambda count: "".join(text.replace("#", str(at)) for at in range(count)) + MAIN


def looped(before, turn):
    """Returns a source whose `main` takes so many turns."""
    return lambda count: f"{before}int main(void){{int i;for(i=0;i<{count};i=i+1){turn}return 0;}}"


KINDS = {
    "a name declared once": declared("int a#;"),
    "a name that hides one": lambda count: "int a;int main(void){" + "{int a;}" * count + "return 0;}",
    "names that were declared before": lambda count: "int f(int a,int b){int c;int d;return 0;}" + "".join(f"int f{at}(int a,int b){{int c;int d;return 0;}}" for at in range(count)) + MAIN,
    "a function of 8 parameters": declared(f"int f#({EIGHT});"),
    "a function that names 6 switches": lambda count: f"{MARK} int {','.join(f's{at}' for at in range(6))};" + "".join(f"int f{at}(void){{return {'+'.join(f's{of}' for of in range(6))};}}" for at in range(count)) + MAIN,
    "a call with 3 arguments": looped("int f(int a,int b,int c){return 0;}", "f(i,1,2);"),
    "a call with 8 arguments": looped(f"int f({','.join(f'int a{at}' for at in range(8))}){{return 0;}}", "f(i,1,2,3,4,5,6,7);"),
}


def allocations(counter, room, source):
    """Returns how many allocations the program takes for a source."""
    file, counts = os.path.join(room, "source.c"), os.path.join(room, "counts")
    with open(file, "w", encoding="ascii") as it:
        it.write(source)
    environment = {**os.environ, "LD_PRELOAD": counter, "COUNTS": counts}
    subprocess.run([PROGRAM, "eval", file, "--bound", "100000"], env=environment, stdin=subprocess.DEVNULL, stdout=subprocess.DEVNULL, check=False, stderr=subprocess.DEVNULL)
    with open(counts, encoding="ascii") as it:
        return int(it.read())


def main(kinds):
    if not os.access(PROGRAM, os.X_OK):
        sys.exit(f"no {PROGRAM}: .ci/run makes it")
    with tempfile.TemporaryDirectory() as room:
        counter = os.path.join(room, "count.so")
        subprocess.run(["gcc", "-O2", "-shared", "-fPIC", "-o", counter, os.path.join(HERE, "count.c"), "-ldl"], check=True)
        for kind in (kind for kind in KINDS if not kinds or kind in kinds):
            few, many = (allocations(counter, room, KINDS[kind](count)) for count in (ITEMS, 2 * ITEMS))
            print(f"{kind}: {(many - few) / ITEMS:.2f}", flush=True)


if __name__ == "__main__":
    main(sys.argv[1:])
