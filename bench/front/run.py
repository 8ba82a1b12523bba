#!/usr/bin/env python3
"""What the front end (`eval` at bound 0) takes for sources that are made to be slow, and for plain ones (taking.py): run.py [KIND..]

Needs gcc for the names that collide.
"""
import functools
import itertools
import os
import string
import subprocess
import sys
import tempfile

# Leaves no compiled file beside the scripts.
sys.dont_write_bytecode = True
from taking import HERE, filled, report

MAIN = "int main(void){}"
MARK = "__attribute__((multiverse))"
# What a source may take before it is given up.
SECONDS, BYTES = 60, 1 << 32


@functools.cache
def colliding():
    """Returns names that collide."""
    with tempfile.TemporaryDirectory() as room:
        program = os.path.join(room, "collide")
        subprocess.run(["gcc", "-O2", "-o", program, os.path.join(HERE, "collide.c")], check=True)
        return subprocess.run([program, "174000"], capture_output=True, text=True, check=True).stdout.split()


def ordered():
    """Yields names in their order."""
    return ("".join(letters) for letters in itertools.product(string.ascii_lowercase, repeat=5))


def enumerated(size):
    count = (size - len(MARK) - len(MAIN) - 16) // 14
    return f"{MARK} enum {{{','.join(f'e{at}' for at in range(count))}}} {','.join(f's{at}' for at in range(count))};{MAIN}"


def valued(size):
    values = ",".join(str(at) for at in range(size // 14))
    return filled(size, f"__attribute__((multiverse({values}))) int ", itertools.repeat("a"), f";{MAIN}", ",")


HOSTILE = {
    "names that collide": lambda size: filled(size, "int ", colliding(), f";{MAIN}", ","),
    "an enum and its switches": enumerated,
    "values and declarators": valued,
    "a name under 250 blocks": lambda size: filled(size, "int x;int main(void){" + "{" * 250, itertools.repeat("x"), ";" + "}" * 250 + "}", ";"),
}
PLAIN = {
    "names": lambda size: filled(size, "int ", ordered(), f";{MAIN}", ","),
    "const names": lambda size: filled(size, "const int ", ordered(), f";{MAIN}", ","),
    "attributed names": lambda size: filled(size, f"{MARK} int ", ordered(), f";{MAIN}", ","),
    "functions": lambda size: filled(size, "", (f"int {name}(int a){{return a+1;}}" for name in ordered()), MAIN),
    "statements": lambda size: filled(size, "int x,y;int main(void){", itertools.repeat("x=x*2+y;if(x>y)y=x;"), "}"),
    "one expression": lambda size: filled(size, "int x;int main(void){x=", itertools.repeat("x"), ";}", "+"),
}


def main(chosen):
    groups = (("hostile", HOSTILE), ("plain", PLAIN))
    kinds = [(f"{title}, {name}", text) for title, group in groups for name, text in group.items() if not chosen or name in chosen]
    report(kinds, lambda source, beside: ["eval", source, "--bound", "0"], SECONDS, BYTES)


if __name__ == "__main__":
    main(sys.argv[1:])
