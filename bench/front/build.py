#!/usr/bin/env python3
"""What `build` takes for sources that are made to be slow (taking.py): build.py [KIND..]"""
import itertools
import sys

# Leaves no compiled file beside the scripts.
sys.dont_write_bytecode = True
from taking import filled, report

MARK = "__attribute__((multiverse))"
SWITCHES = f"{MARK} int a,b,c,d,e,f;int x,y;"
# Reads each of the switches, and is nothing once they are bound.
READS = "".join(f"if({switch}&0)y=1;" for switch in "abcdef")
# Another value for each assignment.
DIFFERS = "y=a+2*b+4*c+8*d+16*e+32*f;"
CALL = "int main(void){v();}"
# What a source may take before it is given up.
SECONDS, BYTES = 120, 12 << 30


def one(size, first, part, last=""):
    """One attributed function of six switches."""
    return filled(size, SWITCHES + MARK + "void v(void){" + first, itertools.repeat(part), last + "}" + CALL)


def many(size, body):
    """Many such functions."""
    functions = (f"{MARK} void v{at}(void){{{body}}}" for at in itertools.count(1))
    return filled(size, SWITCHES + f"{MARK} void v(void){{{body}}}", itertools.islice(functions, 990), CALL)


KINDS = {
    # Bodies under different assignments differ, at the end or at each statement.
    "variants that differ at the end": lambda size: one(size, "", "x=x*2+y;", DIFFERS),
    "variants that differ everywhere": lambda size: one(size, "", DIFFERS),
    # They are equal, before they are folded or only after.
    "variants that are alike": lambda size: one(size, READS, "x=x*2+y;"),
    "variants that folding makes alike": lambda size: one(size, "int t;" + "".join(f"t={switch};" for switch in "abcdef"), "x=x*2+y;"),
    "variants that numbering makes alike": lambda size: one(size, "".join(f"if({s}){{int p;p=x;y=p+p;}}else{{int q;q=x;y=q+q;}}" for s in "abcdef"), "x=x*2+y;"),
    # What is large is dead under all assignments or under half of them.
    "dead code": lambda size: one(size, READS + "if(a&0){", "x=x*2+y;", "}"),
    "code that is dead under half": lambda size: one(size, READS + "if(a){", "x=x*2+y;", "}"),
    "constants": lambda size: filled(size, SWITCHES + MARK + "void v(void){x=a", itertools.chain("+b+c+d+e+f", itertools.repeat("+a")), ";}" + CALL),
    # Sites.
    "calls of an attributed function in one": lambda size: filled(size, SWITCHES + MARK + "void w(void){x=a;}" + MARK + "void v(void){" + DIFFERS, itertools.repeat("w();"), "}" + CALL),
    "calls of an attributed function in main": lambda size: filled(size, SWITCHES + MARK + "void w(void){x=a;}int main(void){", itertools.repeat("w();"), "}"),
    # Many functions of 64 assignments each.
    "many functions that differ": lambda size: many(size, DIFFERS * max(1, size // 40000)),
    "many functions that are alike": lambda size: many(size, READS + "x=x*2+y;" * max(1, size // 10000)),
}


def main(chosen):
    kinds = [(name, text) for name, text in KINDS.items() if not chosen or name in chosen]
    report(kinds, lambda source, image: ["build", source, image], SECONDS, BYTES)


if __name__ == "__main__":
    main(sys.argv[1:])
