#!/usr/bin/env python3
"""What a commit saves and what it costs: run.py [saves|forms|pointers|costs]..

saves: guest instructions of 100,000 calls of an attributed function that tests a switch: free, bound by a commit, and with a constant in the place of the
switch. The function with the constant keeps its attribute; it is told free and bound as well. One callee is inlined where it is bound, the other is called.
forms: guest instructions of calls of an attributed function that tests two switches in one of the usual forms: free, bound by a commit, and bound with a body
whose dead code was left out by hand.
pointers: guest instructions of calls through a pointer switch: free, bound by a commit, and with direct calls in their place, the pointer switch kept.
costs: what a commit takes as the sites grow, in guest instructions and in time of the host, where one word of each site changes, and where both do.

Guest instructions are counted by the least step limit that is enough. Time is the processor's, of many commits less that of none, and the least of several runs.
Needs the program that .ci/run leaves, or PROGRAM.
"""
import os
import resource
import subprocess
import sys
import tempfile

HERE = os.path.dirname(os.path.realpath(__file__))
PROGRAM = os.environ.get("PROGRAM", os.path.join(HERE, "..", "..", "crates", "mv_cli", "out", "mv_cli"))
MARK = "__attribute__((multiverse))"
CALLS = 100_000
SITES = (64, 256, 1_024, 4_096, 16_384)
# How many sites are committed while time is taken, and how often it is taken.
COMMITTED, RUNS = 2_621_440, 5
# What the callee does where the switch is on: a store of its parameter is inlined, a sum is not.
CALLEES = {"inlined": "sum = n;", "called": "sum += n;"}

# What an operation does that is called through a pointer switch.
OPERATIONS = {
    "a sum": "sum += n;",
    "four sums in a loop": "int k; for (k = 0; k < 4; k++) sum += n;",
    "sixteen sums in a loop": "int k; for (k = 0; k < 16; k++) sum += n;",
}

# Forms in which a callee tests its switches a and b, and, under values of these, its body without dead code.
FORMS = (
    ("if (a) sum += n;", {(0, 0): "", (1, 0): "sum += n;"}),
    ("if (a || b) sum += n;", {(0, 0): "", (0, 1): "sum += n;", (1, 0): "sum += n;"}),
    ("if (a && b) sum += n;", {(0, 1): "", (1, 0): "", (1, 1): "sum += n;"}),
    ("if (a ? b : 0) sum += n;", {(0, 1): "", (1, 0): "", (1, 1): "sum += n;"}),
    ("int on = a; if (on) sum += n;", {(0, 0): "", (1, 0): "sum += n;"}),
    ("int on = a || b; if (on && n) sum += n;", {(0, 0): "", (1, 1): "if (n) sum += n;"}),
    ("switch (a) { case 0: break; case 1: sum += n; }", {(0, 0): "", (1, 0): "sum += n;"}),
    ("switch (a) { case 0: sum -= n; break; default: sum += n; }", {(0, 0): "sum -= n;", (1, 0): "sum += n;"}),
    ("int i; int on = a; for (i = 0; i < 3; i++) if (on) sum += i;", {(0, 0): "int i; for (i = 0; i < 3; i++) ;", (1, 0): "int i; for (i = 0; i < 3; i++) sum += i;"}),
    ("while (a) { sum += n; break; }", {(0, 0): "", (1, 0): "sum += n;"}),
)


def notes_of(source, *options):
    """Returns the last line of a run's notes."""
    ran = subprocess.run([PROGRAM, "run", source, *options], stdin=subprocess.DEVNULL, capture_output=True, check=False)
    return ran.stderr.decode().splitlines()[-1]


def instructions(source):
    """Returns how many instructions a guest executes up to its end."""
    low, high = 0, 1
    while notes_of(source, "--steps", str(high)) == "steps":
        low, high = high, 2 * high
    while high - low > 1:
        middle = (low + high) // 2
        if notes_of(source, "--steps", str(middle)) == "steps":
            low = middle
        else:
            high = middle
    return high


def seconds(source):
    """Returns the processor time of a run."""
    before = resource.getrusage(resource.RUSAGE_CHILDREN)
    notes_of(source)
    after = resource.getrusage(resource.RUSAGE_CHILDREN)
    return after.ru_utime + after.ru_stime - before.ru_utime - before.ru_stime


def written(room, text):
    """Puts a guest into a file, and returns its name."""
    file = os.path.join(room, "guest.c")
    with open(file, "w", encoding="utf-8") as it:
        it.write(text)
    return file


def calling(body, switches, commit):
    """Returns a guest that makes the calls: the switches and the callee are so, and it commits or not."""
    return f"""{switches}
int sum;
{MARK} void callee(int n) {{ {body} }}
int main(void) {{
    int i;
    {commit}
    for (i = 0; i < {CALLS}; i++) callee(i);
}}
"""


def committing(inlined, sites, commits):
    """Returns a guest with so many sites that makes so many commits. By each of them the binding changes."""
    body = "if (on) return one; return other;" if inlined else "return sum += on + 2;"
    return f"""{MARK} int on;
int sum, one, other;
{MARK} int callee(void) {{ {body} }}
void sites(void) {{ {"callee(); " * sites} }}
int main(void) {{
    int i;
    for (i = 1; i <= {commits}; i++) {{ on = i & 1; multiverse_commit(); }}
}}
"""


def saves(room):
    switch, constant = f"{MARK} int on = 1;", "enum { on = 1 };"
    commit = "multiverse_commit();"
    for name, body in CALLEES.items():
        guests = [(switch, ""), (switch, commit), (constant, ""), (constant, commit)]
        free, bound, plain, folded = (instructions(written(room, calling(f"if (on) {body}", *guest))) / CALLS for guest in guests)
        print(f"{name}: guest instructions a turn: free {free:.2f}, committed {bound:.2f}, constant {plain:.2f}, constant and committed {folded:.2f}; ", end="")
        print(f"committed by free {bound / free:.3f}, by constant {bound / plain:.3f}, by constant and committed {bound / folded:.3f}", flush=True)


def forms(room):
    for form, bodies in FORMS:
        for (a, b), body in bodies.items():
            switches = f"{MARK} int a = {a}; {MARK} int b = {b};"
            guests = ((form, ""), (form, "multiverse_commit();"), (body, "multiverse_commit();"))
            free, bound, by_hand = (instructions(written(room, calling(it, switches, commit))) / CALLS for it, commit in guests)
            print(f"{form} under {a}, {b}: guest instructions a turn: free {free:.2f}, committed {bound:.2f}, ", end="")
            print(f"by hand {by_hand:.2f}; committed by by hand {bound / by_hand:.3f}", flush=True)


def pointers(room):
    for name, body in OPERATIONS.items():
        operation = f"int sum; void operation(int n) {{ {body} }} {MARK} void (*through)(int) = operation;"
        guests = (("", "through(i)"), ("multiverse_commit();", "through(i)"), ("multiverse_commit();", "operation(i)"))
        texts = (f"{operation} int main(void) {{ int i; {commit} for (i = 0; i < {CALLS}; i++) {call}; }}" for commit, call in guests)
        free, bound, direct = (instructions(written(room, it)) / CALLS for it in texts)
        print(f"{name}: guest instructions a turn: through a free pointer switch {free:.2f}, a committed one {bound:.2f}, direct {direct:.2f}; ", end="")
        print(f"committed by free {bound / free:.3f}, by direct {bound / direct:.3f}", flush=True)


def costs(room):
    for name, inlined in (("one word a site", False), ("both words a site", True)):
        before = None
        for sites in SITES:
            guest = [instructions(written(room, committing(inlined, sites, commits))) for commits in (0, 1)]
            timed = COMMITTED // sites
            none, many = (min(seconds(written(room, committing(inlined, sites, commits))) for _ in range(RUNS)) for commits in (0, timed))
            each, time = (guest[1] - guest[0]) / sites, 1e6 * (many - none) / timed / sites
            growth = f"; growth {each / before[0]:.2f}, {time / before[1]:.2f}" if before and before[1] > 0 else ""
            print(f"{name}, {sites} sites: guest instructions of a commit {guest[1] - guest[0]}, a site {each:.2f}, microseconds a site {time:.3f}{growth}", flush=True)
            before = (each, time)


def main(measures):
    if not os.access(PROGRAM, os.X_OK):
        sys.exit(f"no {PROGRAM}: .ci/run makes it")
    with tempfile.TemporaryDirectory() as room:
        for measure in measures or ("saves", "forms", "pointers", "costs"):
            {"saves": saves, "forms": forms, "pointers": pointers, "costs": costs}[measure](room)


if __name__ == "__main__":
    main(sys.argv[1:])
