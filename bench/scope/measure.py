#!/usr/bin/env python3
"""What names cost in a scope: measure.py PROGRAM COUNTER COLLIDE

For each kind of input: the least seconds of the processor of three runs, and the allocations. PROGRAM is what scope.rt.in is built to, COUNTER the library of
../allocations/count.c, COLLIDE the program of ../front/collide.c. run.sh makes all three.
"""
import itertools
import os
import string
import subprocess
import sys
import tempfile

NAMES = 174_000
FUNCTIONS = 40_000


def ordered():
    return ["".join(letters) for letters in itertools.islice(itertools.product(string.ascii_lowercase, repeat=5), NAMES)]


def colliding(collide):
    return subprocess.run([collide, str(NAMES)], capture_output=True, text=True, check=True).stdout.split()


def functions():
    """Yields the lines of functions, each with 5 names of its own that the others have too, and 20 looks at them."""
    for at in range(FUNCTIONS):
        yield from (f"f{at}", "{", "a", "b", "{", "i", "j", "k")
        yield from ("=a", "=i", "=b", "=j", "=k") * 4
        yield from ("}", "}")


def kinds(collide):
    names = ordered()
    return {
        "names, each new": names,
        "names, each new, and two looks at each": names + [f"={name}" for name in names] * 2,
        "names that collide": colliding(collide),
        "one name under 250 blocks, 500,000 looks": ["x"] + ["{"] * 250 + ["=x"] * 500_000 + ["}"] * 250,
        "100,000 blocks, each with a name that hides one": ["a"] + ["{", "a", "}"] * 100_000,
        "40,000 functions, each with the same 5 names": list(functions()),
    }


def seconds(program, lines):
    lines.seek(0)
    ran = subprocess.Popen([program], stdin=lines, stdout=subprocess.DEVNULL)
    usage = os.wait4(ran.pid, 0)[2]
    return usage.ru_utime + usage.ru_stime


def allocations(program, counter, lines):
    lines.seek(0)
    with tempfile.NamedTemporaryFile("r", encoding="ascii") as counts:
        environment = {**os.environ, "LD_PRELOAD": counter, "COUNTS": counts.name}
        subprocess.run([program], stdin=lines, stdout=subprocess.DEVNULL, env=environment, check=True)
        return int(counts.read())


def main(program, counter, collide):
    for kind, texts in kinds(collide).items():
        with tempfile.TemporaryFile() as lines:
            lines.write("".join(f"{text}\n" for text in texts).encode())
            lines.flush()
            least = min(seconds(program, lines) for _ in range(3))
            print(f"{kind}: {least:.3f} s, {allocations(program, counter, lines)} allocations", flush=True)


if __name__ == "__main__":
    main(*sys.argv[1:])
