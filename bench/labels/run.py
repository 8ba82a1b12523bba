#!/usr/bin/env python3
"""What the scan of assembler text takes for labels that collide in a hash table with a known hash, and for plain ones

Each kind is made with 40,000, 80,000 and 160,000 labels. Printed are seconds of the processor, how they grow for a label, and how many times those of plain labels they
are. Ends with 1 where a kind takes more than twice the time of a label at a greater size, or labels that collide more than three times that of plain ones. Needs the
program `mv_test_asmtext` that .ci/run leaves (or PROGRAM), and gcc for the names that collide.
"""
import itertools
import os
import resource
import string
import subprocess
import sys
import tempfile

HERE = os.path.dirname(os.path.realpath(__file__))
PROGRAM = os.environ.get("PROGRAM", os.path.join(HERE, "..", "..", "crates", "mv_test_asmtext", "out", "mv_test_asmtext"))
COLLIDE = os.path.join(HERE, "..", "front", "collide.c")
SIZES = (40_000, 80_000, 160_000)
# What a scan may take before it is given up.
SECONDS = 120


def colliding(room):
    """Returns names that collide."""
    program = os.path.join(room, "collide")
    subprocess.run(["gcc", "-O2", "-o", program, COLLIDE], check=True)
    return subprocess.run([program, str(SIZES[-1])], capture_output=True, text=True, check=True).stdout.split()


def ordered():
    """Returns names in their order."""
    return ["".join(letters) for letters in itertools.islice(itertools.product(string.ascii_lowercase, repeat=5), SIZES[-1])]


def limit():
    """Keeps a scan from going on for ever."""
    resource.setrlimit(resource.RLIMIT_CPU, (SECONDS, SECONDS))


def taken(names):
    """Returns the seconds of a scan of these labels before one instruction."""
    with tempfile.TemporaryFile() as text:
        text.write("".join(f"{name}:\n" for name in names).encode() + b"addi zero, zero, 0\n")
        text.seek(0)
        ran = subprocess.Popen([PROGRAM], stdin=text, stdout=subprocess.DEVNULL, preexec_fn=limit)
        status, usage = os.wait4(ran.pid, 0)[1:]
    seconds = usage.ru_utime + usage.ru_stime
    return seconds if status == 0 else max(seconds, SECONDS)


def main():
    if not os.access(PROGRAM, os.X_OK):
        sys.exit(f"no {PROGRAM}: .ci/run makes it")
    is_slow = False
    with tempfile.TemporaryDirectory() as room:
        kinds = {"plain": ordered(), "that collide": colliding(room)}
    before = dict.fromkeys(kinds)
    for size in SIZES:
        seconds = {kind: max(taken(names[:size]), 0.001) for kind, names in kinds.items()}
        for kind, it in seconds.items():
            growth = it / size / before[kind] if before[kind] else 1
            times = it / seconds["plain"]
            is_slow |= growth > 2 or times > 3
            print(f"{size} labels {kind}: {it:.2f} s; a label, growth {growth:.2f}; of plain ones {times:.2f}", flush=True)
            before[kind] = it / size
    sys.exit(is_slow)


if __name__ == "__main__":
    main()
