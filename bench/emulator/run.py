#!/usr/bin/env python3
"""How many host instructions the program takes for one instruction of a guest, beside a tuned loop in C (gcc -O2) with the same regions, tests and choices of
a fetch, which asks the oracle at each fetch as the machine does: run.py [GUEST..]

The loop comes in two forms: one that decodes each word where it is fetched, which is the baseline, and one that decodes text once. Each guest is made an
image without tables, with all the data that an image may have, and run by `exec` for two step limits under callgrind; the difference leaves out what it
takes to start. The guests are words of GNU as (-march=rv32im) from the .s files, linked at 0x1000. Needs the program that .ci/run leaves (or PROGRAM), gcc
and valgrind.
"""
import os
import re
import struct
import subprocess
import sys
import tempfile

HERE = os.path.dirname(os.path.realpath(__file__))
PROGRAM = os.environ.get("PROGRAM", os.path.join(HERE, "..", "..", "crates", "mv_cli", "out", "mv_cli"))
GUESTS = ("count", "sort")
FEW, MANY = 1_000_000, 3_000_000
TEXT_START, DATA_WORDS = 0x1000, 262_144


def image_of(guest):
    """Returns the bytes of an image with this text."""
    header = struct.pack("<4s11I", b"MVI1", 1, TEXT_START, len(guest) // 4, DATA_WORDS, 0, 0, 0, 0, 0, 0, 0)
    return header + guest + bytes(4 * DATA_WORDS)


def host_instructions(*command):
    """Returns how many instructions a command takes, by callgrind."""
    ran = subprocess.run(["valgrind", "--tool=callgrind", "--callgrind-out-file=/dev/null", *command], capture_output=True, text=True, check=False)
    found = re.search(r"Collected : (\d+)", ran.stderr)
    if found is None:
        sys.exit(f"callgrind counts nothing: {ran.stderr}")
    return int(found.group(1))


def each(run):
    """Returns the host instructions for an instruction of the guest; `run` gives those for a number of them."""
    return (run(MANY) - run(FEW)) / (MANY - FEW)


def main(guests):
    if not os.access(PROGRAM, os.X_OK):
        sys.exit(f"no {PROGRAM}: .ci/run makes it")
    with tempfile.TemporaryDirectory() as room:
        loop, decoded, image = (os.path.join(room, name) for name in ("loop", "decoded", "guest.img"))
        for made, forms in (loop, ["-DASK"]), (decoded, ["-DASK", "-DPRE"]):
            subprocess.run(["gcc", "-O2", "-w", *forms, "-o", made, os.path.join(HERE, "loop.c")], check=True)
        for name in guests or GUESTS:
            file = os.path.join(HERE, f"{name}.bin")
            with open(file, "rb") as source, open(image, "wb") as it:
                it.write(image_of(source.read()))
            plain, once = (each(lambda steps, made=made, file=file: host_instructions(made, file, str(steps))) for made in (loop, decoded))
            ours = each(lambda steps: host_instructions(PROGRAM, "exec", image, "--steps", str(steps)))
            print(
                f"{name}: host instructions a guest instruction: C {plain:.1f}, C with text decoded once {once:.1f}, ours {ours:.1f}; "
                f"ratios {ours / plain:.3f}, {ours / once:.2f}",
                flush=True,
            )


if __name__ == "__main__":
    main(sys.argv[1:])
