#!/usr/bin/env python3
"""Whether a fetch takes the same however often its word was stored into: stale.py

Two guests of four words store the same word again at each second instruction: one into that very instruction, so that the word has one more choice at each
turn and the program fetches the oldest; the other, which is the baseline, into data. Each is run by `exec` for doubling step limits under callgrind. Printed are
the host instructions for an instruction of each, between one limit and the next, and their ratio. It stays the same where a fetch doesn't depend on the number
of stores; where it walks over them it doubles from line to line. Last comes what the first takes until its stores have no room, and how it ends then. Needs the
program that .ci/run leaves (or PROGRAM) and valgrind.
"""
import os
import struct
import subprocess
import tempfile

from run import PROGRAM, TEXT_START, host_instructions

STEPS = (40_000, 80_000, 160_000, 320_000)
# More instructions than there is room for stores.
ENDLESS = 1_000_000_000
# lw t1, 8(t0); sw t1, 8(t0); j .-4
LOOP = (0x0082A303, 0x0062A423, 0xFFDFF06F)
# lui t0, where text begins, or data
GUESTS = {"text": (0x000012B7, 0), "data": (0x001002B7, 3)}


def image_of(guest):
    """Returns the bytes of a guest's image: 64, and 12 of data."""
    first, data_words = GUESTS[guest]
    words = (first, *LOOP)
    return struct.pack("<4s11I", b"MVI1", 1, TEXT_START, len(words), data_words, *[0] * 7) + struct.pack(f"<{len(words)}I", *words) + bytes(4 * data_words)


def taken(image):
    """Returns the status, the seconds and the megabytes of a run that goes on until its stores have no room."""
    ran = subprocess.Popen([PROGRAM, "exec", image, "--steps", str(ENDLESS)], stdin=subprocess.DEVNULL, stderr=subprocess.DEVNULL)
    status, usage = os.wait4(ran.pid, 0)[1:]
    return os.waitstatus_to_exitcode(status), usage.ru_utime + usage.ru_stime, usage.ru_maxrss / 1024


def main():
    with tempfile.TemporaryDirectory() as room:
        totals = {}
        for guest in GUESTS:
            image = os.path.join(room, f"{guest}.img")
            with open(image, "wb") as it:
                it.write(image_of(guest))
            totals[guest] = [host_instructions(PROGRAM, "exec", image, "--steps", str(steps)) for steps in STEPS]
        for index in range(1, len(STEPS)):
            fewer, more = STEPS[index - 1], STEPS[index]
            text, data = ((it[index] - it[index - 1]) / (more - fewer) for it in (totals["text"], totals["data"]))
            print(f"{fewer:,} to {more:,}: host instructions a guest instruction: text {text:.0f}, data {data:.0f}; ratio {text / data:.2f}")
        status, seconds, megabytes = taken(os.path.join(room, "text.img"))
        print(f"behind the last store that has room: status {status}, {seconds:.1f} s, {megabytes:.0f} MB")


if __name__ == "__main__":
    main()
