"""What a command of the program takes for sources of growing size.

Each kind of source is made with 64 KiB, 256 KiB and 1 MiB and given to the command. Printed are seconds of the processor and megabytes, and how each grows for
a byte. Needs the program that .ci/run leaves (or PROGRAM).
"""
import os
import resource
import subprocess
import sys
import tempfile

HERE = os.path.dirname(os.path.realpath(__file__))
PROGRAM = os.environ.get("PROGRAM", os.path.join(HERE, "..", "..", "crates", "mv_cli", "out", "mv_cli"))
SIZES = (1 << 16, 1 << 18, 1 << 20)


def filled(size, head, parts, tail, separator=""):
    """Returns a text of at most so many bytes, with as many of the parts as there is room for."""
    room, chosen = size - len(head) - len(tail), []
    for part in parts:
        room -= len(part) + len(separator)
        if room < 0:
            break
        chosen.append(part)
    return head + separator.join(chosen) + tail


def taken(command, seconds, bytes_):
    """Returns the seconds and the megabytes of a command that is given up after so many seconds or with so many bytes, and its answer."""

    def limit():
        """Keeps a run from taking the whole machine."""
        resource.setrlimit(resource.RLIMIT_CPU, (seconds, seconds))
        resource.setrlimit(resource.RLIMIT_AS, (bytes_, bytes_))

    with tempfile.TemporaryFile() as notes:
        ran = subprocess.Popen([PROGRAM, *command], stdin=subprocess.DEVNULL, stdout=subprocess.DEVNULL, stderr=notes, preexec_fn=limit)
        status, usage = os.wait4(ran.pid, 0)[1:]
        notes.seek(0)
        answer = notes.read().decode().splitlines()
    return usage.ru_utime + usage.ru_stime, usage.ru_maxrss / 1024, answer[-1] if answer else f"none, status {status}"


def report(kinds, command, seconds, bytes_):
    """Prints what a command, made of the names of a source and of a file beside it, takes for each kind: its name and, of a size, its text."""
    if not os.access(PROGRAM, os.X_OK):
        sys.exit(f"no {PROGRAM}: .ci/run makes it")
    with tempfile.TemporaryDirectory() as room:
        source, beside = os.path.join(room, "source.c"), os.path.join(room, "beside")
        for name, text in kinds:
            before = None
            for size in SIZES:
                with open(source, "w", encoding="ascii") as it:
                    it.write(text(size))
                length = os.path.getsize(source)
                spent, megabytes, answer = taken(command(source, beside), seconds, bytes_)
                growth = f"; a byte, growth {spent / length / before[0]:.2f}, {megabytes / length / before[1]:.2f}" if before else ""
                print(f"{name}, {length} bytes ({answer}): {spent:.2f} s, {megabytes:.0f} MB{growth}", flush=True)
                before = (max(spent, 0.001) / length, megabytes / length)
