#!/usr/bin/env python3
"""The programs that are kept, and the sum by which they are known.

  kept_program.py sum         prints the sum of the sources and the toolchain as they stand
  kept_program.py keep SUM    keeps the programs that the gate has built as the proved ones of SUM, if that is the sum still

A kept program is a file of `out/` at the top, named by its name, its kind and its sum. So it is found exactly for the sources and the
toolchain that it was made of, whatever the times of the files say.
"""
import contextlib
import fcntl
import hashlib
import os
import shutil
import subprocess
import sys

TOP = os.path.dirname(os.path.dirname(os.path.realpath(__file__)))
PLACE = os.path.join(TOP, "out")
KINDS = ("proved", "unproved")
# The crate of each program.
CRATES = {"multiverse": "mv_cli", "mvharts": "mv_harts_cli"}


class NoToolchain(Exception):
    """The toolchain's `rt` can't be run."""


def sources():
    """Returns the paths from the top of all files that a program is made of, in order."""
    found = [name for name in ("crates.txt", "HANDLES") if os.path.isfile(os.path.join(TOP, name))]
    for crate in os.listdir(os.path.join(TOP, "crates")):
        for part in ("src", "specs", "proofs"):
            for at, _, names in os.walk(os.path.join(TOP, "crates", crate, part)):
                found += (os.path.relpath(os.path.join(at, name), TOP) for name in names)
    return sorted(found)


def sum_of_sources():
    """Returns the sum of the toolchain's version and of the names and texts of all sources."""
    try:
        toolchain = subprocess.Popen(["rt", "version"], stdout=subprocess.PIPE)
    except OSError as error:
        raise NoToolchain(error.strerror) from error
    whole = hashlib.sha256()
    for name in sources():
        with open(os.path.join(TOP, name), "rb") as it:
            text = it.read()
        whole.update(f"{name}\n{len(text)}\n".encode() + text)
    version = toolchain.communicate()[0]
    if toolchain.returncode != 0:
        raise NoToolchain(f"rt version ends with {toolchain.returncode}")
    whole.update(version)
    return whole.hexdigest()


def place_of(name, kind, known_sum):
    """Returns where the program of a name, a kind and a sum is kept."""
    return os.path.join(PLACE, f"{name}-{kind}-{known_sum}")


def find(name, known_sum):
    """Returns the kind of the best program of a name that is kept for a sum, or None."""
    return next((kind for kind in KINDS if os.access(place_of(name, kind, known_sum), os.X_OK)), None)


@contextlib.contextmanager
def alone(at_a_wait):
    """Lets one process in at a time. One that has to wait calls the function first."""
    os.makedirs(PLACE, exist_ok=True)
    with open(os.path.join(PLACE, "lock"), "w", encoding="utf-8") as lock:
        try:
            fcntl.flock(lock, fcntl.LOCK_EX | fcntl.LOCK_NB)
        except BlockingIOError:
            at_a_wait()
            fcntl.flock(lock, fcntl.LOCK_EX)
        yield


def keep(program, name, kind, known_sum):
    """Keeps a program in the place of all others of its name and kind."""
    os.makedirs(PLACE, exist_ok=True)
    kept = place_of(name, kind, known_sum)
    copied = os.path.join(PLACE, f"copy-{os.getpid()}")
    try:
        shutil.copy(program, copied)
        os.chmod(copied, 0o755)
        os.replace(copied, kept)
    finally:
        if os.path.exists(copied):
            os.remove(copied)
    for other in os.listdir(PLACE):
        if other.startswith(f"{name}-{kind}-") and other != os.path.basename(kept):
            with contextlib.suppress(FileNotFoundError):
                os.remove(os.path.join(PLACE, other))


def main(words):
    if words == ["sum"]:
        print(sum_of_sources())
    elif len(words) == 2 and words[0] == "keep":
        if sum_of_sources() == words[1]:
            for name, crate in CRATES.items():
                keep(os.path.join(TOP, "crates", crate, "out", crate), name, "proved", words[1])
    else:
        sys.exit(__doc__)


if __name__ == "__main__":
    main(sys.argv[1:])
