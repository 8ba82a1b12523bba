#!/usr/bin/env python3
"""Kills builds at random times, and lets them find no room: the image has its old bytes or the new ones.   killed_builds.py PROGRAM [TIMES]

PROGRAM: the program `multiverse`. Two sources are built in turn under one name, and each build is killed at a time between its start and a little behind
its end. Then the second is built over the first where no file may be longer than so many bytes, from none to all of its image, as on a full disk: each such
build but the last has to answer a shelf fault, and to leave nothing beside. It prints how many left the old image and how many the new one; it ends with 1
where the name had other bytes than these. It is no part of the gate.
"""
import os
import random
import resource
import signal
import subprocess
import sys
import tempfile
import time

TOP = os.path.dirname(os.path.dirname(os.path.realpath(__file__)))
SOURCES = ("order", "tokenizer")
DONE, SHELF_FAULT = 0, 7
# How many lengths of files are tried.
LENGTHS = 50


def bytes_of(name):
    with open(name, "rb") as it:
        return it.read()


def built(program, source, image, **how):
    """Starts a build."""
    return subprocess.Popen([program, "build", source, image], stdout=subprocess.DEVNULL, stderr=subprocess.DEVNULL, **how)


def killed_in_turn(program, times, sources, image, images, longest):
    """Builds the sources in turn, and kills each build."""
    room = os.path.dirname(image)
    now, killed, olds, news = 1, 0, 0, 0
    for turn in range(times):
        build = built(program, sources[1 - now], image)
        time.sleep(random.random() * longest * 1.2)
        build.send_signal(signal.SIGKILL)
        killed += build.wait() == -signal.SIGKILL
        found = bytes_of(image)
        if found not in images:
            sys.exit(f"turn {turn}: {len(found)} bytes that are neither the old nor the new ones")
        if found == images[now]:
            olds += 1
        else:
            news, now = news + 1, 1 - now
        for name in os.listdir(room):
            if name != "image":
                os.remove(os.path.join(room, name))
    print(f"{times} builds, {killed} killed: {olds} left the old image, {news} the new one, none another")


def limited(length):
    """Has each write beyond so many bytes of a file fail, as on a full disk."""
    signal.signal(signal.SIGXFSZ, signal.SIG_IGN)
    resource.setrlimit(resource.RLIMIT_FSIZE, (length, length))


def without_room(program, source, image, old, new):
    """Builds a source over an old image where files may have ever more bytes."""
    lengths = sorted({len(new) * part // LENGTHS for part in range(LENGTHS + 1)} | {len(new) - 1})
    for length in lengths:
        with open(image, "wb") as it:
            it.write(old)
        status = built(program, source, image, preexec_fn=lambda: limited(length), restore_signals=False).wait()
        wanted = (DONE, new) if length == len(new) else (SHELF_FAULT, old)
        if (status, bytes_of(image)) != wanted or os.listdir(os.path.dirname(image)) != ["image"]:
            sys.exit(f"{length} bytes of room: status {status}, {len(bytes_of(image))} bytes, {sorted(os.listdir(os.path.dirname(image)))}")
    print(f"{len(lengths)} builds with room for 0 to {len(new)} bytes: {len(lengths) - 1} left the old image and nothing beside, the last the new one")


def main():
    program, times = os.path.abspath(sys.argv[1]), int((sys.argv[2:] or ["400"])[0])
    sources = [os.path.join(TOP, "examples", f"{name}.c") for name in SOURCES]
    with tempfile.TemporaryDirectory() as room:
        image, images, longest = os.path.join(room, "image"), [], 0.0
        for source in sources:
            began = time.monotonic()
            if built(program, source, image).wait() != DONE:
                sys.exit(f"{source} isn't built")
            longest = max(longest, time.monotonic() - began)
            images.append(bytes_of(image))
        killed_in_turn(program, times, sources, image, images, longest)
        without_room(program, sources[1], image, *images)


if __name__ == "__main__":
    main()
