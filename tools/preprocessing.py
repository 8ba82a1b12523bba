"""A source as the system's C preprocessor leaves it, for `./multiverse --preprocess`."""
import os
import re
import shlex
import subprocess
import tempfile

# A line marker of the preprocessor: what follows is this line of this file.
MARKER = re.compile(r'# (\d+) "((?:[^"\\]|\\.)*)"')
# The headers that a source may include by itself, and that are left out here.
KNOWN_HEADERS = ("stdio.h", "multiverse.h")


class Refused(Exception):
    """The preprocessor can't be run, or refuses the file."""


def with_own_lines(file, text):
    """Returns the preprocessed text of a file with each of its lines where it stands in the file. What a header gives stands in the line that includes it."""
    lines, name, number, own = [[]], file, 1, 1
    for line in text.removesuffix("\n").split("\n"):
        marker = MARKER.match(line)
        if marker:
            own = number if name == file else own
            number, name = int(marker[1]), marker[2].encode().decode("unicode_escape")
            continue
        if name == file:
            own = number
        number += 1
        while len(lines) < own:
            lines.append([])
        if line.strip():
            lines[own - 1].append(line if name == file else line.strip())
    return "".join(" ".join(it) + "\n" for it in lines)


def preprocessed(file):
    """Returns the text of a file without directives: macros, conditions and includes of its own are carried out. CPPFLAGS may have options for it."""
    compiler = shlex.split(os.environ.get("CC", "cc"))
    with tempfile.TemporaryDirectory(prefix="multiverse-") as room:
        for header in KNOWN_HEADERS:
            with open(os.path.join(room, header), "w", encoding="utf-8"):
                pass
        command = [*compiler, "-E", "-nostdinc", "-undef", *shlex.split(os.environ.get("CPPFLAGS", "")), "-I", room, "-x", "c", file]
        try:
            ran = subprocess.run(command, stdin=subprocess.DEVNULL, capture_output=True, check=False)
        except OSError as error:
            raise Refused(f"{compiler[0]} can't be run: {error.strerror}") from error
    if ran.returncode != 0:
        raise Refused(ran.stderr.decode(errors="replace").rstrip("\n"))
    return with_own_lines(file, ran.stdout.decode("latin-1")).encode("latin-1")
