"""Runs a program of this repository with the words given, or only makes it: what `./multiverse` and `./mvharts` do.

It is the proved program where `.ci/run` has passed here on the sources, and with the toolchain, that are there now. Else it is an unproved build of
the same sources, which is made once and kept. At a terminal some words on what to do may follow the program's own notes.
"""
import contextlib
import os
import resource
import signal
import subprocess
import sys
import tempfile
import time

import explanations
import kept_program
import preprocessing

# The status where there is no program to run: none of the program's own.
NO_PROGRAM = 125
# The signals that end this program, and what it has started.
ENDING = (signal.SIGINT, signal.SIGTERM, signal.SIGHUP)
# How long the proved program takes to be made.
PROOF = ".ci/run makes the proved one, in half an hour to two and a half hours on four processors"
# What a program runs while it is copied, which goes on, and the words with which it does.
GUEST = "int main(void) { putchar('.'); while (1) ; }\n"
# The stack of an unproved program: its checks take some ten times what a proved one does.
UNPROVED_STACK = 256 << 20
WORDS = {"multiverse": ("run", "guest.c", "--steps", "1000000000000"), "mvharts": ("guest.c", "2", "0", "10000000")}


def widen_stack():
    """Gives what is started from here the stack of an unproved program, as far as the system allows."""
    soft, hard = resource.getrlimit(resource.RLIMIT_STACK)
    wanted = UNPROVED_STACK if hard == resource.RLIM_INFINITY else min(UNPROVED_STACK, hard)
    if soft != resource.RLIM_INFINITY and soft < wanted:
        resource.setrlimit(resource.RLIMIT_STACK, (wanted, hard))


@contextlib.contextmanager
def started(command, **how):
    """Starts a process, and ends it where this program is ended, also while it starts."""
    signal.pthread_sigmask(signal.SIG_BLOCK, ENDING)
    unblock = lambda: signal.pthread_sigmask(signal.SIG_UNBLOCK, ENDING)
    with subprocess.Popen(command, preexec_fn=unblock, **how) as process:
        try:
            unblock()
            yield process
        except BaseException:
            process.terminate()
            raise


def running_program(room):
    """Returns the program that `rt try` has made below a folder, where it runs."""
    for at, _, names in os.walk(room):
        if "program" in names and "stdout" in names:
            return os.path.join(at, "program")
    return None


class Launcher:
    """Launches the program of a name."""

    def __init__(self, name):
        self.name = name

    def say(self, text):
        """Writes a line to standard error, or nowhere where that is closed."""
        with contextlib.suppress(OSError):
            if sys.stderr is not None:
                os.write(2, f"{self.name}: {text}\n".encode(errors="backslashreplace"))

    def give_up(self, why):
        self.say(why)
        sys.exit(NO_PROGRAM)

    def make(self, known_sum):
        """Has `rt try` make an unproved program, and keeps a copy of it."""
        self.say(f"no program is kept of these sources: an unproved one is made, once, in some minutes; {PROOF}")
        with tempfile.TemporaryDirectory(prefix="multiverse-") as room:
            guest, notes = os.path.join(room, "guest.c"), os.path.join(room, "notes")
            with open(guest, "w", encoding="utf-8") as it:
                it.write(GUEST)
            command = ["rt", "try", "--seconds", "3600", "--data", f"guest.c={guest}", "--", *WORDS[self.name]]
            how = {"stdin": subprocess.DEVNULL, "stdout": subprocess.DEVNULL, "env": {**os.environ, "TMPDIR": room}}
            how["cwd"] = os.path.join(kept_program.TOP, "crates", kept_program.CRATES[self.name])
            with open(notes, "w", encoding="utf-8") as said, started(command, stderr=said, **how) as trying:
                while trying.poll() is None and not running_program(room):
                    time.sleep(0.2)
                program = running_program(room)
                if program and kept_program.sum_of_sources() == known_sum:
                    kept_program.keep(program, self.name, "unproved", known_sum)
                trying.terminate()
            if not kept_program.find(self.name, known_sum):
                with open(notes, encoding="utf-8", errors="replace") as said:
                    for line in said:
                        self.say(line.rstrip("\n"))
                self.give_up("no program was made" + (": the sources changed meanwhile" if program else ""))

    def program_of_sources(self):
        """Returns the program that is kept of the sources, made where there was none, and its kind."""
        known_sum = kept_program.sum_of_sources()
        if not kept_program.find(self.name, known_sum):
            with kept_program.alone(lambda: self.say("another run makes a program of these sources: this one waits for it")):
                if not kept_program.find(self.name, known_sum):
                    self.make(known_sum)
        kind = kept_program.find(self.name, known_sum)
        return kept_program.place_of(self.name, kind, known_sum), kind

    def preprocessed(self, words):
        """Returns the words with the file that they name preprocessed, as a file of this process that the program inherits, and its text."""
        places = explanations.places_of_files(self.name, words)
        if not places or self.name == "multiverse" and words[0] not in explanations.COMPILING:
            self.give_up("--preprocess stands before a command that has a source")
        try:
            text = preprocessing.preprocessed(words[places[0]])
        except preprocessing.Refused as error:
            self.give_up(error)
        held = os.memfd_create("source")
        os.set_inheritable(held, True)
        with open(held, "wb", closefd=False) as it:
            it.write(text)
        return [f"/dev/fd/{held}" if at == places[0] else word for at, word in enumerate(words)], text

    def told(self, program):
        """Returns what the program tells of its commands, which `mvharts` doesn't."""
        if self.name != "multiverse":
            return ""
        how = {"stdin": subprocess.DEVNULL, "stdout": subprocess.PIPE, "stderr": subprocess.DEVNULL}
        with started([program, "help"], **how) as telling:
            return telling.stdout.read().decode(errors="replace")

    def run_explained(self, program, words, own_words, source):
        """Runs the program, passes its notes on, and says behind them what helps, by the words that this one was given."""
        notes = b""
        with started([program, *words], stderr=subprocess.PIPE, close_fds=False) as running:
            for piece in iter(running.stderr.read1, b""):
                os.write(2, piece)
                notes += piece
        for line in explanations.of_notes(self.name, notes.decode(errors="replace"), own_words, source, lambda: self.told(program)):
            self.say(line)
        sys.exit(running.returncode if running.returncode >= 0 else 128 - running.returncode)

    def run(self, words):
        for number in ENDING:
            if signal.getsignal(number) != signal.SIG_IGN:
                signal.signal(number, lambda number, _: sys.exit(128 + number))
        is_explained, is_preprocessed = os.isatty(2), False
        if words[:2] in (["--explain", "on"], ["--explain", "off"]):
            is_explained, words = words[1] == "on", words[2:]
        if words[:1] == ["--preprocess"]:
            is_preprocessed, words = True, words[1:]
        program, kind = self.program_of_sources()
        if words == ["--build"]:
            return self.say(f"the {kind} program of these sources is kept")
        if kind == "unproved":
            self.say("this program is unproved: .ci/run makes the proved one")
            widen_stack()
        own_words, source = words, None
        if is_preprocessed:
            words, source = self.preprocessed(words)
        if is_explained:
            self.run_explained(program, words, own_words, source)
        # (what Python ignores, the program doesn't)
        signal.signal(signal.SIGPIPE, signal.SIG_DFL)
        signal.signal(signal.SIGXFSZ, signal.SIG_DFL)
        os.execv(program, [program, *words])


def launch(name):
    """Runs the program of a name with the words that this one was given."""
    launcher = Launcher(name)
    try:
        launcher.run(sys.argv[1:])
    except kept_program.NoToolchain as error:
        launcher.give_up(f"the toolchain's rt can't be run ({error}): put it on the path, as README.md says")
    except OSError as error:
        launcher.give_up(": ".join(str(it) for it in ("no program can be run", error.filename, error.strerror) if it))
