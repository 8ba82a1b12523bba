#!/usr/bin/env python3
"""Tests ./multiverse and ./mvharts, and what .ci/run keeps for them, with a stand-in toolchain and a stand-in program: test_launcher.py [LAUNCHER]

LAUNCHER is tried in the place of tools/launcher.py. With these run the tests of what is said behind a program's notes, and of the header for other compilers.
"""
import os
import pty
import re
import shutil
import signal
import subprocess
import sys
import tempfile
import time
import unittest

sys.dont_write_bytecode = True
from test_explanations import Explanations
from test_header import Header
from test_hints import Hints
from test_preprocessing import Preprocessing

TOP = os.path.dirname(os.path.dirname(os.path.realpath(__file__)))
LAUNCHER = os.path.abspath(sys.argv.pop()) if len(sys.argv) == 2 else os.path.join(TOP, "tools", "launcher.py")
# The programs, each with its crate.
CRATES = {"multiverse": "mv_cli", "mvharts": "mv_harts_cli"}
NO_PROGRAM = 125

# `rt try` makes the program and runs it, within its own limits on what is read and written; `rt ci` makes it as a gate does.
TOOLCHAIN = r"""#!/bin/sh
echo "$*" >> "$SCRATCH/calls"
case $1 in
version) cat "$SCRATCH/version" ;;
ci)
    for crate in mv_cli mv_harts_cli; do
        mkdir -p "crates/$crate/out"
        cp "$SCRATCH/program" "crates/$crate/out/$crate"
    done
    [ ! -e "$SCRATCH/edit" ] || echo edited >> crates/mv_cli/src/main.rt
    [ ! -e "$SCRATCH/fault" ] || { echo '3 passed, 1 failed'; exit 1; }
    echo '4 passed, 0 failed' ;;
try)
    echo "$$" > "$SCRATCH/trying"
    basename "$PWD" >> "$SCRATCH/made"
    [ ! -e "$SCRATCH/fault" ] || { cat "$SCRATCH/fault" >&2; echo 'run=none proved=no' >&2; exit 1; }
    folder=$(mktemp -d)
    trap 'kill "$child" 2> /dev/null; rm -rf "$folder"; exit 143' TERM INT HUP
    [ ! -e "$SCRATCH/slow" ] || { sleep 30 & child=$!; wait "$child"; }
    cp "$SCRATCH/program" "$folder/program"
    while [ "$1" != -- ]; do case $1 in guest.c=*) cp "${1#*=}" "$folder/guest.c" ;; esac; shift; done
    shift
    timeout 2 cat > "$folder/stdin"
    (cd "$folder" && exec ./program "$@") < "$folder/stdin" > "$folder/stdout" & child=$!
    wait "$child"
    status=$?
    head -c 1048576 "$folder/stdout"
    rm -rf "$folder"
    exit "$status" ;;
esac
"""

# Writes its words and its input; its notes and its status are those of the test.
PROGRAM = r"""#!/bin/sh
[ ! -f guest.c ] || exec sleep 60
for word; do printf '[%s]\n' "$word"; done
[ ! -e "$SCRATCH/long" ] || head -c 2000000 /dev/zero
[ "$1" != build ] || echo image > "$3"
[ ! -e "$SCRATCH/shown" ] || cat "$2"
[ ! -e "$SCRATCH/waits" ] || { echo "$$" > "$SCRATCH/waiting"; exec sleep 60; }
cat
cat "$SCRATCH/notes" >&2
exit "$(cat "$SCRATCH/status")"
"""


class Launcher(unittest.TestCase):
    def setUp(self):
        self.scratch = os.path.realpath(tempfile.mkdtemp(prefix="test-launcher-"))
        self.addCleanup(shutil.rmtree, self.scratch)
        self.top = os.path.join(self.scratch, "top")
        self.room = os.path.join(self.scratch, "tmp")
        for folder in ("bin", "bare", "tmp", "top/tools", "top/docs", "top/.ci", "top/crates/mv_cli/src", "top/crates/mv_harts_cli/src"):
            os.makedirs(os.path.join(self.scratch, folder))
        for name in ("kept_program.py", "explanations.py", "hints.py", "causes.py", "preprocessing.py", "refusals.py"):
            shutil.copy(os.path.join(TOP, "tools", name), os.path.join(self.top, "tools"))
        shutil.copy(os.path.join(TOP, "docs", "refusals.ini"), os.path.join(self.top, "docs"))
        shutil.copy(os.path.join(TOP, ".ci", "run"), os.path.join(self.top, ".ci"))
        shutil.copy(LAUNCHER, os.path.join(self.top, "tools", "launcher.py"))
        for name in CRATES:
            shutil.copy(os.path.join(TOP, name), self.top)
        for name in ("check_headers.py", "check_families.py", "check_laws.py", "check_imports.py", "check_documents.py", "check_rows.py", "definitions.py", "test_launcher.py"):
            self.write(f"top/tools/{name}", "")
        for name, text in (("crates.txt", "mv_cli:\n"), ("HANDLES", ""), ("crates/mv_cli/src/main.rt", "//\n"), ("crates/mv_cli/src/more.rt", "//\n")):
            self.write(f"top/{name}", text)
        self.write("top/crates/mv_harts_cli/src/main.rt", "//\n")
        for name in ("bin", "bare"):
            os.symlink(sys.executable, os.path.join(self.scratch, name, "python3"))
        for name, text in (("bin/rt", TOOLCHAIN), ("program", PROGRAM)):
            os.chmod(self.write(name, text), 0o755)
        for name, text in (("version", "kit 1\n"), ("notes", "ended 3\n"), ("status", "0\n"), ("calls", "")):
            self.write(name, text)

    def write(self, name, text):
        file = os.path.join(self.scratch, name)
        with open(file, "w", encoding="utf-8") as it:
            it.write(text)
        return file

    def read(self, name):
        with open(os.path.join(self.scratch, name), encoding="utf-8") as it:
            return it.read()

    def environment(self, tools="bin", compiler="cc"):
        path = [os.path.join(self.scratch, tools)] + ["/usr/bin", "/bin"] * (tools == "bin")
        return {"PATH": os.pathsep.join(path), "SCRATCH": self.scratch, "TMPDIR": self.room, "LANG": "C.UTF-8", "CC": compiler}

    def start(self, *words, name="multiverse", launcher=None, tools="bin", compiler="cc", **how):
        how = {"stdin": subprocess.DEVNULL, "stdout": subprocess.PIPE, "stderr": subprocess.PIPE, "cwd": self.scratch, **how}
        return subprocess.Popen([launcher or os.path.join(self.top, name), *words], env=self.environment(tools, compiler), **how)

    def run_it(self, *words, **how):
        """Returns the status of a run, what it wrote and its notes."""
        with self.start(*words, **how) as run:
            out, notes = run.communicate()
        return run.returncode, out.decode(errors="backslashreplace"), (notes or b"").decode(errors="backslashreplace")

    def terminal(self):
        try:
            return pty.openpty()
        except OSError as error:
            return self.skipTest(f"there are no terminals here ({error})")

    def run_at_terminal(self, *words, **how):
        """Returns what a run whose notes go to a terminal has there."""
        ours, its = self.terminal()
        with self.start(*words, stderr=its, **how) as run:
            run.stdout.read()
        os.close(its)
        notes = b""
        try:
            while piece := os.read(ours, 65536):
                notes += piece
        except OSError:
            pass
        os.close(ours)
        return notes.decode().replace("\r\n", "\n")

    def gate(self):
        return subprocess.run([os.path.join(self.top, ".ci", "run")], env=self.environment(), stdout=subprocess.PIPE, stderr=subprocess.STDOUT, check=False)

    def tries(self):
        return sum(line.startswith("try") for line in self.read("calls").splitlines())

    def said(self, **how):
        """Returns which program a run takes."""
        return self.run_it("--build", **how)[2].splitlines()[-1].split()[2]

    def test_program_is_made_once(self):
        for _ in range(3):
            self.assertEqual(self.run_it("run", "a.c")[:2], (0, "[run]\n[a.c]\n"))
        self.assertEqual(self.tries(), 1)

    def test_build_runs_nothing(self):
        status, out, notes = self.run_it("--build")
        self.assertEqual((status, out), (0, ""))
        self.assertIn("the unproved program of these sources is kept", notes)
        self.run_it("run", "a.c")
        self.assertEqual(self.tries(), 1)

    def test_each_program_is_made_of_its_crate(self):
        for name in (*CRATES, *CRATES):
            self.assertEqual(self.run_it("a.c", "2", name=name)[:2], (0, "[a.c]\n[2]\n"))
        self.assertEqual(self.read("made").split(), list(CRATES.values()))

    def test_words_are_as_they_are(self):
        for name in ("eval", "1000", "a.c", "--bound"):
            self.write(name, "")
        words = ("eval", "a.c", "--bound", "1000", "", "two words", "*")
        self.assertEqual(self.run_it(*words)[1], "".join(f"[{it}]\n" for it in words))

    def test_file_is_written_where_it_is_named(self):
        folder = os.path.join(self.scratch, "folder")
        os.mkdir(folder)
        for name, where in (("a.img", os.path.join(folder, "a.img")), (os.path.join(self.scratch, "b.img"), os.path.join(self.scratch, "b.img"))):
            self.assertEqual(self.run_it("build", "a.c", name, cwd=folder)[:2], (0, f"[build]\n[a.c]\n[{name}]\n"))
            self.assertEqual(self.read(where), "image\n")

    def test_own_words_stand_before_the_command(self):
        for words in (("run", "a.c", "--explain", "off"), ("run", "--build"), ("--explain", "maybe", "run"), ("--build", "run")):
            self.assertEqual(self.run_it(*words)[1], "".join(f"[{it}]\n" for it in words))
        self.assertEqual(self.run_it("--explain", "off", "run", "a.c")[1], "[run]\n[a.c]\n")

    def test_status_notes_and_input_are_the_program_s(self):
        self.write("status", "8\n")
        self.write("notes", "steps\n")
        with open(self.write("input", "text\n"), encoding="utf-8") as it:
            status, out, notes = self.run_it("run", stdin=it)
        self.assertEqual((status, out), (8, "[run]\ntext\n"))
        self.assertEqual(notes.splitlines()[-1], "steps")

    def test_proved_program_says_nothing_more(self):
        self.gate()
        self.assertEqual(self.run_it("run", "a.c"), (0, "[run]\n[a.c]\n", "ended 3\n"))

    def test_first_sight(self):
        self.write("slow", "")
        with self.start("run", "a.c") as run:
            said = run.stderr.readline().decode()
            self.assertIsNone(run.poll())
            run.terminate()
            run.communicate()
        made = "multiverse: no program is kept of these sources: an unproved one is made, once, in some minutes; "
        self.assertEqual(said, f"{made}.ci/run makes the proved one, in half an hour to two and a half hours on four processors\n")

    def test_unproved_program_says_so(self):
        self.assertIn("unproved", self.run_it("run", "a.c")[2])
        self.assertIn("unproved", self.run_it("run", "a.c")[2])

    def test_symbolic_link(self):
        for program, crate in CRATES.items():
            self.write("made", "")
            for to, name in ((os.path.join(self.top, program), f"link-{program}"), (f"link-{program}", f"another-{program}")):
                os.symlink(to, os.path.join(self.scratch, name))
                self.assertEqual(self.run_it("run", launcher=os.path.join(self.scratch, name))[:2], (0, "[run]\n"))
            self.assertEqual(self.read("made").split(), [crate])

    def test_no_toolchain(self):
        status, out, notes = self.run_it("run", "a.c", tools="bare")
        self.assertEqual((status, out), (NO_PROGRAM, ""))
        self.assertIn("toolchain", notes)

    def test_refused_sources(self):
        self.write("fault", "src/main.rt:1:1: error[mismatched-types]: here\n")
        status, out, notes = self.run_it("run", "a.c")
        self.assertEqual((status, out), (NO_PROGRAM, ""))
        self.assertIn("src/main.rt:1:1: error[mismatched-types]: here", notes)

    def assert_no_program(self, run, reason):
        status, out, notes = run
        self.assertEqual((status, out), (NO_PROGRAM, ""))
        self.assertTrue(all(line.startswith("multiverse: ") for line in notes.splitlines()), notes)
        self.assertIn(reason, notes)

    def test_folder_of_kept_programs_that_can_t_be_written(self):
        self.write("top/out", "")
        self.assert_no_program(self.run_it("run", "a.c"), "out")

    def test_kept_program_that_can_t_be_run(self):
        self.gate()
        kept = [name for name in os.listdir(os.path.join(self.top, "out")) if name.startswith("multiverse-")]
        for text, reason in (("\0", "format"), ("#!/none\n", "No such file")):
            self.write(f"top/out/{kept[0]}", text)
            self.assert_no_program(self.run_it("run", "a.c"), reason)
            self.assertIn(reason, self.run_at_terminal("run", "a.c"))

    def test_first_runs_at_the_same_time(self):
        runs = [self.start("run", str(n)) for n in range(4)]
        for n, run in enumerate(runs):
            out, notes = run.communicate()
            self.assertEqual((run.returncode, out), (0, f"[run]\n[{n}]\n".encode()))
            self.assertTrue(notes.decode().endswith("ended 3\n"))
        self.assertEqual(self.tries(), 1)

    def test_closed_standard_error(self):
        for _ in range(2):
            self.assertEqual(self.run_it("run", "a.c", stderr=None, preexec_fn=lambda: os.close(2))[:2], (0, "[run]\n[a.c]\n"))
        self.assertEqual(self.run_it("--build", stderr=None, preexec_fn=lambda: os.close(2))[:2], (0, ""))

    def test_words_that_are_no_text(self):
        self.assertTrue(self.explained("usage", "run", b"\xff.c").startswith("usage\nmultiverse: `\\xff.c` is no UTF-8 text\n"))

    def test_much_output(self):
        self.write("long", "")
        self.assertEqual(len(self.run_it("run")[1]), len("[run]\n") + 2000000)

    def test_input_that_comes_late(self):
        self.run_it("--build")
        with self.start("run", stdin=subprocess.PIPE) as run:
            time.sleep(2.5)
            out = run.communicate(b"late\n")[0]
        self.assertEqual((run.returncode, out), (0, b"[run]\nlate\n"))

    def process(self, name):
        """Returns the process that has written its number, or None."""
        return int((os.path.exists(os.path.join(self.scratch, name)) and self.read(name)) or 0) or None

    def test_signals_leave_nothing(self):
        for number in (signal.SIGINT, signal.SIGTERM, signal.SIGHUP):
            self.write("slow", "")
            self.interrupted(number, lambda: self.process("trying"))
            os.remove(os.path.join(self.scratch, "slow"))
            self.write("calls", "")
            self.run_it("--build")
            self.write("waits", "")
            self.interrupted(number, lambda: self.process("waiting"))
            os.remove(os.path.join(self.scratch, "waits"))
            os.remove(os.path.join(self.scratch, "waiting"))
            os.remove(os.path.join(self.scratch, "trying"))
            shutil.rmtree(os.path.join(self.top, "out"))

    def test_signal_at_a_terminal_ends_the_program(self):
        self.run_it("--build")
        self.write("waits", "")
        ours, its = self.terminal()
        self.interrupted(signal.SIGTERM, lambda: self.process("waiting"), stderr=its)
        os.close(its)
        os.close(ours)

    def interrupted(self, number, is_due, **how):
        """Sends a signal to a run once it is due, and sees that the run ends and leaves no file and no process."""
        with self.start("run", "a.c", **how) as run:
            for _ in range(1200):
                if is_due():
                    break
                time.sleep(0.05)
            run.send_signal(number)
            run.communicate()
        self.assertIn(run.returncode, (-number, 128 + number))
        self.assertEqual(os.listdir(self.room), [])
        for name in ("trying", "waiting"):
            if self.process(name):
                self.assertRaises(ProcessLookupError, os.kill, self.process(name), 0)

    def test_gate_keeps_the_proved_program(self):
        gate = self.gate()
        self.assertEqual((gate.returncode, gate.stdout.splitlines()[-1]), (0, b"4 passed, 0 failed"))
        for name in CRATES:
            self.assertEqual(self.said(name=name), "proved")
            self.assertEqual(self.run_it("a.c", name=name), (0, "[a.c]\n", "ended 3\n"))
        self.assertEqual(self.tries(), 0)

    def test_failed_gate_keeps_nothing(self):
        self.write("fault", "")
        gate = self.gate()
        self.assertEqual((gate.returncode, gate.stdout.splitlines()[-1]), (1, b"3 passed, 1 failed"))
        os.remove(os.path.join(self.scratch, "fault"))
        for name in CRATES:
            self.assertEqual(self.said(name=name), "unproved")

    def test_edit_during_the_gate(self):
        self.write("edit", "")
        self.gate()
        self.assertEqual(self.said(), "unproved")

    def test_what_makes_a_program_unproved(self):
        more = os.path.join(self.top, "crates/mv_cli/src/more.rt")
        for change in (
            lambda: self.write("top/crates/mv_cli/src/main.rt", "// \n"),
            lambda: self.write("top/crates/mv_cli/src/new.rt", ""),
            lambda: os.rename(more, f"{more}s"),
            lambda: os.remove(f"{more}s"),
            lambda: self.write("top/crates.txt", "mv_cli: mv_top\n"),
            lambda: self.write("top/HANDLES", "Handles allowed: Threads.\n"),
            lambda: self.write("version", "kit 2\n"),
        ):
            self.gate()
            self.assertEqual(self.said(), "proved")
            change()
            for at, _, names in os.walk(self.top):
                for name in names:
                    os.utime(os.path.join(at, name), (0, 0))
            self.assertEqual(self.said(), "unproved")

    def test_times_alone_change_nothing(self):
        self.gate()
        os.utime(os.path.join(self.top, "crates/mv_cli/src/main.rt"))
        self.assertEqual(self.said(), "proved")

    def explained(self, notes, *words, **how):
        self.write("notes", f"{notes}\n")
        if not os.path.exists(os.path.join(self.top, "out")):
            self.gate()
        whole = self.run_at_terminal(*words, **how)
        self.assertTrue(whole.startswith(f"{notes}\n"))
        self.assertEqual(self.run_at_terminal("--explain", "off", *words, **how), f"{notes}\n")
        self.assertEqual(self.run_it(*words, **how)[2], f"{notes}\n")
        return whole

    def test_usage_is_explained(self):
        self.assertIn("\nmultiverse: usage: ./multiverse [--explain on|off] [--preprocess] COMMAND\n", self.explained("usage", "fly"))

    def test_usage_is_explained_by_what_the_program_tells(self):
        for words in (("fly",), ("--help",), ("run", "--help")):
            self.assertTrue(self.explained("usage", *words).endswith("\nmultiverse: [help]\n"))

    def test_shelf_fault_is_explained(self):
        self.assertIn("none.c", self.explained("shelf fault", "run", "none.c", "--steps", "3"))

    def test_difference_is_explained(self):
        self.write("a.c", "int main(void) { }\n")
        self.assertIn("a.img isn't the image of a.c: the files of the two differ from byte 12 on", self.explained("differs 12", "check", "a.c", "a.img"))

    def test_refused_line_of_assembler_text_is_explained(self):
        self.write("a.s", "ecall\naddi a0, zero, 2048\n")
        whole = self.explained("refused 18 2:1", "asm", "a.s", "a.img")
        self.assertIn("multiverse:     addi a0, zero, 2048\nmultiverse:     ^\n", whole)
        self.assertIn("outside its range", whole)

    def test_refusal_is_explained(self):
        self.write("a.c", "int main(void) {\n\tint \u00e4 = y;\n}\n")
        whole = self.explained("refused 6 2:11 rule 1", "run", "a.c")
        self.assertIn("multiverse:     \tint \u00e4 = y;\nmultiverse:     \t        ^\n", whole)
        self.assertIn("isn't declared before its use", whole)

    def test_advice_is_by_what_was_written(self):
        self.write("a.c", "long total;\n")
        self.assertTrue(self.explained("refused 2 1:1", "run", "a.c").endswith("\nmultiverse: what to do: `int`, or two words of `unsigned int`\n"))

    def test_hint_is_given(self):
        self.write("a.c", "__attribute__((multiverse)) int b;\nint main(void) { }\n")
        hint = "a.c:1:33: hint: no attributed function reads the switch `b`: no commit changes any code for it"
        self.assertEqual(self.explained("steps", "run", "a.c"), f"steps\nmultiverse: {hint}\n")
        self.assertEqual(self.explained("done", "a.c", "2", "7", "100", name="mvharts"), f"done\nmvharts: {hint}\n")

    def test_explained_off_a_terminal_where_it_is_asked_for(self):
        self.write("a.c", "int main(void) { return y; }\n")
        self.gate()
        for notes, *words, line in (
            ("usage", "fly", "usage: ./multiverse [--explain on|off] [--preprocess] COMMAND"),
            ("refused 6 1:25 rule 1", "run", "a.c", "a.c:1:25: rule 1: a name, a tag or a function isn't declared before its use (6.5.1, 6.7.2.3)"),
        ):
            self.write("notes", f"{notes}\n")
            self.assertTrue(self.run_it("--explain", "on", *words)[2].startswith(f"{notes}\nmultiverse: {line}\n"))

    def write_source_to_preprocess(self):
        self.write("own.h", "/* names */\nenum { TEN = 10 };\nint twice(int n);\n")
        self.write("a.c", '#include <stdio.h>\n#include "own.h"\n#define N 3\n#ifdef NONE\nint none;\n#endif\nint main(void) {\n    return N;\n}\n')

    def test_preprocessed_source_has_its_own_lines(self):
        self.write_source_to_preprocess()
        self.write("shown", "")
        self.gate()
        whole = "\nenum { TEN = 10 }; int twice(int n);\n\n\n\n\nint main(void) {\n    return 3;\n}\n"
        output = re.sub(r"/dev/fd/\d+", "/dev/fd/N", self.run_it("--preprocess", "run", "a.c", "--steps", "5")[1])
        self.assertEqual(output, f"[run]\n[/dev/fd/N]\n[--steps]\n[5]\n{whole}")

    def test_preprocessed_source_is_explained_by_its_lines(self):
        self.write_source_to_preprocess()
        self.write("notes", "refused 6 8:12 rule 1\n")
        self.gate()
        notes = self.run_it("--explain", "on", "--preprocess", "run", "a.c")[2]
        self.assertIn("multiverse: a.c:8:12: rule 1", notes)
        self.assertIn("multiverse:         return 3;\nmultiverse:                ^\n", notes)

    def test_no_preprocessor(self):
        self.write_source_to_preprocess()
        self.gate()
        for compiler in ("no-such-compiler", "no-such-compiler -m32"):
            status, out, notes = self.run_it("--preprocess", "run", "a.c", compiler=compiler)
            self.assertEqual((status, out, notes), (NO_PROGRAM, "", "multiverse: no-such-compiler can't be run: No such file or directory\n"))

    def test_nothing_to_preprocess(self):
        self.gate()
        for words, reason in ((("list", "a.img"), "--preprocess stands before"), (("run", "none.c"), "none.c"), (("fly",), "--preprocess stands before")):
            status, _, notes = self.run_it("--preprocess", *words)
            self.assertEqual(status, NO_PROGRAM)
            self.assertIn(reason, notes)

    def test_what_mvharts_says_is_explained(self):
        self.write("a.c", "int main(void) { return y; }\n")
        for notes, reason in (
            ("usage", "mvharts: usage: ./mvharts [--explain on|off] [--preprocess] FILE COUNT NUMBER TURNS"),
            ("shelf fault", "mvharts: a.c can't be read"),
            ("refused 6 1:25 rule 1", "mvharts: a.c:1:25: rule 1: a name"),
        ):
            self.assertIn(f"\n{reason}", self.explained(notes, "a.c", "2", "7", "100", name="mvharts"))
        self.assertEqual(self.explained("done", "a.c", "2", "7", "100", name="mvharts"), "done\n")

    def test_item_is_explained(self):
        self.assertIn("a.c: the I-th item of `--at`", self.explained("refused 15 count 2", "run", "a.c", "--at", "1:s=1,2:t=1"))

    def test_lines_before_the_last_are_not_explained(self):
        self.assertEqual(self.explained("binding f free\nended 3", "run", "a.c", "--bindings"), "binding f free\nended 3\n")

    def test_end_is_not_explained(self):
        self.assertEqual(self.explained("ended 3", "run", "a.c"), "ended 3\n")


if __name__ == "__main__":
    # (where this runs in the background, some of these are ignored)
    signal.signal(signal.SIGINT, signal.default_int_handler)
    for number in (signal.SIGTERM, signal.SIGHUP):
        signal.signal(number, signal.SIG_DFL)
    unittest.main()
