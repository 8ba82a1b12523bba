"""Tests include/multiverse.h: gcc and clang compile the programs of examples/ to what writes as they do by `run`, with no warning of the header.

tools/test_launcher.py runs these tests.
"""
import glob
import os
import shutil
import subprocess
import tempfile
import unittest

TOP = os.path.dirname(os.path.dirname(os.path.realpath(__file__)))
EXAMPLES = os.path.join(TOP, "examples")
# As docs/idioms.md has it.
OPTIONS = ("-I", os.path.join(TOP, "include"), "-fwrapv", "-funsigned-char")
# Programs that commit wherever they change a switch and ask for no operator, by the names of their inputs and outputs.
PROGRAMS = {it: it for it in ("comments", "crc", "hello", "matrix", "order", "queue", "settings", "sort", "text", "tokenizer")}
PROGRAMS |= {"lines": "tracer", "loud": "tracer"}
# Each call of the header, with a function, a switch and a pointer switch of any type as its argument.
CALLS = """\
#include <stdio.h>
#include <multiverse.h>
enum mode { OFF, ON };
__attribute__((multiverse)) static enum mode mode;
__attribute__((multiverse(3, 4))) unsigned char level;
static __attribute__((multiverse)) void note(int c) { if (mode == ON) putchar(c); }
__attribute__((multiverse)) void (*put)(int) = note;
int main(void) {
    int bound = multiverse_commit() + multiverse_commit_func(note) + multiverse_commit_func(&note);
    bound += multiverse_commit_refs(&mode) + multiverse_commit_refs(&level) + multiverse_commit_refs(&put);
    bound += multiverse_revert() + multiverse_revert_func(note) + multiverse_revert_refs(&put) + multiverse_poll();
    mode = ON;
    note('0' + bound);
    put('\\n');
    return 7;
}
"""


class Header(unittest.TestCase):
    def setUp(self):
        self.room = tempfile.mkdtemp(prefix="test-header-")
        self.addCleanup(shutil.rmtree, self.room)

    def compiled(self, compiler, source, *options):
        """Returns the program that a compiler makes of a file, without a warning."""
        program = os.path.join(self.room, "program")
        made = subprocess.run([compiler, *OPTIONS, *options, "-o", program, source], stderr=subprocess.PIPE, check=False)
        self.assertEqual((made.returncode, made.stderr.decode()), (0, ""))
        return program

    def assert_examples(self, compiler):
        for name, source in PROGRAMS.items():
            with self.subTest(name=name):
                file = os.path.join(EXAMPLES, name)
                program = self.compiled(compiler, os.path.join(EXAMPLES, f"{source}.c"))
                with open(f"{file}.in" if os.path.exists(f"{file}.in") else os.devnull, "rb") as given, open(f"{file}.out", "rb") as wanted:
                    ran = subprocess.run([program], stdin=given, stdout=subprocess.PIPE, check=False)
                    self.assertEqual(ran.stdout.removesuffix(b"\n"), wanted.read().removesuffix(b"\n"))

    def assert_all_are_taken(self, compiler):
        """Sees that a compiler takes each example, with the prototypes that it needs; the one that is refused aside."""
        sources = [it for it in glob.glob(os.path.join(EXAMPLES, "**", "*.c"), recursive=True) if os.path.basename(it) != "mistake.c"]
        self.assertGreater(len(sources), len(PROGRAMS))
        command = [compiler, *OPTIONS, "-Werror=implicit-function-declaration", "-fsyntax-only", *sources]
        taken = subprocess.run(command, stderr=subprocess.PIPE, check=False)
        refused = [line for line in taken.stderr.decode().splitlines() if " error: " in line]
        self.assertEqual((taken.returncode, refused), (0, []))

    def assert_calls(self, compiler):
        source = os.path.join(self.room, "calls.c")
        with open(source, "w", encoding="utf-8") as it:
            it.write(CALLS)
        ran = subprocess.run([self.compiled(compiler, source, "-Wall", "-Wextra", "-Werror")], stdout=subprocess.PIPE, check=False)
        self.assertEqual((ran.returncode, ran.stdout), (7, b"0\n"))

    def test_gcc(self):
        self.assert_examples("gcc")
        self.assert_all_are_taken("gcc")
        self.assert_calls("gcc")

    @unittest.skipUnless(shutil.which("clang"), "clang isn't there")
    def test_clang(self):
        self.assert_examples("clang")
        self.assert_all_are_taken("clang")
        self.assert_calls("clang")
