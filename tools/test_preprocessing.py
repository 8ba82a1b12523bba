"""Tests what is made of a source for `--preprocess`: what is carried out, and that each line stays where it is. tools/test_launcher.py runs these."""
import os
import pathlib
import shutil
import sys
import tempfile
import unittest
import unittest.mock

sys.dont_write_bytecode = True
import preprocessing

MACROS = """\
#include <stdio.h>
#include <multiverse.h>
#define SIZE 4
#define SUM(a, b) ((a) + \\
    (b))
int sums[SIZE];
int main(void) {
    return SUM(sums[0],
        SIZE) + __LINE__;
}
"""
CONDITIONS = """\
#define LEVEL 2
#if LEVEL > 1 && !defined(QUIET)
int loud = LEVEL;
#elif LEVEL
int quiet;
#else
int off;
#endif
#ifdef __GNUC__
int gnu;
#endif
#undef LEVEL
int LEVEL;
"""
INCLUDES = """\
int before;
#include "own.h"
int behind = OWN;
#include "empty.h"
int last;
"""


class Preprocessing(unittest.TestCase):
    def setUp(self):
        self.room = pathlib.Path(tempfile.mkdtemp(prefix="test-preprocessing-"))
        self.addCleanup(shutil.rmtree, self.room)
        patched = unittest.mock.patch.dict(os.environ)
        patched.start()
        self.addCleanup(patched.stop)
        for name in ("CC", "CPPFLAGS"):
            os.environ.pop(name, None)

    def made(self, text):
        """Returns the lines of what is made of a text."""
        source = self.room / "a.c"
        source.write_text(text, encoding="utf-8")
        return preprocessing.preprocessed(str(source)).decode().splitlines()

    def lines(self, text):
        """Returns the same, each line without the blanks around it."""
        return [line.strip() for line in self.made(text)]

    def test_macros(self):
        self.assertEqual(self.lines(MACROS), ["", "", "", "", "", "int sums[4];", "int main(void) {", "return ((sums[0]) + (4))", "+ 9;", "}"])

    def test_conditions(self):
        self.assertEqual(self.lines(CONDITIONS), ["", "", "int loud = 2;", *[""] * 9, "int LEVEL;"])

    def test_options_of_the_preprocessor(self):
        os.environ["CPPFLAGS"] = "-DQUIET '-DLEVEL=two words'"
        self.assertEqual(self.lines("#ifdef QUIET\nint LEVEL;\n#endif\n"), ["", "int two words;"])
        os.environ["CC"] = "gcc -DHERE=1"
        self.assertEqual(self.lines("int here = HERE;\n"), ["int here = 1;"])

    def test_own_includes(self):
        (self.room / "own.h").write_text("/* what\n   is own */\nenum {\n    OWN = 3\n};\nint own(void);\n", encoding="utf-8")
        (self.room / "empty.h").write_text("\n\n\n", encoding="utf-8")
        self.assertEqual(self.lines(INCLUDES), ["int before;", "enum { OWN = 3 }; int own(void);", "int behind = OWN;", "", "int last;"])

    def test_places_are_those_of_the_source(self):
        text = "#define N 3\n/* a\n   b */ int a;\n#if 0\nint none;\n#endif\n\n\n\n\n\n\n\n\n\n\n\n\n    int b = N; // c\nint d = e;\n"
        lines = self.lines(text)
        self.assertEqual([(number, line) for number, line in enumerate(lines, 1) if line], [(3, "int a;"), (19, "int b = 3;"), (20, "int d = e;")])
        given = self.made(text)
        self.assertEqual((given[18], given[19].index("e")), ("    int b = 3;", 8))

    def test_what_the_preprocessor_refuses(self):
        for text, reason in (("#error not here\n", "not here"), ('#include "none.h"\n', "none.h"), ("#include <stdlib.h>\n", "stdlib.h"), ("#if 1\n", "#if")):
            with self.assertRaises(preprocessing.Refused) as refused:
                self.lines(text)
            self.assertIn(reason, str(refused.exception))
            self.assertIn("a.c:1:", str(refused.exception))

    def test_no_preprocessor(self):
        os.environ["CC"] = "no-such-compiler -m32"
        with self.assertRaises(preprocessing.Refused) as refused:
            self.lines("int a;\n")
        self.assertEqual(str(refused.exception), "no-such-compiler can't be run: No such file or directory")
