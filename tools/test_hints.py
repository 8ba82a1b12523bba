"""Tests the hints on sources that are accepted: what gives each of them, and what is near it and gives none. tools/test_launcher.py runs these."""
import sys
import unittest

sys.dont_write_bytecode = True
import explanations
import hints

M = "__attribute__((multiverse))"
# A switch, and an attributed function that reads it.
READ = f"{M} int a;\n{M} void f(void) {{ if (a) putchar('f'); }}\n"
# A switch of 0 and 3 and one of 1 and 16, and an attributed function that reads both.
ENUMS = "enum mode { OFF, ON = 3 }; enum { OTHER = 7 }; enum more { MORE = 9 };\n"
DOMAINS = f"{ENUMS}static {M} enum mode m = ON;\nint k __attribute__((multiverse(1, 0x10)));\n{M} int f(void) {{ return k + m; }}\n"


class Hints(unittest.TestCase):
    def assert_hints(self, source, *expected):
        found = [f"{line}:{column}: {text}" for (line, column), text in hints.hints(source)]
        self.assertEqual(found, list(expected), source)

    def assert_none(self, before, *sources):
        for source in sources:
            with self.subTest(source=source):
                self.assert_hints(f"{before}{source}\n")

    def test_read_without_an_attribute(self):
        hint = "`g` reads the switch `a` and has no attribute: no commit changes it"
        self.assert_hints(f"{READ}int g(int b) {{ return a + b; }}\nint main(void) {{ return g(1); }}\n", f"3:23: {hint}")
        self.assert_hints(f"{READ}int g(int b) {{ return 2 * a + b; }}\nint main(void) {{ }}\n", f"3:27: {hint}")
        self.assert_hints(f"{READ}int g(int b) {{ return (int)b + (2 * a); }}\nint main(void) {{ }}\n", f"3:37: {hint}")
        self.assert_hints(f"{READ}int g(void) {{ int b; b = 2 * a; return b; }}\nint main(void) {{ }}\n", f"3:30: {hint}")
        self.assert_hints(f"{READ}int g(void) {{ int b = 2 * a; return b; }}\nint main(void) {{ }}\n", f"3:27: {hint}")
        self.assert_hints(f"{READ}int g(void) {{ int b[2] = {{1, a}}; return b[0]; }}\nint main(void) {{ }}\n", f"3:30: {hint}")
        pointed = f"{M} int (*a)(void);\n{M} int f(void) {{ return a(); }}\n"
        self.assert_hints(f"{pointed}int g(void) {{ return (*a)(); }}\nint main(void) {{ }}\n")
        self.assert_hints(f"{READ}int g(void) {{ if (!a) return 1; return 0; }}\nint main(void) {{ }}\n", f"3:20: {hint}")
        self.assert_hints(f"{READ}int two(int b, int c) {{ return b + c; }}\nint g(void) {{ return two(1, a); }}\nint main(void) {{ }}\n", f"4:29: {hint}")
        self.assert_hints(f"{READ}int g(void) {{ if (1) {{ int a = 1; }} return a; }}\nint main(void) {{ }}\n", f"3:44: {hint}")

    def test_reads_that_give_no_hint(self):
        self.assert_none(
            READ,
            "int main(void) { return a; }",
            "int g(int a) { return a; } int main(void) { }",
            "int g(void) { int b, a = 1; return a; } int main(void) { }",
            "int g(void) { for (int a = 0; a < 3; a++) putchar(a); return 0; } int main(void) { }",
            "void turn(void) { a = !a; } int main(void) { }",
            "void turn(void) { if (a < 3) ++a; } int main(void) { }",
            "int g(void) { return multiverse_commit_refs(&a); } int main(void) { }",
            f"{M} int g(void); int g(void) {{ return a; }} int main(void) {{ }}",
            f"int g(void) {M}; int g(void) {{ return a; }} int main(void) {{ }}",
            "int g(void) { /* a */ return 'a'; } // a\nint main(void) { }",
            "int g(void) { enum a { b }; return b; } int main(void) { }",
            "enum mode { OFF }; int g(void) { enum mode a = OFF; return a; } int main(void) { }",
            "int one(void) { return 1; } int g(void) { int (*a)(void) = one; return a(); } int main(void) { }",
            "int g(void) { int a = 1, b[2] = {1, 2}; return a + b[0]; } int main(void) { }",
            "int g(void) { int b[2] = {1, 2}, a = b[0]; return a; } int main(void) { }",
            "int g(void) { int b = (int)'c' * 2, a = b; return a; } int main(void) { }",
            "int one(int b) { return b; } int g(void) { int (*p)(int c) = one, a = 1; return p(a); } int main(void) { }",
            "int g(void) { enum { B } a = B; return a; } int main(void) { }",
            "int g(void) { enum { B, a }; { enum e { C } b = C; } return a; } int main(void) { }",
            "int g(void) { enum e { a }; return a; } int main(void) { }",
            "int g(int (*const a)(int b)) { return a(1); } int main(void) { }",
            "enum mode { OFF }; int g(enum mode (*a)(void)) { return (*a)(); } int main(void) { }",
        )

    def test_switch_that_nothing_reads(self):
        hint = "no attributed function reads the switch `b`: no commit changes any code for it"
        self.assert_hints(f"{M} int a, b;\n{M} int f(void) {{ return a; }}\nint main(void) {{ return f() + b; }}\n", f"1:36: {hint}")
        self.assert_hints(f"{M} int a;\nint b {M};\n{M} int f(int b) {{ return a + b; }}\nint main(void) {{ }}\n", f"2:5: {hint}")

    def test_switches_that_give_no_hint(self):
        self.assert_none(
            READ,
            "int b; int main(void) { return b; }",
            f"{M} int b; {M} int g(void); int g(void) {{ return b; }} int main(void) {{ }}",
            f"{M} int b; {M} int g(void) {{ int c = 1; {{ int b = c; }} return b; }} int main(void) {{ }}",
            f"int one(void) {{ return 1; }} {M} int (*p)(void) = one; int main(void) {{ return p(); }}",
            f"{M} int (*p)(int b); int main(void) {{ }}",
        )

    def test_commit_in_an_attributed_function(self):
        for call in ("multiverse_commit()", "multiverse_revert()", "multiverse_commit_func(f)", "multiverse_revert_refs(&a)"):
            name = call.partition("(")[0]
            hint = f"`g` is attributed and live here: `{name}` answers -1 and changes nothing"
            self.assert_hints(f"{READ}{M} int g(void);\nint g(void) {{\n  return {call};\n}}\nint main(void) {{ }}\n", f"5:10: {hint}")

    def test_commits_that_give_no_hint(self):
        self.assert_none(
            READ,
            "int g(void) { return multiverse_commit(); } int main(void) { return multiverse_revert(); }",
            f"{M} int g(void) {{ return multiverse_poll(); }} int main(void) {{ }}",
            f"int t(void) {{ return multiverse_commit(); }} {M} int g(void) {{ return t(); }} int main(void) {{ }}",
            f"{M} int g(int multiverse_commit) {{ return multiverse_commit; }} int main(void) {{ }}",
        )

    def test_value_outside_the_domain(self):
        before = f"{DOMAINS}int main(void) {{\n"
        hint = "is no value of the switch"
        self.assert_hints(f"{before}  m = 1;\n  multiverse_commit_refs(&m);\n}}\n", f"6:3: 1 {hint} `m` (0, 3): the commit in line 7 frees what reads it")
        self.assert_hints(f"{before}  k = OFF; multiverse_commit();\n}}\n", f"6:3: 0 {hint} `k` (1, 16): the commit in line 6 frees what reads it")
        negative = f"6:3: -3 {hint} `m` (0, 3): the commit in line 8 frees what reads it"
        self.assert_hints(f"{before}  m = -3;\n  k = 16;\n  multiverse_commit_func(f);\n}}\n", negative)
        self.assert_hints(f"{before}  k = '\\0';\n  multiverse_commit();\n}}\n", f"6:3: 0 {hint} `k` (1, 16): the commit in line 7 frees what reads it")
        self.assert_hints(f"{before}  k = 'A';\n  multiverse_commit();\n}}\n", f"6:3: 65 {hint} `k` (1, 16): the commit in line 7 frees what reads it")
        self.assert_hints(f"{before}  k = 010u;\n  multiverse_commit();\n}}\n", f"6:3: 8 {hint} `k` (1, 16): the commit in line 7 frees what reads it")
        self.assert_hints(f"{before}  k = '\\n';\n  multiverse_commit();\n}}\n", f"6:3: 10 {hint} `k` (1, 16): the commit in line 7 frees what reads it")

    def test_value_that_is_neither_0_nor_1(self):
        hint = "3:18: 2 is no value of the switch `a` (0, 1): the commit in line 3 frees what reads it"
        self.assert_hints(f"{READ}int main(void) {{ a = 2; multiverse_commit(); }}\n", hint)
        self.assert_none(READ, "int main(void) { a = 0; multiverse_commit(); a = 1; multiverse_commit(); }")

    def test_stores_that_give_no_hint(self):
        self.assert_none(
            DOMAINS,
            "int main(void) { m = ON; k = 16; multiverse_commit(); }",
            "int main(void) { m = 7; m = OFF; multiverse_commit(); }",
            "int main(void) { m = 7; }",
            "int main(void) { m = 7; multiverse_revert(); }",
            "int main(void) { multiverse_commit(); m = 7; }",
            "int main(void) { m = getchar(); multiverse_commit(); }",
            "int main(void) { m = 2 + 1; multiverse_commit(); }",
            "int main(void) { int m = 7; m = 8; multiverse_commit(); }",
            "int main(void) { if (m == 7) multiverse_commit(); }",
            "int n; int main(void) { n = 7; multiverse_commit(); }",
        )

    def test_commands_that_have_hints(self):
        source = f"{M} int b;\nint main(void) {{ }}\n".encode()
        line = "a.c:1:33: hint: no attributed function reads the switch `b`: no commit changes any code for it"
        for words in (("run", "a.c"), ("eval", "a.c", "--bound", "9"), ("build", "a.c", "a.img")):
            for notes in ("ended 0\n", "trapped 2\n", "steps\n", "binding f free\nended 0\n", "done\n"):
                self.assertEqual(explanations.of_notes("multiverse", notes, list(words), source), [line])
        self.assertEqual(explanations.of_notes("mvharts", "done\n", ["a.c", "2", "7", "100"], source), [line])
        for words in (("exec", "a.img"), ("list", "a.img"), ("asm", "a.s", "a.img"), ("gen", "1"), ("version",)):
            self.assertEqual(explanations.of_notes("multiverse", "done\n", list(words), source), [])
        for notes in ("input fault\n", "trap\n", ""):
            self.assertEqual(explanations.of_notes("multiverse", notes, ["run", "a.c"], source), [])
