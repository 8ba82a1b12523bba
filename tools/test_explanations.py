"""Tests what is said behind the notes of a program: each sentence here is written by hand, and none is read from docs/refusals.ini.

The refusals of the mistakes and of the causes are those that the rows of crates/mv_test_top have of the same sources, which the gate runs.
tools/test_launcher.py runs these tests.
"""
import sys
import unittest

sys.dont_write_bytecode = True
import check_documents
import explanations
import refusals

# What is told of the commands, as `help` does.
HELP = """\
multiverse 1.0
run FILE [--steps N] [--at LIST] [--oracle WAY] [--bindings] [--words] [--log] [--stats]
    compiles FILE and runs it
eval FILE --bound K
    evaluates what FILE means at the bound K
help [COMMAND]
    tells of the commands, or of COMMAND
"""

# The usual first mistakes, each a whole source with its refusal and the sentence that helps.
MISTAKES = {
    "string literal": (
        'int main(void) { printf("Hi\\n"); }',
        "refused 4 1:25",
        "a string is only the first value of a global `char` array: write its bytes in a loop, up to the 0 at its end",
    ),
    "pointer": ("int *a;", "refused 4 1:5", "there are no pointers to objects: a global array, and an index where the pointer would be"),
    "dereference": (
        "int main(void) { int n; return *n; }",
        "refused 6 1:32 rule 20",
        "there are no pointers to objects: `*` leads to the function of a pointer to one, and may be left out",
    ),
    "another header": ("#include <stdlib.h>", "refused 2 1:1", "`<stdio.h>` and `<multiverse.h>` alone may be included, and neither has to be"),
    "struct": ("struct point { int x, y; };", "refused 2 1:1", "an array for each member, and an index for each object"),
    "sizeof": ("int a[10]; int n = sizeof a;", "refused 2 1:20", "the number of elements, as an enumerator"),
    "#define": ("#define SIZE 10", "refused 2 1:1", "`enum { SIZE = 10 };`"),
    "->": (
        "int main(void) { int p; return p->x; }",
        "refused 2 1:33",
        "there are no structs and no pointers to them: an array for each member, and an index for each object",
    ),
    "long": ("long total;", "refused 2 1:1", "`int`, or two words of `unsigned int`"),
    "typedef": ("typedef unsigned int word;", "refused 2 1:1", "the type itself"),
    "member": (
        "int main(void) { int p; return p.x; }",
        "refused 2 1:33",
        "there are no structs: an array for each member, and an index for each object",
    ),
    "goto": ("int main(void) { goto done; }", "refused 2 1:18", "`break`, `continue`, `return`, a loop or a function"),
    "NULL": ("int (*handler)(void) = NULL; int main(void) { }", "refused 6 1:24 rule 1", "`0`"),
    "bool": ("bool done;", "refused 4 1:1", "`_Bool`"),
    "EOF": ("int main(void) { while (getchar() != EOF) ; }", "refused 6 1:38 rule 1", "`-1`, or `enum { EOF = -1 };`"),
}

# What is like one of these and isn't it, with what is said in general.
UNDECLARED = "declare it further up; a function by a prototype"
NEAR_MISTAKES = (
    ("int main(void) { return EOFS; }", "refused 6 1:25 rule 1", UNDECLARED),
    ("int main(void) { return NULLS; }", "refused 6 1:25 rule 1", UNDECLARED),
    ("int main(void) { return printed; }", "refused 6 1:25 rule 1", UNDECLARED),
    ("longer total;", "refused 4 1:1", "what is missing or wrong stands at the place or right before it: at the end of an open block a `}`"),
    ("booleans done;", "refused 4 1:1", "what is missing or wrong stands at the place or right before it: at the end of an open block a `}`"),
)

M = "__attribute__((multiverse))"
V = "__attribute__((multiverse(1, 1)))"
# Of the rules that are broken in several ways a source for each, in which `^` stands before the place, and the cause.
CAUSES = {
    10: (
        ("int ^a[0];int main(void){}", "an array has a size below 1 (6.7.6.2)"),
        ("int ^a[-1];int main(void){}", "an array has a size below 1 (6.7.6.2)"),
        ("int ^z[0-1>0];int main(void){}", "an array has a size below 1 (6.7.6.2)"),
        ('char ^s[0] = ""; int main(void){}', "an array has a size below 1 (6.7.6.2)"),
        ("int ^a[];int main(void){}", "an array has neither a size nor values"),
        ("int ^a[1]={1,2};int main(void){}", "an array has more values than elements (6.7.9)"),
        ('char ^a[1]="ab";int main(void){}', "an array has more values than elements (6.7.9)"),
        ("enum{A=1}a[A]={1},^b[A]={1,2};int main(void){}", "an array has more values than elements (6.7.9)"),
        ('char a[1]={1},^b[1]="ab";int main(void){}', "an array has more values than elements (6.7.9)"),
        ("int^(*p[1])(void)={0,0};int main(void){}", "an array has more values than elements (6.7.9)"),
        ("int ^x={1};int main(void){}", "a scalar has a list of values"),
        ("int^(*p)(void)={0};int main(void){}", "a scalar has a list of values"),
        ('int ^a[2]="a";int main(void){}', "a string initialises anything other than a global array of a char type"),
        ('int main(void){char ^a[2]="a";}', "a string initialises anything other than a global array of a char type"),
        ('char ^c="a";int main(void){}', "a string initialises anything other than a global array of a char type"),
    ),
    11: (
        ("int main(void){^case 1:;}", "a label stands elsewhere than directly in the block of a `switch` (6.8.1)"),
        ("int n;int main(void){switch(n){case 1:{^case 2:;}}}", "a label stands elsewhere than directly in the block of a `switch` (6.8.1)"),
        ("int n;int main(void){switch(n){case 1:;}^case 2:;}", "a label stands elsewhere than directly in the block of a `switch` (6.8.1)"),
        ("int n;int main(void){switch(n){if(n)^default:;}}", "a label stands elsewhere than directly in the block of a `switch` (6.8.1)"),
        ("int n;int main(void){switch(n){while(1){^case 1:;}}}", "a label stands elsewhere than directly in the block of a `switch` (6.8.1)"),
        ("int n;int main(void){switch(n){case 1:;^int k;}}", "a declaration stands directly in the block of a `switch`"),
        ("int n;int main(void){^switch(n)n=1;}", "the body of a `switch` is no block"),
        ("int n;int main(void){switch(n){case 1:^case 1:;}}", "a label is repeated (6.8.4.2)"),
        ("int f(void){return 0;}int main(void){switch(f()){case 1:{}^case 1:;}}", "a label is repeated (6.8.4.2)"),
        ("int n;int main(void){switch(n){default:^default:;}}", "a label is repeated (6.8.4.2)"),
    ),
    14: (
        (f"int main(void){{^{M}int a;}}", "a local has the attribute"),
        (f"int main(void){{for(^{M} int i=0;;);}}", "a local has the attribute"),
        (f"void f(^{M}int a){{}}int main(void){{}}", "a parameter has the attribute"),
        (f"^{M}int a,b[2];int main(void){{}}", "an array has the attribute"),
        (f"int s,a[2] ^{M};int main(void){{}}", "an array has the attribute"),
        (f"^{M}enum{{A}}x,y[2];int main(void){{}}", "an array has the attribute"),
        (f"int a[1]={{1}},s {M},b[2] ^{M};int main(void){{}}", "an array has the attribute"),
        (f"^{M} int (*p[2])(void); int main(void){{}}", "an array has the attribute"),
        (f"^{M}const int a=1;int main(void){{}}", "a `const` object has the attribute"),
        (f"^{M}int s;const int s;int main(void){{}}", "a `const` object has the attribute"),
        (f"int f(void){{return 0;}} ^{M} int (*const p)(void) = f; int main(void){{}}", "a `const` object has the attribute"),
        (f"int main(void) ^{M} {{}}", "`main` has the attribute"),
        (f"^{M}enum{{a}};int main(void){{}}", "an enum by itself has the attribute"),
        (f"{M}int s ^{M};int main(void){{}}", "two attributes hold for one declarator"),
        (f"{M} ^{M} int s;int main(void){{}}", "two attributes hold for one declarator"),
        (f"^{V} int f(void); int main(void){{}}", "an attribute with values holds for a function or a pointer to one"),
        (f"int f(void) ^{V}; int main(void){{}}", "an attribute with values holds for a function or a pointer to one"),
        (f"^{V.replace('1, 1', '0, 1')} int s, (*p)(void); int main(void){{}}", "an attribute with values holds for a function or a pointer to one"),
    ),
    20: (
        ("int n;int main(void){return ^&n==0;}", "`&` stands before anything other than a function, or a switch or pointer switch in a `_refs` call (6.5.3.2)"),
        ("int main(void){^*1;}", "`*` stands before anything other than a pointer to a function (6.5.3.2)"),
        ("int f(void){return 0;}int main(void){return ^(int)f;}", "a cast goes from a function or a pointer to one (6.5.4)"),
        ("int main(void){&^getchar;}", "a known function such as `getchar` is named and not called"),
    ),
    22: (
        ("^short char k;int main(void){}", "the type words and enums name no type (6.7.2)"),
        ("^const x;int main(void){}", "the type words and enums name no type (6.7.2)"),
        ("enum e{A};^enum e int k;int main(void){}", "the type words and enums name no type (6.7.2)"),
        ("int main(void){^static int k;}", "`static` stands on a local or a parameter (6.7.1)"),
        ("int f(^static int a);int main(void){}", "`static` stands on a local or a parameter (6.7.1)"),
        ("^int;int main(void){}", "a declaration has neither a name nor an enum (6.7)"),
        ("int f(int a,^int){return a;}int main(void){}", "a parameter of a defined function has no name (6.9.1)"),
        ("int f(int^(*)(void)){return 0;}int main(void){}", "a parameter of a defined function has no name (6.9.1)"),
        ("int ^x{}int main(void){}", "a block follows what is no function (6.9.1)"),
        ("int ^f(void)=1;int main(void){}", "a function has an initial value (6.7.9)"),
        ("int main(void){int ^f(void);}", "a function is declared in a block"),
        ("int main(void){for(int ^f(void);;);}", "a function is declared in a block"),
    ),
}


class Explanations(unittest.TestCase):
    def said(self, notes, *words, source=None, name="multiverse"):
        """Returns the lines that are said behind some notes, of a source that is handed in."""
        return explanations.of_notes(name, f"{notes}\n", list(words), source and f"{source}\n".encode(), lambda: HELP)

    def assert_row(self, source, answer):
        """Sees that the rows have this answer of a source."""
        found = [known for (command, text), known in ROWS.items() if text == source and command in ("run a.c", "eval a.c --bound 0 !verdict")]
        self.assertIn(f"{answer}\n", found, source)

    def test_first_mistakes(self):
        for kind, (source, refusal, sentence) in MISTAKES.items():
            with self.subTest(kind=kind):
                self.assert_row(source, refusal)
                lines = self.said(refusal, "run", "a.c", source=source)
                self.assertEqual(lines[-1], f"what to do: {sentence}")
                self.assertEqual(lines[1], f"    {source}")
                self.assertTrue(lines[0].startswith(f"a.c:{refusal.split()[2]}: "))

    def test_near_mistakes(self):
        for source, refusal, sentence in NEAR_MISTAKES:
            with self.subTest(source=source):
                self.assertEqual(self.said(refusal, "run", "a.c", source=source)[-1], f"what to do: {sentence}")

    def test_each_cause_of_a_rule(self):
        for rule, cases in CAUSES.items():
            for marked, cause in cases:
                (line, column), source = refusals.place_in(marked)
                with self.subTest(rule=rule, source=source):
                    self.assert_row(source, f"refused 6 {line}:{column} rule {rule}")
                    lines = self.said(f"refused 6 {line}:{column} rule {rule}", "build", "a.c", "a.img", source=source)
                    self.assertEqual(lines[0], f"a.c:{line}:{column}: rule {rule}: {cause}")

    def test_cast_to_void_behind_another(self):
        lines = self.said("refused 6 2:13 rule 20", "run", "a.c", source="int i; int main(void) {\n(const void)(void)i; }")
        self.assertEqual(lines[0], "a.c:2:13: rule 20: a cast goes to `void` inside an expression (6.5.4)")

    def test_cause_that_the_tokens_don_t_tell(self):
        lines = self.said("refused 6 1:5 rule 10", "run", "a.c", source="int a[1 + 1] = {1, 2, 3};")
        causes = "an array has a size below 1 (6.7.6.2); an array has neither a size nor values; an array has more values than elements (6.7.9)"
        rest = "a scalar has a list of values; a string initialises anything other than a global array of a char type"
        self.assertEqual(lines[0], f"a.c:1:5: rule 10: {causes}; {rest}")

    def test_function_that_passes_limit_6(self):
        marked = f"{M} int a, b, c, d, e, g, h;\n"
        local = f"{M} int local(void) {{ int h = 0; multiverse_commit_refs(&g); return a + b + c + d + e + h; }}\n"
        other = f"int other(void) {{ return a + b + c + d + e + g + h; }}\n{M} int f(void);\n"
        source = f"{marked}{local}{other}int f(void) {{ return h + a + b + c + d + e + g + g; }}\nint main(void) {{ }}"
        lines = self.said("refused 7 limit 6 count 7", "run", "a.c", source=source)
        self.assertEqual(lines[0], "a.c:5:5: limit 6: switches that an attributed function names, at most 6: `f` names `a`, `b`, `c`, `d`, `e`, `g`, `h`")
        self.assertEqual(lines[1], "    int f(void) { return h + a + b + c + d + e + g + g; }")
        self.assertEqual(lines[-1], "what to do: split it into functions with fewer switches each")

    def test_function_that_passes_limit_7(self):
        marked = f"enum mode {{ OFF, ON, AUTO, OTHER = 1 }};\n__attribute__((multiverse(1, 2 + 1, 3 + 1, 7))) int a, b;\n{M} enum mode m;\n{M} int s;\n"
        source = f"{marked}{M} int f(void) {{ return a + m + s; }}\n{M} int g(void) {{ return a + b + m + s; }}\nint main(void) {{ }}"
        lines = self.said("refused 7 limit 7 count 96", "run", "a.c", source=source)
        cause = "limit 7: assignments of an attributed function: the product of the sizes of its switches' domains, at most 64"
        self.assertEqual(lines[0], f"a.c:6:33: {cause}: `g` has 96, by the values of `a` (4), `b` (4), `m` (3), `s` (2)")
        self.assertEqual(lines[-1], "what to do: smaller domains, or a split as for 6")
        self.assertEqual(self.said("refused 7 limit 7 count 97", "run", "a.c", source=source)[0], f"a.c: {cause}")

    def test_each_refusal_has_the_file_s_name(self):
        for refusal in ("1 1:1", "2 1:1", "3 count 64", "4 1:1", "5 1:1", "6 1:1 rule 3", "7 limit 1 count 1001", "8 function 0 count 2048", "9 count 131073"):
            self.assertTrue(self.said(f"refused {refusal}", "run", "folder/a.c", source="x")[0].startswith("folder/a.c:"), refusal)
        for refusal in ("13 count 262145", "14 count 16385", "15 count 1"):
            self.assertTrue(self.said(f"refused {refusal}", "run", "a.c", "--at", "1:s=1", source="x")[0].startswith("a.c: "), refusal)
        for refusal in ("17 1:1", "18 1:1", "19 1:1"):
            self.assertTrue(self.said(f"refused {refusal}", "asm", "a.s", "a.img", source="x")[0].startswith("a.s:1:1: "), refusal)
        self.assertTrue(self.said("refused 6 1:1 rule 1", "a.c", "2", "7", "100", source="x", name="mvharts")[0].startswith("a.c:1:1: "))

    def test_files_that_fail(self):
        for words, line in (
            (("run", "none.c", "--steps", "3"), "none.c can't be read, or isn't there"),
            (("exec", "--steps", "3", "--at=1:s=1", "--oracle", "fresh", "--words", "none.img"), "none.img can't be read, or isn't there"),
            (("eval", "--bound", "9", "--", "--none.c"), "--none.c can't be read, or isn't there"),
            (("build", "a.c", "a.img"), "a.c can't be read, or isn't there; or a.img can't be written"),
            (("build", "--", "a.c", "a.img"), "a.c can't be read, or isn't there; or a.img can't be written"),
            (("unelf", "a.elf", "a.img"), "a.elf can't be read, or isn't there; or a.img can't be written"),
            (("check", "a.c", "a.img"), "a.c or a.img can't be read, or isn't there"),
        ):
            self.assertEqual(self.said("shelf fault", *words), [line])
        self.assertEqual(self.said("shelf fault", "none.c", "2", "7", "100", name="mvharts"), ["none.c can't be read, or isn't there"])

    def test_bytes_that_are_no_image(self):
        for command, fault, line in (
            ("exec", "10 8", "a.img is no image, as `build` saves one: something is missing at byte 8"),
            ("list", "11 20", "a.img is no image, as `build` saves one: a field breaks a rule at byte 20"),
            ("elf", "12 52", "a.img is no image, as `build` saves one: something follows the end at byte 52"),
            ("unelf", "10 40", "a.img holds no image: something is missing at byte 40"),
            ("unelf", "20 24", "a.img holds no image: a field of the header is wrong at byte 24"),
            ("unelf", "21 52", "a.img holds no image: a segment breaks its rule, or none has a word of text, at byte 52"),
            ("unelf", "22 18", "a.img holds no image: it is made for something else at byte 18"),
            ("unelf", "23 148", "a.img holds no image: the note gives none at byte 148"),
        ):
            self.assertEqual(self.said(f"bad image {fault}", command, "a.img"), [line])

    def test_images_that_differ(self):
        line = "a.img isn't the image of a.c: the files of the two differ from byte 12 on"
        self.assertEqual(self.said("differs 12", "check", "a.c", "a.img", source="int main(void) { }"), [line])

    def test_line_that_is_shown(self):
        for before, after, shown in (
            ("\tint \u00e4 = ", "y;", ("    \tint \u00e4 = y;", "    \t        ^")),
            ("int \x01 = ", "\x7f;", ("    int   =  ;", "            ^")),
            ("x" * 70, "y" * 70, (f"    {'x' * 60}{'y' * 40}", f"    {' ' * 60}^")),
            ("x" * 60, "y", (f"    {'x' * 60}y", f"    {' ' * 60}^")),
        ):
            column = len(before.encode()) + 1
            lines = self.said(f"refused 6 2:{column} rule 1", "run", "a.c", source=f"int a;\n{before}{after}\n")
            self.assertEqual(tuple(lines[1:3]), shown)

    def test_word_that_no_command_knows(self):
        for words, line in (
            (("fly", "a.c"), "`fly` is no command"),
            (("Run", "a.c"), "`Run` is no command"),
            (("a.c",), "`a.c` is no command"),
            (("--version",), "`--version` is no command"),
            (("help", "fly"), "`fly` is no command"),
            (("run", "a.c", "--step", "1"), "`run` has no `--step`"),
            (("run", "a.c", "--bound=1"), "`run` has no `--bound`"),
            (("eval", "a.c", "--bound", "1", "--log"), "`eval` has no `--log`"),
        ):
            self.assertEqual(self.said("usage", *words)[0], line)

    def test_words_of_which_none_is_unknown(self):
        synopsis = "usage: ./multiverse [--explain on|off] [--preprocess] COMMAND"
        told = ((), ("--help",), ("-h",), ("run", "--help"))
        for words in (*told, ("run",), ("run", "a.c", "--log", "--log"), ("run", "--", "a.c", "--fly"), ("help", "run", "eval")):
            lines = self.said("usage", *words)
            self.assertEqual((lines[0], "\n".join(lines[-7:]) + "\n"), (synopsis, HELP))

    def test_word_that_is_no_text(self):
        self.assertEqual(self.said("usage", "run", "\udcff.c")[0], "`\\xff.c` is no UTF-8 text")
        self.assertEqual(self.said("usage", "run", "\u00e4.c", "b.c")[0].split()[0], "usage:")
        self.assertEqual(explanations.of_notes("mvharts", "usage\n", ["\udcff.c", "2"])[0], "`\\xff.c` is no UTF-8 text")


ROWS = check_documents.rows()
