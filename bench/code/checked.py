#!/usr/bin/env python3
"""Writes out a guest's source with the checks that `multiverse` makes and C doesn't ask for, as far as gcc's options don't: the depth of each direct call, counted in s11.

checked.py SOURCE. Tests of indexes and divisors come by gcc's -fsanitize=bounds,integer-divide-by-zero, with traps. Calls through pointers stay unchecked.
"""
import re
import sys

# How deep calls may be within one another.
DEPTH = 512
FUNCTION = re.compile(r"^(static )?(void|int|unsigned|_Bool) (\w+)\(([^()]*)\) \{", re.M)


def counted(name, kind):
    """Returns the macro that a call of a function becomes: a trap where no call is left, and one less for as long as it takes."""
    before, behind = "if (!calls_left_) __builtin_trap(); calls_left_--;", "calls_left_++;"
    if kind == "void":
        return f"#define {name}(...) ({{ {before} ({name})(__VA_ARGS__); {behind} }})"
    return f"#define {name}(...) ({{ {before} {kind} result_ = ({name})(__VA_ARGS__); {behind} result_; }})"


def main():
    with open(sys.argv[1], encoding="utf-8") as it:
        source = re.sub(r"#include.*\n", "", it.read())
    kinds = {name: kind for _, kind, name, _ in FUNCTION.findall(source) if name != "main"}
    # The name of a function in parentheses is no call of the macro.
    source = FUNCTION.sub(lambda it: it[0] if it[3] == "main" else f"{it[1] or ''}{it[2]} ({it[3]})({it[4]}) {{", source)
    source = source.replace("int main(void) {", f"int main(void) {{ calls_left_ = {DEPTH};")
    print('register int calls_left_ __asm__("s11");', *(counted(*it) for it in kinds.items()), source, sep="\n")


main()
