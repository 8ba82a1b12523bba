#!/usr/bin/env python3
"""Whether a command dies of deep calls in deep nesting: run.py [KIND..]

Each kind of nesting is made at several depths in the body of a function that calls itself 510 times, and in one that is called once. The sources are given to `eval`, `run` and `build`
with a stack of 8 MiB. Printed is how each command ended, and of many calls also the least stack by which `eval` ends so; the status is 1 where one died of a signal. Needs the program
that .ci/run leaves (or PROGRAM).
"""
import os
import resource
import subprocess
import sys
import tempfile

HERE = os.path.dirname(os.path.realpath(__file__))
PROGRAM = os.environ.get("PROGRAM", os.path.join(HERE, "..", "..", "crates", "mv_cli", "out", "mv_cli"))
STACK = 8 << 20
NESTINGS = (1, 10, 50, 120, 240)
CALLS = 510
CALL = "if(n)r+=f(n-1);"

# For each kind the body around the call at a nesting. A level of the language is a bracket or a keyword that is open, so that some kinds have two a turn.
KINDS = {
    "blocks": lambda k: "{" * k + CALL + "}" * k,
    "if": lambda k: "if(1)" * k + "{" + CALL + "}",
    "else": lambda k: "if(!n);else " * k + "{" + CALL + "}",
    "while": lambda k: "while(1){" * (k // 2) + CALL + "break;}" * (k // 2),
    "do": lambda k: "do{" * (k // 2) + CALL + "}while(0);" * (k // 2),
    "for": lambda k: "for(int i=0;i<1;i++){" * (k // 2) + CALL + "}" * (k // 2),
    "switch": lambda k: "switch(1){case 1:" * (k // 2) + CALL + "}" * (k // 2),
    "brackets": lambda k: "r=" + "(" * k + "n?f(n-1):0" + ")" * k + ";",
    "minus": lambda k: "r=" + "- " * k + "(n?f(n-1):0);",
    "sums": lambda k: "r=" + "1+(" * k + "n?f(n-1):0" + ")" * k + ";",
    "and": lambda k: "r=" + "1&&(" * k + "n?f(n-1):0" + ")" * k + ";",
    "choices": lambda k: "r=" + "1?(" * k + "n?f(n-1):0" + "):0" * k + ";",
    "assignments": lambda k: "r=" + "a[0]=(" * k + "n?f(n-1):0" + ")" * k + ";",
    "indexes": lambda k: "r=" + "a[" * k + "n?f(n-1)*0:0" + "]" * k + ";",
    "arguments": lambda k: "r=" + "g(" * k + "n?f(n-1):0" + ")" * k + ";",
    "casts": lambda k: "r=" + "(char)(" * (k // 2) + "n?f(n-1):0" + ")" * (k // 2) + ";",
    "initial values": lambda k: "int b[1]={" + "(" * k + "n?f(n-1):0" + ")" * k + "};r=b[0];",
    "returns": lambda k: "return " + "(" * k + "n?f(n-1):0" + ")" * k + ";",
}


def source(kind, nesting, calls):
    """Returns a program whose function calls itself so often below so much nesting."""
    return f"int a[1];int g(int x){{return x;}}int f(int n){{int r=0;{KINDS[kind](nesting)}return r;}}int main(void){{return f({calls});}}\n"


def ended(words, stack=STACK):
    """Returns the last line of a command that has so much stack, or its status, and whether it died."""
    limit = lambda: resource.setrlimit(resource.RLIMIT_STACK, (stack, stack))
    ran = subprocess.run([PROGRAM, *words], stdin=subprocess.DEVNULL, capture_output=True, preexec_fn=limit)
    lines = ran.stderr.decode(errors="replace").splitlines()
    return lines[-1] if lines else f"status {ran.returncode}", ran.returncode < 0


def least_stack(words):
    """Returns the least stack, in KiB, with which a command doesn't die."""
    least, most = 0, STACK >> 10
    while most - least > 16:
        half = (least + most) // 2
        least, most = (half, most) if ended(words, half << 10)[1] else (least, half)
    return most


def main(kinds):
    if not os.access(PROGRAM, os.X_OK):
        sys.exit(f"no {PROGRAM}: .ci/run makes it")
    deaths = 0
    with tempfile.TemporaryDirectory() as room:
        file = os.path.join(room, "deep.c")
        for kind in kinds or KINDS:
            for calls in (0, CALLS):
                for nesting in NESTINGS:
                    with open(file, "w", encoding="ascii") as it:
                        it.write(source(kind, nesting, calls))
                    evaluation = ["eval", file, "--bound", "1000000"]
                    ends = [ended(words) for words in (evaluation, ["run", file], ["build", file, file + ".img"])]
                    deaths += sum(died for _, died in ends)
                    stack = f"; {least_stack(evaluation)} KiB of stack" if calls == CALLS else ""
                    print(f"{kind}, {nesting} deep, {calls} calls: {', '.join(line for line, _ in ends)}{stack}", flush=True)
    print(f"{deaths} died")
    sys.exit(deaths > 0)


if __name__ == "__main__":
    main(sys.argv[1:])
