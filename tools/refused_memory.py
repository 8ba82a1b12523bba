#!/usr/bin/env python3
"""Refuses the allocations of some commands, one in each run, and compares what comes of it. It is no part of the gate.

  refused_memory.py PROGRAM [ROWS [MVHARTS]]

PROGRAM is a built `multiverse`, as crates/mv_cli/out/mv_cli, and MVHARTS a built `mvharts`, as crates/mv_harts_cli/out/mv_harts_cli. Each run has to answer what the command answers with ample memory, or want of memory: then
the status is 4, what it wrote is a part of what it owes, from its start, the notes have no last line, and each file is as it was or as the command owes it.
The probes of a run are seen by no command: that run is a row of ROWS, a built crates/mv_test_top/out/mv_test_top. Where an allocation of that program itself
is refused, it ends with the status 1, and nothing is said of the run.

The allocations are those of malloc, calloc, realloc and aligned_alloc, which a library that is loaded before the program counts and refuses.
"""
import os
import subprocess
import sys
import tempfile
from concurrent.futures import ThreadPoolExecutor
from typing import NamedTuple

SHIM = r"""
#define _GNU_SOURCE
#include <dlfcn.h>
#include <errno.h>
#include <stddef.h>
#include <stdio.h>
#include <stdlib.h>

static unsigned long calls, refused;
static int is_read;

static int refuses(void) {
    if (!is_read) {
        const char *text = getenv("REFUSE");
        is_read = 1;
        refused = text ? strtoul(text, 0, 10) : 0;
    }
    if (++calls != refused) return 0;
    errno = ENOMEM;
    return 1;
}

void *malloc(size_t size) {
    static void *(*real)(size_t);
    if (!real) real = dlsym(RTLD_NEXT, "malloc");
    return refuses() ? 0 : real(size);
}

void *realloc(void *at, size_t size) {
    static void *(*real)(void *, size_t);
    if (!real) real = dlsym(RTLD_NEXT, "realloc");
    return refuses() ? 0 : real(at, size);
}

void *aligned_alloc(size_t alignment, size_t size) {
    static void *(*real)(size_t, size_t);
    if (!real) real = dlsym(RTLD_NEXT, "aligned_alloc");
    return refuses() ? 0 : real(alignment, size);
}

int posix_memalign(void **at, size_t alignment, size_t size) {
    static int (*real)(void **, size_t, size_t);
    if (!real) real = dlsym(RTLD_NEXT, "posix_memalign");
    return refuses() ? ENOMEM : real(at, alignment, size);
}

void *calloc(size_t count, size_t size) {
    static void *(*real)(size_t, size_t);
    if (!real) real = dlsym(RTLD_NEXT, "calloc");
    return refuses() ? 0 : real(count, size);
}

__attribute__((destructor)) static void tell(void) {
    const char *name = getenv("COUNT");
    FILE *file;
    if (!name) return;
    refused = 0;
    file = fopen(name, "w");
    if (file) {
        fprintf(file, "%lu", calls);
        fclose(file);
    }
}
"""
MEMORY, OWN = 4, 1
M = "__attribute__((multiverse))"
HELLO = "int main(void){putchar(72);putchar(105);return 3;}"
TRAP = "int zero; int main(void){ putchar(42); return 1 / zero; }"
POLLED = f"{M} int s; {M} int f(void){{ return s; }} int main(void){{ putchar(48 + f()); multiverse_poll(); putchar(48 + f()); }}"
LOCK = (
    f"{M} int smp; int taken; {M} void lock(void){{ if (smp) taken++; }} "
    "int main(void){ multiverse_commit(); lock(); putchar(48+taken); smp=1; lock(); putchar(48+taken); "
    "multiverse_commit(); lock(); putchar(48+taken); multiverse_revert(); smp=0; lock(); putchar(48+taken); }"
)
BREAK = bytes.fromhex("4d564931010000000010000001000000" + "00" * 32 + "73001000")
PROBED = f"run a.c !log\n    {LOCK}\n"
HEARD = "1 left, 3 events: 0 0, 0 1, 0 free\n"
LISTED = b"switch smp int values 0 1\n"
CODE = b".entry 0x00001000\nebreak\n"


class Case(NamedTuple):
    """A command, the files that it finds, and its answer with ample memory. Of `list` and `gen` the first line is given."""

    words: list
    files: dict
    status: int
    out: bytes
    notes: bytes

    def line(self):
        """The words as they can be printed."""
        return " ".join(self.words).encode(errors="backslashreplace").decode()

    def is_met(self, answer):
        wrote = answer.out.startswith(self.out) if self.words[0] in ("list", "gen") else answer.out == self.out
        return wrote and (answer.status, answer.notes) == (self.status, self.notes)


class Answer(NamedTuple):
    status: int
    out: bytes
    notes: bytes
    files: dict


def cases(image, elf):
    """The commands; `image` is that of the program with a lock, as `build` saves it, and `elf` its ELF file."""
    with_lock = {"lock.c": LOCK.encode()}
    built = {"lock.mvi": image}
    polled = {"polled.c": POLLED.encode()}
    return [
        Case(["fly"], {}, 2, b"", b"usage\n"),
        Case(["run", "\udcff.c"], {}, 2, b"", b"usage\n"),
        Case(["run", "none.c"], {}, 7, b"", b"shelf fault\n"),
        Case(["run", "trap.c"], {"trap.c": TRAP.encode()}, 1, b"*", b"trapped 1\n"),
        Case(["run", "hello.c", "--steps", "1"], {"hello.c": HELLO.encode()}, 8, b"", b"steps\n"),
        Case(["run", "polled.c", "--at", "1:s=1", "--bindings"], polled, 0, b"01", b"binding f s=1\nended 0\n"),
        Case(["run", "polled.c", "--at", "1:t=1"], polled, 3, b"", b"refused 15 count 1\n"),
        Case(["run", "none.c"], {"none.c": b"int main(void){ x }"}, 3, b"", b"refused 4 1:19\n"),
        Case(["run", "none.c"], {"none.c": b"int main(void){ return y; }"}, 3, b"", b"refused 6 1:24 rule 1\n"),
        Case(["build", "none.c", "none.mvi"], {"none.c": b"int main(void){ x }", "none.mvi": b"old"}, 3, b"", b"refused 4 1:19\n"),
        Case(["eval", "lock.c", "--bound", "100"], with_lock, 0, b"0011", b"ended 0\n"),
        Case(["eval", "trap.c", "--bound", "100"], {"trap.c": TRAP.encode()}, 1, b"*", b"trapped 1\n"),
        Case(["exec", "lock.mvi", "--steps", "1"], built, 8, b"", b"steps\n"),
        Case(["exec", "lock.mvi", "--at", "1:smp=1", "--bindings", "--words"], built, 0, b"0011", b"binding lock free\nended 0\n"),
        Case(["gen", "1", "--source"], {}, 0, b"#include <multiverse.h>\n", b"done\n"),
        Case(["run", "hello.c"], {"hello.c": HELLO.encode()}, 0, b"Hi", b"ended 3\n"),
        Case(["run", "lock.c"], with_lock, 0, b"0011", b"ended 0\n"),
        Case(["run", "lock.c", "--bindings", "--words"], with_lock, 0, b"0011", b"binding lock free\nended 0\n"),
        Case(["exec", "break.mvi"], {"break.mvi": BREAK}, 10, b"", b"machine fault 0x00001000 break\n"),
        Case(["exec", "break.mvi"], {"break.mvi": BREAK[:51]}, 9, b"", b"bad image 10 48\n"),
        Case(["exec", "break.mvi"], {"break.mvi": BREAK + b"\0"}, 9, b"", b"bad image 12 52\n"),
        Case(["exec", "break.mvi"], {"break.mvi": b""}, 9, b"", b"bad image 10 0\n"),
        Case(["build", "lock.c", "lock.mvi"], with_lock, 0, b"", b"done\n"),
        Case(["build", "lock.c", "lock.mvi"], {**with_lock, "lock.mvi": b"old"}, 0, b"", b"done\n"),
        Case(["exec", "lock.mvi"], built, 0, b"0011", b"ended 0\n"),
        Case(["list", "lock.mvi"], built, 0, LISTED, b"done\n"),
        Case(["upgrade", "break.mvi", "new.mvi"], {"break.mvi": BREAK, "new.mvi": b"old"}, 0, b"", b"done\n"),
        Case(["upgrade", "lock.mvi", "new.mvi"], built, 0, b"", b"done\n"),
        Case(["asm", "break.s", "new.mvi"], {"break.s": CODE}, 0, b"", b"done\n"),
        Case(["asm", "break.s", "new.mvi"], {"break.s": b"beq x0, x0, c", "new.mvi": b"old"}, 3, b"", b"refused 19 1:1\n"),
        Case(["disasm", "break.mvi"], {"break.mvi": BREAK}, 0, CODE, b"done\n"),
        Case(["elf", "lock.mvi", "lock.elf"], built, 0, b"", b"done\n"),
        Case(["unelf", "lock.elf", "new.mvi"], {"lock.elf": elf, "new.mvi": b"old"}, 0, b"", b"done\n"),
        Case(["unelf", "lock.elf", "new.mvi"], {"lock.elf": elf[:51], "new.mvi": b"old"}, 9, b"", b"bad image 10 51\n"),
        Case(["check", "lock.c", "lock.mvi"], {**with_lock, **built}, 0, b"", b"done\n"),
        Case(["check", "lock.c", "break.mvi"], {**with_lock, "break.mvi": BREAK}, 11, b"", b"differs 4\n"),
    ]


def cases_of_harts():
    """The words of `mvharts`."""
    with open(os.path.join(os.path.dirname(os.path.realpath(__file__)), "..", "examples", "levels.c"), "rb") as it:
        levels = {"levels.c": it.read()}
    going = b"".join(b"hart %d going bytes 0\n\n" % hart for hart in range(4))
    return [
        Case(["levels.c", "5", "7", "20000"], levels, 2, b"", b"usage\n"),
        Case(["none.c", "3", "7", "20000"], {}, 7, b"", b"shelf fault\n"),
        Case(["none.c", "3", "7", "20000"], {"none.c": b"int main(void){ return y; }"}, 3, b"", b"refused 6 1:24 rule 1\n"),
        Case(["levels.c", "4", "0", "1"], levels, 0, going, b"done\n"),
        Case(["levels.c", "3", "7", "20000"], levels, 0, b"hart 0 ended 0 bytes 2\n12\nhart 1 ended 0 bytes 1\n0\nhart 2 ended 0 bytes 2\n12\n", b"done\n"),
    ]


class Runner:
    def __init__(self, program, room):
        self.program, self.room = os.path.realpath(program), room
        self.library = os.path.join(room, "refuse.so")
        with open(os.path.join(room, "refuse.c"), "w", encoding="utf-8") as it:
            it.write(SHIM)
        subprocess.run(["cc", "-O1", "-shared", "-fPIC", "-o", self.library, os.path.join(room, "refuse.c"), "-ldl"], check=True)

    def run(self, words, files, given, refused):
        """What a command answers with an allocation refused, none where it is 0, and how many there were."""
        with tempfile.TemporaryDirectory(dir=self.room) as at:
            for name, content in files.items():
                with open(os.path.join(at, name), "wb") as it:
                    it.write(content)
            count = os.path.join(self.room, f"count{refused}")
            how = {"LD_PRELOAD": self.library, "REFUSE": str(refused), **({"COUNT": count} if refused == 0 else {})}
            ran = subprocess.run([self.program, *words], input=given, capture_output=True, check=False, cwd=at, env=how, timeout=120)
            left = {}
            for name in sorted(os.listdir(at)):
                with open(os.path.join(at, name), "rb") as it:
                    left[name] = it.read()
        calls = 0
        if refused == 0:
            with open(count, encoding="utf-8") as it:
                calls = int(it.read())
        return Answer(ran.returncode, ran.stdout, ran.stderr, left), calls


def is_want(answer, whole, before):
    """Whether an answer is want of memory, with all that has to stand then."""
    names = set(answer.files) | set(whole.files) | set(before)
    kept = all(answer.files.get(name) in (before.get(name), whole.files.get(name)) for name in names)
    return answer.status == MEMORY and whole.out.startswith(answer.out) and whole.notes.startswith(answer.notes) and answer.notes != whole.notes and kept


def try_case(runner, case):
    """Refuses each allocation of a command in turn. Returns how many answers were wrong."""
    whole, calls = runner.run(case.words, case.files, b"", 0)
    if not case.is_met(whole):
        print(f"{case.line()}: {whole.status} {whole.out[:80]} {whole.notes[:80]} with ample memory")
        return 1
    if calls == 0:
        print(f"{case.line()}: no allocation was seen, so none was refused")
        return 1
    wants, same, wrong = 0, 0, 0
    with ThreadPoolExecutor(max_workers=os.cpu_count()) as pool:
        for number, (answer, _) in enumerate(pool.map(lambda n: runner.run(case.words, case.files, b"", n), range(1, calls + 1)), 1):
            if answer == whole:
                same += 1
            elif is_want(answer, whole, case.files):
                wants += 1
            else:
                wrong += 1
                print(f"{case.line()}, allocation {number}: {answer.status} {answer.out[:80]} {answer.notes[:80]} {sorted(answer.files)}")
    print(f"{case.line()}: {calls} allocations, {wants} answers of want of memory, {same} as with ample memory, {wrong} others")
    return wrong


def is_part(lines, whole):
    """Whether an outcome that lacked memory is a part of the whole one: what was written, the notes without their last line's end, and what the probes were told."""
    wanted = f"status {MEMORY}"
    if wanted not in lines[:2] or len(lines) > lines.index(wanted) + 3:
        return False
    out, ended, heard = whole
    at = lines.index(wanted)
    told = lines[-1].partition(": ")[2]
    return all(out.startswith(it) for it in lines[:at]) and all(ended.startswith(it) for it in lines[at + 1 : -1]) and heard.partition(": ")[2].startswith(told)


def is_probed(text, whole):
    """Whether what is printed of a row is what it prints with ample memory, or also an outcome, of a run or of the evaluation beside it, that lacked memory."""
    ran, *meant = text.split("# and it means something else\n")
    runs = ran.split("# and by another oracle\n")
    lacking = [block for block in runs if block != whole] + meant
    return all(is_part(block.splitlines(), whole.splitlines()) for block in lacking)


def try_row(runner):
    """Refuses each allocation of the row with probes."""
    whole, calls = runner.run([], {}, PROBED.encode(), 0)
    text = whole.out.decode()
    if whole.status != 0 or not text.endswith(HEARD):
        print(f"the row with probes: {whole.status} {text}")
        return 1
    if calls == 0:
        print("the row with probes: no allocation was seen, so none was refused")
        return 1
    own, same, wants, wrong = 0, 0, 0, 0
    with ThreadPoolExecutor(max_workers=os.cpu_count()) as pool:
        for number, (answer, _) in enumerate(pool.map(lambda n: runner.run([], {}, PROBED.encode(), n), range(1, calls + 1)), 1):
            if answer.status == OWN:
                own += 1
            elif answer == whole:
                same += 1
            elif answer.status == 0 and is_probed(answer.out.decode(), text):
                wants += 1
            else:
                wrong += 1
                print(f"the row with probes, allocation {number}: {answer.status} {answer.out}")
    print(f"the row with probes: {calls} allocations, {wants} answers of want of memory, {same} as with ample memory, {own} of the rows' own, {wrong} others")
    return wrong


def main(words):
    with tempfile.TemporaryDirectory(prefix="refused-") as room:
        runner = Runner(words[0], room)
        built, _ = runner.run(["build", "lock.c", "lock.mvi"], {"lock.c": LOCK.encode()}, b"", 0)
        image = built.files.get("lock.mvi", b"")
        packed, _ = runner.run(["elf", "lock.mvi", "lock.elf"], {"lock.mvi": image}, b"", 0)
        wrong = sum(try_case(runner, case) for case in cases(image, packed.files.get("lock.elf", b"")))
        if len(words) > 1:
            wrong += try_row(Runner(words[1], room))
        if len(words) > 2:
            harts = Runner(words[2], room)
            wrong += sum(try_case(harts, case) for case in cases_of_harts())
    return 1 if wrong else 0


if __name__ == "__main__":
    sys.exit(main(sys.argv[1:]))
