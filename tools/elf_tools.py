#!/usr/bin/env python3
"""Compares ELF files with what GNU binutils and two linkers make of them. No part of the gate.

  elf_tools.py PROGRAM [EXAMPLE..]     PROGRAM is `multiverse` or the program of mv_cli; each EXAMPLE is a C source, and without one those of examples/ are taken that
                                       aren't refused

1. Of each example's image PROGRAM writes the ELF file (`build`, `elf`). readelf reads its header, its segments and its note as the image has them, and objdump
   reads each word of text as `disasm` prints it.
2. C programs without libraries, for rv32im with text at 0x1000 and data at 0x100000, which clang compiles and GNU ld and lld link, come in by `unelf`, and
   `exec` of the image writes what they are to write.

It needs the Debian packages binutils-riscv64-unknown-elf, clang and lld, prints what differs, and ends with 1 where something does.
"""
import os
import re
import subprocess
import sys
import tempfile

TOP = os.path.dirname(os.path.dirname(os.path.realpath(__file__)))
BINUTILS = "riscv64-unknown-elf-"
REFUSED = 3
LINKERS = [[f"{BINUTILS}ld", "-melf32lriscv", "--no-warn-rwx-segments"], ["ld.lld"]]
FLAGS = ["--target=riscv32", "-march=rv32im", "-mabi=ilp32", "-nostdlib", "-ffreestanding", "-fno-builtin", "-mno-relax", "-Wno-everything"]
SCRIPT = """
ENTRY(start)
PHDRS { text PT_LOAD FLAGS(7); data PT_LOAD FLAGS(6); }
SECTIONS {
  . = 0x1000;
  .text : { *(.text .text.*) } :text
  . = 0x100000;
  .data : { *(.rodata .rodata.*) *(.data .data.*) *(.sdata .sdata.*) } :data
  .bss : { *(.sbss .sbss.*) *(.bss .bss.*) *(COMMON) } :data
  /DISCARD/ : { *(.comment) *(.riscv.attributes) }
}
"""
# what calls of the environment need, and a start that sets the stack, which `main` ends
START = """
static int ask(int request, int value) {
    register int a0 __asm__("a0") = value;
    register int a7 __asm__("a7") = request;
    __asm__ volatile("ecall" : "+r"(a0) : "r"(a7) : "memory");
    return a0;
}
static int getchar(void) { return ask(1, 0); }
static int putchar(int c) { return ask(2, c); }
int main(void);
__attribute__((naked)) void start(void) { __asm__("li sp, 0x400000\\n call main\\n li a7, 0\\n ecall\\n"); }
"""
# each with its input and its output; the status is 7
PROGRAMS = {
    "data and bss": (
        """static int kept[100]; const char words[] = "hello, world\\n"; int shift = 1; static short odd[3] = {1, 2, 3};
        int main(void) { for (int i = 0; words[i]; i++) kept[i + odd[1]] = words[i]; for (int i = 0; i < 13; i++) putchar(kept[i + 2]);
        putchar(48 + shift + odd[2]); return 7; }""",
        b"",
        b"hello, world\n4",
    ),
    "no data": ("int main(void) { for (int i = 0; i < 5; i++) putchar(65 + i * i % 26); return 7; }", b"", b"ABEJQ"),
    "bss alone": (
        """static int last[8]; int main(void) { int c, n = 0; while ((c = getchar()) != -1) last[n++ & 7] = c;
        for (int i = 0; i < 8; i++) putchar(last[(n + i) & 7]); return 7; }""",
        b"0123456789",
        b"23456789",
    ),
    "products": (
        """volatile unsigned a = 123456789, b = 1000;
        int main(void) { unsigned n = a / b * 3 % 1000; for (int i = 0; i < 4; i++) { putchar(48 + n % 10); n /= 10; } return 7; }""",
        b"",
        b"8630",
    ),
}


def run(*words, **options):
    return subprocess.run(words, stdout=subprocess.PIPE, stderr=subprocess.PIPE, **options)


def must(*words, **options):
    """What a tool writes that has to succeed."""
    done = run(*words, **options)
    if done.returncode != 0:
        sys.exit(f"{' '.join(words)}: {done.stderr.decode(errors='replace')}")
    return done.stdout


def number(content, at):
    return int.from_bytes(content[at : at + 4], "little")


# ---- files that are written


def normal(line):
    """An instruction as words: numbers are decimal, and nothing is told of blanks."""
    line = re.sub(r"0x[0-9a-f]+", lambda it: str(int(it[0], 16)), line.split("#")[0].split("<")[0])
    return re.sub(r"\s*,\s*", ", ", " ".join(line.split()))


def as_objdump(line, address):
    """A line of `disasm` as objdump has it: branches and jumps lead to addresses."""
    near = re.fullmatch(r"((?:beq|bne|blt|bge|bltu|bgeu) \w+, \w+|jal \w+), (-?\d+)", line)
    return f"{near[1]}, {(address + int(near[2])) % 2**32}" if near else line


def read_by_objdump(path, offset, size):
    """What objdump reads of the text, a line for each word, and none where it reads no instruction."""
    with open(path, "rb") as it:
        content = it.read()[offset : offset + size]
    with open(path + ".text", "wb") as it:
        it.write(content)
    told = must(f"{BINUTILS}objdump", "-D", "-z", "-b", "binary", "-m", "riscv:rv32", "-M", "no-aliases", "--adjust-vma=0x1000", path + ".text").decode()
    lines = {}
    for line in told.splitlines():
        cells = re.match(r"\s*([0-9a-f]+):\s+([0-9a-f]{4,8})\s+(.*)", line)
        if cells:
            lines[int(cells[1], 16)] = normal(cells[3])
    return lines


def differences(program, image, path):
    """What readelf and objdump say otherwise of the file of an image."""
    with open(image, "rb") as it:
        content = it.read()
    text, data = 4 * number(content, 12), 4 * number(content, 16)
    told = must(f"{BINUTILS}readelf", "-hlnW", path).decode()
    wanted = ["Class: ELF32", "Type: EXEC", "Machine: RISC-V", f"Entry point address: {number(content, 8):#x}", "MVI"]
    plain = " ".join(told.split())
    yield from (f"readelf doesn't say: {it}" for it in wanted if it not in plain)
    segments = [[int(cell, 16) for cell in line.split()[1:6]] for line in told.splitlines() if line.split()[:1] == ["LOAD"]]
    sizes = [(0x1000, text)] + [(0x100000, data)] * (data > 0)
    if [(it[1], it[3]) for it in segments] != sizes or any(it[3] != it[4] for it in segments):
        yield f"readelf tells of segments {segments}"
        return
    read = read_by_objdump(path, segments[0][0], text)
    lines = [line for line in must(program, "disasm", image).decode().split("\n.data\n")[0].splitlines() if not line.startswith(".entry")]
    if 4 * len(lines) != text:
        yield f"disasm prints {len(lines)} words of {text // 4}"
    for address, line in zip(range(0x1000, 0x1000 + text, 4), lines):
        mine, other = as_objdump(normal(line), address), read.get(address, "")
        if mine != other and not mine.startswith(".word"):
            yield f"{address:#x}: `{mine}`, and objdump has `{other}`"


def compare(program, room, source):
    image, path = os.path.join(room, "image"), os.path.join(room, "file.elf")
    must(program, "build", source, image)
    must(program, "elf", image, path)
    return list(differences(program, image, path))


# ---- files that come in


def linked(room, linker, source, level):
    """The file that a linker makes of a program."""
    files = {name: os.path.join(room, name) for name in ("a.c", "a.o", "a.ld", "a.elf")}
    for name, content in (("a.c", START + source), ("a.ld", SCRIPT)):
        with open(files[name], "w", encoding="utf-8") as it:
            it.write(content)
    must("clang", *FLAGS, level, "-c", files["a.c"], "-o", files["a.o"])
    must(*linker, "-T", files["a.ld"], files["a.o"], "-o", files["a.elf"])
    return files["a.elf"]


def come_in(program, room, linker, name, level):
    """What is said of a program that is linked and run otherwise than it is to be."""
    source, given, wanted = PROGRAMS[name]
    image = os.path.join(room, "came")
    must(program, "unelf", linked(room, linker, source, level), image)
    done = run(program, "exec", image, input=given)
    if (done.stdout, done.stderr) != (wanted, b"ended 7\n"):
        yield f"`{name}` by {linker[0]} {level}: it writes {done.stdout!r}, and its notes are {done.stderr!r}"


def main(program, *examples):
    folder = os.path.join(TOP, "examples")
    wrong = []
    with tempfile.TemporaryDirectory() as room:
        found = [os.path.join(folder, it) for it in sorted(os.listdir(folder)) if it.endswith(".c")]
        sources = examples or [it for it in found if run(program, "build", it, os.path.join(room, "image")).returncode != REFUSED]
        for source in sources:
            wrong += [f"{os.path.basename(source)}: {line}" for line in compare(program, room, source)]
        for linker in LINKERS:
            for name in PROGRAMS:
                for level in ("-O0", "-O2"):
                    wrong += come_in(program, room, linker, name, level)
    print(*wrong, sep="\n", end="\n" * bool(wrong))
    print(len(sources), "written,", len(LINKERS) * len(PROGRAMS) * 2, "linked,", len(wrong), "differences")
    return 1 if wrong else 0


if __name__ == "__main__":
    if len(sys.argv) < 2:
        sys.exit(__doc__)
    sys.exit(main(*sys.argv[1:]))
