#!/usr/bin/env python3
"""Which kinds of instructions a compiled program executes: mix.py [SOURCE [INPUT]]..

It builds each source, runs the image by an interpreter of RV32IM of its own, without commits and polls, and prints how many instructions of each kind were
executed. Needs the program that .ci/run leaves, or PROGRAM.
"""
import collections
import os
import struct
import subprocess
import sys
import tempfile

HERE = os.path.dirname(os.path.realpath(__file__))
PROGRAM = os.environ.get("PROGRAM", os.path.join(HERE, "..", "..", "crates", "mv_cli", "out", "mv_cli"))
PROGRAMS = os.path.join(HERE, "..", "..", "examples", "programs")
TEXT_START, DATA_START = 0x1000, 0x100000
# The bytes of the header, in version 2.
HEADER = 64
WORD = 0xFFFFFFFF
EXIT, GETCHAR, PUTCHAR = 0, 1, 2


def signed(value, bits=32):
    value &= (1 << bits) - 1
    return value - (1 << bits) if value >> (bits - 1) else value


def quotient(a, b):
    """Returns the quotient toward zero."""
    return abs(a) // abs(b) * (1 if (a < 0) == (b < 0) else -1)


def multiplied(funct3, a, b):
    """Returns what an instruction of M gives."""
    x, y = signed(a), signed(b)
    if funct3 < 4:
        return (x * y, x * y >> 32, x * b >> 32, a * b >> 32)[funct3]
    if b == 0:
        return WORD if funct3 < 6 else a
    return (quotient(x, y), a // b, x - y * quotient(x, y), a % b)[funct3 - 4]


def computed(funct3, other, a, b):
    """Returns what an instruction of arithmetic gives; `other` says subtraction, or a shift that keeps the sign."""
    shift = b & 31
    right = signed(a) >> shift if other else a >> shift
    return (a - b if other and funct3 == 0 else a + b, a << shift, int(signed(a) < signed(b)), int(a < b), a ^ b, right, a | b, a & b)[funct3]


def is_taken(funct3, a, b):
    x, y = signed(a), signed(b)
    return {0: a == b, 1: a != b, 4: x < y, 5: x >= y, 6: a < b, 7: a >= b}[funct3]


class Guest:
    """A program that runs, and the kinds of what it has executed."""

    def __init__(self, image, given):
        self.pc, text, data = struct.unpack("<3I", image[8:20])
        words = struct.unpack(f"<{text + data}I", image[HEADER : HEADER + 4 * (text + data)])
        self.text = words[:text]
        self.memory = {DATA_START + 4 * at: word for at, word in enumerate(words[text:])}
        self.registers = [0] * 32
        self.given = iter(given)
        self.kinds = collections.Counter()

    def loaded(self, funct3, address):
        word = self.memory.get(address & ~3, 0) >> 8 * (address & 3)
        bits = (8, 16, 32)[funct3 & 3]
        return word & ((1 << bits) - 1) if funct3 & 4 else signed(word, bits)

    def store(self, funct3, address, value):
        at, shift = address & ~3, 8 * (address & 3)
        mask = ((1 << (8, 16, 32)[funct3]) - 1) << shift
        self.memory[at] = self.memory.get(at, 0) & ~mask & WORD | value << shift & mask

    def call(self):
        """Serves an ECALL, and returns whether the guest goes on."""
        number = self.registers[17]
        if number == GETCHAR:
            self.registers[10] = next(self.given, WORD)
        elif number not in (EXIT, PUTCHAR):
            sys.exit(f"call {number} isn't served here")
        return number != EXIT

    def step(self):
        """Executes an instruction, and returns whether the guest goes on."""
        word = self.text[(self.pc - TEXT_START) // 4]
        opcode, target, funct3, first, second = word & 127, word >> 7 & 31, word >> 12 & 7, word >> 15 & 31, word >> 20 & 31
        a, b, immediate = self.registers[first], self.registers[second], signed(word >> 20, 12)
        following, value = self.pc + 4, None
        if opcode == 0x33:
            kind = "arithmetic"
            value = multiplied(funct3, a, b) if word >> 25 == 1 else computed(funct3, word >> 25, a, b)
        elif opcode == 0x13:
            kind = "li" if funct3 == first == 0 else "mv" if funct3 == immediate == 0 else "arithmetic with a constant"
            value = computed(funct3, funct3 == 5 and word >> 25, a, immediate & WORD)
        elif opcode == 0x37:
            kind, value = "lui", word & 0xFFFFF000
        elif opcode == 0x17:
            kind, value = "auipc", self.pc + (word & 0xFFFFF000)
        elif opcode == 0x03:
            kind, value = "load of the frame" if first == 2 else "load of data", self.loaded(funct3, a + immediate & WORD)
        elif opcode == 0x23:
            kind = "store to the frame" if first == 2 else "store to data"
            self.store(funct3, a + signed(word >> 25 << 5 | target, 12) & WORD, b)
        elif opcode == 0x63:
            kind = "branch"
            if is_taken(funct3, a, b):
                following = self.pc + signed(word >> 31 << 12 | (word >> 7 & 1) << 11 | (word >> 25 & 63) << 5 | (word >> 8 & 15) << 1, 13)
        elif opcode == 0x6F:
            kind, value = "jump" if target == 0 else "call", following
            following = self.pc + signed(word >> 31 << 20 | (word >> 12 & 255) << 12 | (word >> 20 & 1) << 11 | (word >> 21 & 1023) << 1, 21)
        elif opcode == 0x67:
            kind = "call" if target else "return" if first == 1 else "jump by a register"
            value, following = following, a + immediate & ~1
        elif opcode == 0x73:
            kind = "environment call"
        else:
            kind = "fence"
        self.kinds[kind] += 1
        if value is not None and opcode not in (0x23, 0x63) and target != 0:
            self.registers[target] = value & WORD
        self.pc = following & WORD
        return opcode != 0x73 or self.call()


def main(words):
    if not os.access(PROGRAM, os.X_OK):
        sys.exit(f"no {PROGRAM}: .ci/run makes it")
    pairs = list(zip(words[::2], words[1::2] + [os.devnull])) or [
        (os.path.join(PROGRAMS, "queens.c"), os.devnull),
        (os.path.join(PROGRAMS, "sha256.c"), os.path.join(PROGRAMS, "sha256.in")),
    ]
    with tempfile.TemporaryDirectory() as room:
        for source, given in pairs:
            image = os.path.join(room, "guest.img")
            subprocess.run([PROGRAM, "build", source, image], check=True, stderr=subprocess.DEVNULL)
            with open(image, "rb") as it, open(given, "rb") as read:
                guest = Guest(it.read(), read.read())
            while guest.step():
                pass
            total = sum(guest.kinds.values())
            print(f"{os.path.basename(source)}: {total} instructions")
            for kind, count in guest.kinds.most_common():
                print(f"    {kind:28} {count:9} {100 * count / total:5.1f}%")


if __name__ == "__main__":
    main(sys.argv[1:])
