#!/usr/bin/env python3
"""Images with something wrong in them, and what each is refused for by the rules of docs/image.md: the rows of crates/mv_test_image.

  image_rows.py                  writes the rows anew, and the images but for the one that `build` made
  image_rows.py PROGRAM COUNT    runs PROGRAM, built of that crate, on COUNT images that are changed at random in up to three places, and prints
                                 those of which it says something else than the rules

What is expected is worked out here, by a reader that is written from the rules alone and knows nothing of the crate `mv_image`.
"""
import os
import random
import re
import subprocess
import sys
from typing import NamedTuple

CRATE = os.path.join(os.path.dirname(os.path.dirname(os.path.realpath(__file__))), "crates", "mv_test_image")
TEXT, DATA = 0x1000, 0x100000
MAGIC = int.from_bytes(b"MVI1", "little")
# lowest and highest value of each kind: _Bool, signed char, unsigned char, short, unsigned short, int, unsigned int
KINDS = [(0, 1), (-128, 127), (0, 255), (-(2**15), 2**15 - 1), (0, 2**16 - 1), (-(2**31), 2**31 - 1), (0, 2**32 - 1)]
SIGNED = {1, 3, 5}
# C11 6.4.1, and the one that is ours
KEYWORDS = set(
    """auto break case char const continue default do double else enum extern float for goto if inline int long register restrict return short
    signed sizeof static struct switch typedef union unsigned void volatile while _Alignas _Alignof _Atomic _Bool _Complex _Generic _Imaginary
    _Noreturn _Static_assert _Thread_local __attribute__""".split()
)
IDENTIFIER = re.compile(rb"[A-Za-z_][A-Za-z0-9_]*")
NOP = 0x13


# ---- the rules


class Refused(Exception):
    """A code and an offset."""


class Reader:
    """Takes words and bytes in order, and refuses the first one that is missing or wrong."""

    def __init__(self, content):
        self.content, self.at = content, 0

    def word(self):
        if self.at + 4 > len(self.content):
            raise Refused(10, self.at)
        self.at += 4
        return int.from_bytes(self.content[self.at - 4 : self.at], "little")

    def must(self, holds):
        """Refuses the word that was taken last where its rule is broken."""
        if not holds:
            raise Refused(11, self.at - 4)

    def byte(self, is_right):
        if self.at >= len(self.content):
            raise Refused(10, self.at)
        if not is_right(self.content[self.at]):
            raise Refused(11, self.at)
        self.at += 1


def value_of(kind, word):
    """The value of a word of a kind; none where it is no value of it, sign-extended where the kind is signed."""
    value = word - 2**32 if kind in SIGNED and word >= 2**31 else word
    return value if KINDS[kind][0] <= value <= KINDS[kind][1] else None


def jal(register, offset):
    """The word of `jal` to a register over a distance (RISC-V unprivileged ISA, 2.5: the J format)."""
    bits = offset % 2**21
    return (bits >> 20 & 1) << 31 | (bits >> 1 & 0x3FF) << 21 | (bits >> 11 & 1) << 20 | (bits >> 12 & 0xFF) << 12 | register << 7 | 0x6F


def jal_ra(offset):
    return jal(1, offset)


def slot(address, pointer, check):
    """The words of a call through the pointer at an address of data: `lui t0`, `lw t0, (t0)`, `jal t1` to the check, `jalr ra, 0(t0)`."""
    low = pointer % 4_096
    high = (pointer - (low - 4_096 if low >= 2_048 else low)) % 2**32
    return [high | 5 << 7 | 0x37, low << 20 | 5 << 15 | 2 << 12 | 5 << 7 | 0x03, jal(6, check - (address + 8)), 5 << 15 | 1 << 7 | 0x67]


class Image:
    """Judges an image place by place."""

    def __init__(self, content):
        self.reader = Reader(content)
        self.header()
        self.text = [self.reader.word() for _ in range(self.words)]
        self.data = [self.reader.word() for _ in range(self.data_words)]
        self.switches, self.functions, self.variants, self.sites, self.pointers, self.targets = [], [], [], [], [], []
        for _ in range(self.switch_count):
            self.switch()
        for _ in range(self.function_count):
            self.function()
        for _ in range(self.variant_count):
            self.variant()
        for _, function in ((i, f) for v, f in self.variants for i in range(v)):
            self.guard(function)
        last = None
        for _ in range(self.site_count):
            last = self.site(last)
            self.sites.append(last)
        for _ in range(self.pointer_count):
            self.pointer()
        last = None
        for _ in range(self.point_count):
            last = self.point(last)
        for _ in range(self.target_count):
            self.target()
        self.names()
        if self.reader.at < len(content):
            raise Refused(12, self.reader.at)

    def header(self):
        word, must = self.reader.word, self.reader.must
        must(word() == MAGIC)
        version = word()
        must(version in (1, 2))
        entry = word()
        must(entry % 4 == 0)
        self.words = word()
        must(1 <= self.words <= 131_072 and self.is_in_text(entry))
        self.data_words = word()
        must(self.data_words <= 262_144)
        self.switch_count = word()
        must(self.switch_count <= 64)
        self.function_count = word()
        must(self.function_count <= 1_000)
        self.variant_count = word()
        must(self.variant_count <= 64_000 and (self.function_count > 0 or self.variant_count == 0))
        self.guard_count = word()
        must(self.guard_count <= 64_000 and (self.variant_count > 0 or self.guard_count == 0))
        self.site_count = word()
        must(self.site_count <= 16_384)
        self.name_bytes = word()
        must(version == 2 or self.switch_count + self.function_count > 0 or self.name_bytes == 0)
        must(word() == 0)
        self.pointer_count = self.point_count = self.target_count = self.check = 0
        if version == 2:
            self.later()

    def later(self):
        """The words of the header that version 2 alone has."""
        word, must = self.reader.word, self.reader.must
        self.pointer_count = word()
        must(self.pointer_count <= 64)
        self.point_count = word()
        must(self.point_count <= 8_192 and self.site_count + 2 * self.point_count <= 16_384)
        self.target_count = word()
        must(self.target_count <= 1_000 and (self.switch_count + self.function_count + self.pointer_count + self.target_count > 0 or self.name_bytes == 0))
        self.check = word()
        must(self.is_place(self.check) and self.is_in_text(self.check + 8) if self.point_count > 0 else self.check == 0)

    def is_in_text(self, address):
        return TEXT <= address < TEXT + 4 * self.words

    def is_place(self, address):
        return address % 4 == 0 and self.is_in_text(address)

    def is_datum(self, address):
        return address % 4 == 0 and DATA <= address < DATA + 4 * self.data_words

    def lengths(self):
        rows = [*self.switches, *self.functions, *self.pointers, *self.targets]
        return [row[0] for row in rows]

    def adds_up(self, length):
        """Whether a name may be so long that is one of a table's: the last of all makes the sum."""
        counts = [self.switch_count, self.function_count, self.pointer_count, self.target_count]
        is_last = len(self.lengths()) + 1 == sum(counts)
        return 1 <= length <= 63 and (not is_last or sum(self.lengths()) + length == self.name_bytes)

    def switch(self):
        word, must = self.reader.word, self.reader.must
        length = word()
        must(self.adds_up(length))
        address = word()
        must(self.is_datum(address))
        kind = word()
        must(kind <= 6)
        count = word()
        must(1 <= count <= 16)
        for index in range(16):
            value = word()
            must(value_of(kind, value) is not None if index < count else value == 0)
        self.switches.append((length, kind))

    def function(self):
        word, must = self.reader.word, self.reader.must
        is_last = len(self.functions) + 1 == self.function_count
        length = word()
        must(self.adds_up(length))
        entry = word()
        must(self.is_place(entry) and (not self.functions or self.functions[-1][1] < entry))
        count = word()
        must(count <= 6)
        numbers = []
        for index in range(6):
            number = word()
            if index < count:
                must(number < self.switch_count and (not numbers or numbers[-1] < number))
                numbers.append(number)
            else:
                must(number == 0)
        variants = word()
        earlier = sum(count for _, _, _, count in self.functions)
        must(1 <= variants <= 64 and (not is_last or earlier + variants == self.variant_count))
        self.functions.append((length, entry, numbers, variants))

    def variant(self):
        word, must = self.reader.word, self.reader.must
        must(self.is_place(word()))
        inline = word()
        must(inline <= 1)
        for _ in range(2):
            body = word()
            must(inline == 1 or body == 0)
        guards = word()
        is_last = len(self.variants) + 1 == self.variant_count
        must(1 <= guards <= 64 and (not is_last or sum(count for count, _ in self.variants) + guards == self.guard_count))
        owners = [number for number, (_, _, _, count) in enumerate(self.functions) for _ in range(count)]
        self.variants.append((guards, owners[len(self.variants)]))

    def guard(self, function):
        word, must = self.reader.word, self.reader.must
        kinds = [self.switches[number][1] for number in self.functions[function][2]]
        lowest = []
        for index in range(6):
            low = word()
            if index < len(kinds):
                lowest.append(value_of(kinds[index], low))
                must(lowest[index] is not None)
            else:
                must(low == 0)
        for index in range(6):
            high = word()
            if index < len(kinds):
                value = value_of(kinds[index], high)
                must(value is not None and lowest[index] <= value)
            else:
                must(high == 0)

    def site(self, last):
        word, must = self.reader.word, self.reader.must
        address = word()
        must(self.is_place(address) and self.is_in_text(address + 4) and (last is None or last + 8 <= address))
        must(all(entry not in (address, address + 4) for _, entry, _, _ in self.functions))
        function = word()
        must(function < self.function_count)
        index = (address - TEXT) // 4
        must(self.text[index : index + 2] == [jal_ra(self.functions[function][1] - address), NOP])
        return address

    def pointer(self):
        word, must = self.reader.word, self.reader.must
        length = word()
        must(self.adds_up(length))
        address = word()
        must(self.is_datum(address))
        self.pointers.append((length, address))

    def point(self, last):
        word, must = self.reader.word, self.reader.must
        address = word()
        must(self.is_place(address) and self.is_in_text(address + 12) and (last is None or last + 16 <= address))
        others = [entry for _, entry, _, _ in self.functions] + self.sites
        must(not any(address <= other < address + 16 for other in others))
        pointer = word()
        must(pointer < self.pointer_count)
        index = (address - TEXT) // 4
        must(self.text[index : index + 4] == slot(address, self.pointers[pointer][1], self.check))
        return address

    def target(self):
        word, must = self.reader.word, self.reader.must
        length = word()
        must(self.adds_up(length))
        entry = word()
        must(self.is_place(entry) and (not self.targets or self.targets[-1][1] < entry))
        self.targets.append((length, entry))

    def names(self):
        for length in self.lengths():
            start = self.reader.at
            for index in range(length):
                seen = self.reader.content[start : start + index]
                is_whole = index + 1 == length

                def is_right(byte):
                    spelled = seen + bytes([byte])
                    return bool(IDENTIFIER.fullmatch(spelled)) and not (is_whole and spelled.decode() in KEYWORDS)

                self.reader.byte(is_right)
        while self.reader.at % 4 != 0:
            self.reader.byte(lambda byte: byte == 0)


def verdict(content):
    """What is said of some bytes: that they are read, or the code and the offset of their refusal."""
    try:
        Image(content)
        return "read"
    except Refused as why:
        return f"{why.args[0]} {why.args[1]}"


# ---- the images


class Part(NamedTuple):
    title: str
    words: list


def row_of(values, *widths):
    """The words of a row: lists are filled up with zeros to their widths."""
    words, widths = [], list(widths)
    for value in values:
        if isinstance(value, list):
            words += [word % 2**32 for word in value] + [0] * (widths.pop(0) - len(value))
        else:
            words.append(value)
    return words


def whole_image():
    """An image with several rows of each kind. `dp` depends on an `int` and a `signed char`, has one variant with an inline body and one without, and is called
    at one place; `g2` depends on nothing; `all_3` on all three switches."""
    entries = [0x1008, 0x1018, 0x101C]
    text = [NOP] * 16
    for address, entry in [(0x1010, 0x1008), (0x1030, 0x1018)]:
        text[(address - TEXT) // 4] = jal_ra(entry - address)
    switches = [
        row_of([1, DATA, 5, 2, [-1, 3]], 16),
        row_of([2, DATA + 8, 0, 2, [0, 1]], 16),
        row_of([4, DATA + 4, 1, 3, [-128, -1, 100]], 16),
    ]
    functions = [
        row_of([2, entries[0], 2, [0, 2], 2], 6),
        row_of([2, entries[1], 0, [], 1], 6),
        row_of([5, entries[2], 3, [0, 1, 2], 1], 6),
    ]
    variants = [
        [0x1020, 1, 0x00100513, NOP, 2],
        [0x1028, 0, 0, 0, 1],
        [0x102C, 0, 0, 0, 1],
        [0x1038, 1, NOP, NOP, 2],
    ]
    guards = [
        row_of([[-1, -128], [-1, -1]], 6, 6),
        row_of([[3, 100], [3, 100]], 6, 6),
        row_of([[-1, 100], [3, 100]], 6, 6),
        row_of([[], []], 6, 6),
        row_of([[-1, 0, -128], [3, 0, 100]], 6, 6),
        row_of([[3, 1, -1], [3, 1, -1]], 6, 6),
    ]
    sites = [[0x1010, 0], [0x1030, 1]]
    names = [b"s", b"on", b"deep", b"dp", b"g2", b"all_3"]
    header = [MAGIC, 1, 0x1000, len(text), 3, len(switches), len(functions), len(variants), len(guards), len(sites), sum(map(len, names)), 0]
    parts = [Part("header", header), Part("text", text), Part("data", [7, 0, 1])]
    for title, rows in [("switch", switches), ("function", functions), ("variant", variants), ("guard", guards), ("site", sites)]:
        parts += [Part(title, row) for row in rows]
    return parts, b"".join(names)


def small_image():
    """The smallest image: one word of text, EBREAK."""
    return [Part("header", [MAGIC, 1, TEXT, 1, 0, 0, 0, 0, 0, 0, 0, 0]), Part("text", [0x00100073])], b""


def lone_image():
    """An image with a switch on which nothing depends."""
    header = [MAGIC, 1, TEXT, 1, 1, 1, 0, 0, 0, 0, 3, 0]
    return [Part("header", header), Part("text", [NOP]), Part("data", [0]), Part("switch", row_of([3, DATA, 6, 1, [9]], 16))], b"one"


def second_image():
    """An image of version 2: a switch and a function with a site, two pointer switches with three calls through them, and two targets."""
    check, entry = 0x1068, 0x1008
    text = [NOP] * 32
    text[(0x1010 - TEXT) // 4] = jal_ra(entry - 0x1010)
    points = [[0x1018, 1], [0x1028, 0], [0x1040, 1]]
    pointers = [[4, DATA + 4], [2, DATA + 0x800]]
    for address, pointer in points:
        at = (address - TEXT) // 4
        text[at : at + 4] = slot(address, pointers[pointer][1], check)
    switches = [row_of([1, DATA, 5, 1, [7]], 16)]
    functions = [row_of([2, entry, 1, [0], 1], 6)]
    variants = [[0x1060, 0, 0, 0, 1]]
    guards = [row_of([[7], [7]], 6, 6)]
    sites = [[0x1010, 0]]
    targets = [[3, entry], [4, 0x1050]]
    names = [b"s", b"dp", b"pick", b"to", b"one", b"main"]
    counts = [len(switches), len(functions), len(variants), len(guards), len(sites), sum(map(len, names)), 0]
    header = [MAGIC, 2, 0x1000, len(text), 0x201, *counts, len(pointers), len(points), len(targets), check]
    parts = [Part("header", header), Part("text", text), Part("data", [0] * 0x201)]
    tables = [("switch", switches), ("function", functions), ("variant", variants), ("guard", guards), ("site", sites)]
    for title, rows in tables + [("pointer", pointers), ("point", points), ("target", targets)]:
        parts += [Part(title, row) for row in rows]
    return parts, b"".join(names)


def bare_image():
    """The smallest image of version 2."""
    return [Part("header", [MAGIC, 2, TEXT, 1, 0, 0, 0, 0, 0, 0, 0, 0, 0, 0, 0, 0]), Part("text", [0x00100073])], b""


def kept_image(name):
    """An image that the crate has as a file, which stays as it is."""
    parts = []
    with open(os.path.join(CRATE, "data", f"{name}.txt"), encoding="utf-8") as it:
        for line in it.read().splitlines():
            if line.startswith("# "):
                parts.append(Part(line[2:], []))
            else:
                parts[-1].words.extend(int(word, 16) for word in line.split())
    parts = [part for part in parts if part.words]
    names = b"".join(word.to_bytes(4, "little") for word in parts.pop().words)
    return parts, names[: parts[0].words[10]]


IMAGES = {"whole": whole_image(), "small": small_image(), "lone": lone_image(), "lock": kept_image("lock"), "second": second_image(), "bare": bare_image()}
WRITTEN = ["whole", "small", "lone", "second", "bare"]


def bytes_of(name):
    parts, names = IMAGES[name]
    words = b"".join(word.to_bytes(4, "little") for part in parts for word in part.words)
    return words + names + bytes(-len(names) % 4)


def file_of(name):
    """The image as a file of words in hexadecimal."""
    parts, names = IMAGES[name]
    lines = []
    for part in parts + ([Part("names", [])] if names else []):
        filled = names + bytes(-len(names) % 4)
        words = part.words or [int.from_bytes(filled[at : at + 4], "little") for at in range(0, len(filled), 4)]
        lines.append(f"# {part.title}")
        lines += [" ".join(f"{word:08x}" for word in words[at : at + 8]) for at in range(0, len(words), 8)]
    return "\n".join(lines) + "\n"


# ---- the rows


def edited(content, edits):
    """The bytes of an image behind some edits."""
    content = bytearray(content)
    for edit in edits:
        if "=" in edit:
            at, word = edit.split("=")
            content[int(at) : int(at) + 4] = int(word, 16).to_bytes(4, "little")
        elif ":" in edit:
            at, byte = edit.split(":")
            content[int(at)] = int(byte, 16)
        elif edit[0] == "<":
            del content[int(edit[1:]) :]
        else:
            content.append(int(edit[1:], 16))
    return bytes(content)


class Row(NamedTuple):
    name: str
    edits: list

    def line(self):
        return " ".join([self.name, *self.edits])

    def expected(self):
        return f"{self.line()}: {verdict(edited(bytes_of(self.name), self.edits))}"


def near(word):
    """Words that may be wrong in the place of a word."""
    values = [0, 1, 2, 3, 4, 7, word - 4, word - 2, word - 1, word + 1, word + 2, word + 4, word + 8, 17, 64, 65, 128, 256, 1_001, 8_193, 16_385, 64_001, 131_073, 262_145]
    return [value % 2**32 for value in values + [2**31 - 1, 2**31, 2**32 - 128, 2**32 - 129, 2**32 - 1] if value % 2**32 != word]


def word_rows(name):
    """For each word outside text and data, one wrong value for each place at which such values are refused, and one that is read where there is one."""
    at, rows = 0, []
    for part in IMAGES[name][0]:
        for word in part.words:
            seen = {}
            for value in near(word) if part.title not in ("text", "data") else []:
                row = Row(name, [f"{at}={value:08x}"])
                seen.setdefault(verdict(edited(bytes_of(name), row.edits)), row)
            rows += seen.values()
            at += 4
    return rows


def byte_rows(name):
    """Wrong bytes of the names and of what fills them up."""
    content, filled = bytes_of(name), IMAGES[name][1]
    start = len(content) - len(filled) - (-len(filled) % 4)
    return [Row(name, [f"{at}:{byte:02x}"]) for at in range(start, len(content)) for byte in (0x00, 0x2D, 0x31, 0x61, 0x80) if content[at] != byte]


# The switch `on` and the function `dp` as `if` and `do`, and almost so; two fields that are wrong, of which the first decides; a place in text that a site needs.
HAND = [
    Row("whole", ["860:69", "861:66"]),
    Row("whole", ["860:69", "861:67"]),
    Row("whole", ["866:64", "867:6f"]),
    Row("whole", ["104=00000013"]),
    Row("whole", ["64=00000013"]),
    Row("whole", ["68=00000093"]),
    Row("whole", ["4=00000003", "<7"]),
    Row("whole", ["4=00000003", "<8"]),
    Row("whole", ["12=00000011", "16=00040001"]),
    Row("small", ["8=00001004"]),
    Row("small", ["12=00000002", "+13", "+00", "+00", "+00"]),
]


def cuts(name):
    """Behind which bytes an image is cut off: behind each, but for those of data behind its first words, of which one is as another."""
    header = IMAGES[name][0][0].words
    data = 4 * (len(header) + header[3])
    return [count for count in range(len(bytes_of(name))) if not data + 64 < count < data + 4 * header[4]]


def all_rows():
    rows = []
    for name in IMAGES:
        rows += [Row(name, []), *word_rows(name), *byte_rows(name), Row(name, ["+00"])]
    rows += HAND
    for name in IMAGES:
        rows += [Row(name, [f"<{count}"]) for count in cuts(name)]
    return rows


def write_rows():
    for name in WRITTEN:
        with open(os.path.join(CRATE, "data", f"{name}.txt"), "w", encoding="utf-8") as it:
            it.write(file_of(name))
    rows = all_rows()
    for file, lines in (("stdin", [row.line() for row in rows]), ("stdout", [row.expected() for row in rows])):
        with open(os.path.join(CRATE, file), "w", encoding="utf-8") as it:
            it.write("".join(f"{line}\n" for line in lines))
    print(f"{len(rows)} rows")


# ---- at random


def random_edit(content):
    at = random.randrange(len(content))
    word = at // 4 * 4
    choice = random.random()
    if choice < 0.1:
        return f"{at}:{random.randrange(256):02x}"
    if choice < 0.15:
        return f"{at}:{content[at] ^ 1 << random.randrange(8):02x}"
    if choice < 0.55:
        return f"{word}={random.choice(near(int.from_bytes(content[word : word + 4], 'little'))):08x}"
    other = random.randrange(len(content) // 4) * 4
    return f"{word}={int.from_bytes(content[other : other + 4], 'little'):08x}"


def random_row():
    name = random.choice(["whole", "whole", "whole", "lock", "lone", "small", "second", "second", "second", "bare"])
    content = bytes_of(name)
    edits = [random_edit(content) for _ in range(random.randint(1, 3))]
    ends = [[], [], [], [], [f"<{random.randrange(len(content))}"], [f"+{random.randrange(256):02x}"]]
    return Row(name, edits + random.choice(ends))


def compare(program, count):
    rows = [random_row() for _ in range(count)]
    told = subprocess.run(
        [os.path.realpath(program)], input="".join(f"{row.line()}\n" for row in rows), capture_output=True, text=True, check=True, cwd=os.path.join(CRATE, "data")
    ).stdout.splitlines()
    wrong = [(line, row.expected()) for line, row in zip(told, rows) if line != row.expected()]
    for line, expected in wrong:
        print(f"{line}, by the rules {expected}")
    refusals = {}
    for row in rows:
        code = row.expected().rpartition(": ")[2].split()[0]
        refusals[code] = refusals.get(code, 0) + 1
    print(f"{len(told)} of {count} rows, {len(wrong)} otherwise; {', '.join(f'{n} {code}' for code, n in sorted(refusals.items()))}")
    return 1 if wrong or len(told) != count else 0


if __name__ == "__main__":
    sys.exit(compare(sys.argv[1], int(sys.argv[2])) if len(sys.argv) == 3 else write_rows())
