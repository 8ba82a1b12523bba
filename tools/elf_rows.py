#!/usr/bin/env python3
"""ELF files with something wrong in them, and which image each holds or what it is refused for by the rules of docs/elf.md: the rows of crates/mv_test_elf.

  elf_rows.py                    writes the rows anew, and the files
  elf_rows.py PROGRAM COUNT      runs PROGRAM, built of that crate, on COUNT files that are changed at random in up to three places, and prints those of which
                                 it says something else than the rules

What is expected is worked out here, by a reader and a writer that are written from the rules alone and know nothing of the crate `mv_elf`. Whether bytes are an
image says the reader of `image_rows.py`.
"""
import os
import random
import subprocess
import sys
from typing import NamedTuple

import image_rows

CRATE = os.path.join(os.path.dirname(os.path.dirname(os.path.realpath(__file__))), "crates", "mv_test_elf")
TEXT, DATA = (0x1000, 0x81000), (0x100000, 0x200000)
NAME = b"MVI\0"


class Refused(Exception):
    """A code and an offset."""


# ---- the rules


def number(content, at, size):
    return int.from_bytes(content[at : at + size], "little")


# what each field of the header has to be: its offset, its size, the test, and the code where it fails
HEADER = [
    (0, 4, lambda value: value == 0x464C457F, 20),
    (4, 1, lambda value: value == 1, 22),
    (5, 1, lambda value: value == 1, 22),
    (6, 1, lambda value: value == 1, 20),
    (16, 2, lambda value: value == 2, 22),
    (18, 2, lambda value: value == 243, 22),
    (20, 4, lambda value: value == 1, 20),
    (36, 4, lambda value: value == 0, 22),
    (40, 2, lambda value: value == 52, 20),
    (42, 2, lambda value: value == 32, 20),
    (44, 2, lambda value: 1 <= value <= 64, 20),
]


class Segment(NamedTuple):
    kind: int
    offset: int
    address: int
    physical: int
    file_size: int
    memory_size: int
    flags: int
    alignment: int

    def is_in(self, region):
        return region[0] <= self.address and self.address + self.memory_size <= region[1]


def segments_of(content):
    """The segments of a file, judged one after the other."""
    segments, reached = [], 0
    for index in range(number(content, 44, 2)):
        at = number(content, 28, 4) + 32 * index
        if at + 32 > len(content):
            raise Refused(10, len(content))
        segment = Segment(*(number(content, at + 4 * word, 4) for word in range(8)))
        if segment.kind in (1, 4) and segment.offset + segment.file_size > len(content):
            raise Refused(10, len(content))
        if segment.kind == 1 and segment.memory_size > 0:
            if segment.file_size > segment.memory_size or not (segment.is_in(TEXT) or segment.is_in(DATA)) or segment.address < reached:
                raise Refused(21, at)
            reached = segment.address + segment.memory_size
        segments.append(segment)
    return segments


def loaded(content, segments, region):
    """The bytes of a region, up to the word in which its last segment ends."""
    parts = [it for it in segments if it.kind == 1 and it.memory_size > 0 and it.is_in(region)]
    end = max((it.address + it.memory_size for it in parts), default=region[0])
    memory = bytearray((end - region[0] + 3) // 4 * 4)
    for it in parts:
        start = it.address - region[0]
        memory[start : start + it.file_size] = content[it.offset : it.offset + it.file_size]
    return bytes(memory)


def note_of(content, segments):
    """The first note of an image, if there is one."""
    for it in segments:
        if it.kind == 4 and it.file_size >= 16:
            head = content[it.offset : it.offset + 16]
            if number(head, 0, 4) == 4 and number(head, 8, 4) == 1 and head[12:] == NAME:
                return it
    return None


def words(*values):
    return b"".join(value.to_bytes(4, "little") for value in values)


def noted(content, note, text, data):
    """The image that a note gives, or none."""
    size = number(content, note.offset + 4, 4)
    if 16 + size > note.file_size or size < 64:
        return None
    inside = content[note.offset + 16 : note.offset + 16 + size]
    spelled = inside[:64] + text + data + inside[64:]
    if image_rows.verdict(spelled) != "read" or number(spelled, 4, 4) != 2:
        return None
    own = (number(content, 24, 4), len(text) // 4, len(data) // 4)
    return spelled if own == tuple(number(spelled, at, 4) for at in (8, 12, 16)) else None


def image_of(content):
    """The bytes of the image that a file holds."""
    if len(content) < 52:
        raise Refused(10, len(content))
    for at, size, fits, code in HEADER:
        if not fits(number(content, at, size)):
            raise Refused(code, at)
    segments = segments_of(content)
    text, data = loaded(content, segments, TEXT), loaded(content, segments, DATA)
    if not text:
        raise Refused(21, number(content, 28, 4))
    entry = number(content, 24, 4)
    if entry % 4 != 0 or not TEXT[0] <= entry < TEXT[0] + len(text):
        raise Refused(20, 24)
    note = note_of(content, segments)
    if note is None:
        return words(image_rows.MAGIC, 2, entry, len(text) // 4, len(data) // 4, *[0] * 11) + text + data
    spelled = noted(content, note, text, data)
    if spelled is None:
        raise Refused(23, note.offset)
    return spelled


def file_of(image):
    """The file that is written for an image of version 2."""
    entry, text_size, data_size = number(image, 8, 4), 4 * number(image, 12, 4), 4 * number(image, 16, 4)
    text, data, rest = image[64 : 64 + text_size], image[64 + text_size : 64 + text_size + data_size], image[64 + text_size + data_size :]
    note = words(4, 64 + len(rest), 1) + NAME + image[:64] + rest
    parts = [(1, TEXT[0], text, 7), *([(1, DATA[0], data, 6)] if data else []), (4, 0, note, 4)]
    at = 52 + 32 * len(parts)
    header = b"\x7fELF\1\1\1" + bytes(9) + words(2 | 243 << 16, 1, entry, 52, 0, 0, 52 | 32 << 16, len(parts), 0)
    programs = b""
    for kind, address, content, flags in parts:
        programs += words(kind, at, address, address, len(content), len(content), flags, 4)
        at += len(content)
    return header + programs + b"".join(content for _, _, content, _ in parts)


def sum_of(content):
    total = 0x811C9DC5
    for byte in content:
        total = (total ^ byte) * 0x01000193 % 2**32
    return total


def verdict(content):
    """What is said of a file: how many bytes its image has and their sum, or the code and the offset of its refusal."""
    try:
        image = image_of(content)
        return f"{len(image)} bytes {sum_of(image):08x}"
    except Refused as why:
        return f"{why.args[0]} {why.args[1]}"


# ---- the files


def content_of(parts, names):
    return b"".join(words(*part.words) for part in parts) + names + bytes(-len(names) % 4)


def upgraded(image):
    return image if number(image, 4, 4) == 2 else words(image_rows.MAGIC, 2) + image[8:48] + bytes(16) + image[48:]


def linked_file():
    """A file as a linker may write it, without a note of ours: program headers at the end, with more than one segment in each region, gaps, memory that has no
    bytes, types that are passed over, and bytes in places that aren't looked at."""
    parts = [
        (0x70000003, 0xFFFFFF00, 0, 0x30, 0, 0),
        (6, 0, 0x500000, 10, 5, 0),
        (1, 64, 0x1004, 9, 12, 5),
        (1, 76, 0x1014, 4, 6, 5),
        (1, 80, 0, 0, 0, 6),
        (4, 80, 0x100, 20, 20, 4),
        (1, 100, 0x100001, 3, 3, 6),
        (1, 0, 0x100010, 0, 9, 6),
        (0x6474E551, 0, 0, 0, 0, 6),
    ]
    inside = bytes(range(0x21, 0x21 + 16)) + b"GNU\0" + words(4, 4, 3) + b"GNU\0" + bytes(4) + b"\xaa\xbb\xcc\xdd"
    inside = (inside + bytes(range(0x80, 0xC0)))[:40] + bytes(range(1, 9))
    header = b"\x7fELF\1\1\1\xff" + b"\xee" * 8 + words(2 | 243 << 16, 1, 0x1014, 112, 0xCCCCCCCC, 0, 52 | 32 << 16, len(parts) | 40 << 16, 0xDDDDDDDD)
    body = header + bytes(12) + inside
    body += bytes(112 - len(body))
    for kind, offset, address, file_size, memory_size, flags in parts:
        body += words(kind, offset, address, 0x77777777, file_size, memory_size, flags, 0x1000)
    return body


def noted_file(image):
    """A file with three notes: of another name, of the image, with bytes behind its content, and one of ours that isn't looked at."""
    written = file_of(image)
    count = number(written, 44, 2)
    other, last = words(4, 4, 3) + b"GNU\0" + words(0x11223344), words(4, 0, 1) + NAME
    end = len(written) + 64
    programs = b""
    for index in range(count):
        it = Segment(*(number(written, 52 + 32 * index + 4 * word, 4) for word in range(8)))
        if it.kind == 4:
            programs += words(4, end + 8, 0, 0, len(other), len(other), 4, 4)
            it = it._replace(file_size=it.file_size + 8)
        programs += words(it.kind, it.offset + 64, *it[2:])
    programs += words(4, end + 8 + len(other), 0, 0, len(last), len(last), 4, 4)
    return written[:44] + words(count + 2) + written[48:52] + programs + written[52 + 32 * count :] + bytes(8) + other + last


def files():
    second = content_of(*image_rows.second_image())
    return {
        "bare": file_of(content_of(*image_rows.bare_image())),
        "tables": file_of(second),
        "linked": linked_file(),
        "notes": noted_file(upgraded(content_of(*image_rows.lone_image()))),
    }


# images that are written, by the names of their files
IMAGES = {"small": image_rows.small_image, "lone": image_rows.lone_image, "whole": image_rows.whole_image}


# ---- the rows


def changed(content, edits):
    """The bytes after some edits."""
    content = bytearray(content)
    for edit in edits:
        if edit[0] == "<":
            del content[int(edit[1:]) :]
        elif edit[0] == "+":
            content.append(int(edit[1:], 16))
        elif "=" in edit:
            at, word = edit.split("=")
            if int(at) + 4 <= len(content):
                content[int(at) : int(at) + 4] = int(word, 16).to_bytes(4, "little")
        else:
            at, byte = edit.split(":")
            if int(at) < len(content):
                content[int(at)] = int(byte, 16)
    return bytes(content)


def word_edits(content, at):
    """Each word that may be just right or just wrong at an offset."""
    here = number(content, at, 4)
    near = {here + 1, here - 1, here + 4, here - 4, here ^ 0x80000000, len(content), len(content) + 1}
    values = near | {0, 1, 2, 3, 4, 16, 0x1000, 0x1001, 0x80FFC, 0x81000, 0x100000, 0x1FFFFF, 0x200000, 2**32 - 1}
    return [f"{at}={value:08x}" for value in sorted({value % 2**32 for value in values} - {here})]


def edits_of(name, content):
    """The edits of the rows of a file, each row a list."""
    yield []
    for at in range(52):
        for byte in sorted({0, 1, 2, 3, 0x21, 0x3E, 0x40, 0x41, 0xFF, content[at] ^ 1, content[at] ^ 0x80} - {content[at]}):
            yield [f"{at}:{byte:02x}"]
    start = number(content, 28, 4)
    for index in range(number(content, 44, 2)):
        for word in range(8):
            yield from ([edit] for edit in word_edits(content, start + 32 * index + 4 * word))
    for segment in segments_of(content):
        if segment.kind == 4:
            for word in range(min(segment.file_size, 40 * 4) // 4):
                yield from ([edit] for edit in word_edits(content, segment.offset + 4 * word))
    yield from ([f"<{count}"] for count in range(len(content)) if name != "tables" or count < 360 or count > len(content) - 360)
    yield ["+00"]
    yield ["+ff", "+01"]


def rows_of(name, content):
    return [(" ".join([name, *edits]), verdict(changed(content, edits))) for edits in edits_of(name, content)]


def file_text(content):
    cells = [f"{number(content, at, 4):08x}" for at in range(0, len(content), 4)]
    return "".join(" ".join(cells[at : at + 8]) + "\n" for at in range(0, len(cells), 8))


def write_rows():
    os.makedirs(os.path.join(CRATE, "data"), exist_ok=True)
    sections = []
    for name, content in files().items():
        assert len(content) % 4 == 0, name
        with open(os.path.join(CRATE, "data", f"{name}.txt"), "w", encoding="utf-8") as it:
            it.write("# a file\n" + file_text(content))
        sections.append(rows_of(name, content))
    for name, make in IMAGES.items():
        image = content_of(*make())
        with open(os.path.join(CRATE, "data", f"{name}.txt"), "w", encoding="utf-8") as it:
            it.write("# an image\n" + file_text(image))
        sections.append([(f"{name} as elf", file_of(upgraded(image)).hex())])
    rows = [row for section in sections for row in section]
    for file, lines in (("stdin", [row for row, _ in rows]), ("stdout", [f"{row}: {said}" for row, said in rows])):
        with open(os.path.join(CRATE, file), "w", encoding="utf-8") as it:
            it.write("".join(line + "\n" for line in lines))
    print(len(rows), "rows")


def try_at_random(program, count):
    """Prints of which files that are changed at random the program says something else."""
    draw = random.Random(19)
    expected = {}
    for _ in range(count):
        name, content = draw.choice(sorted(files().items()))
        choices = [edits for edits in edits_of(name, content) if edits]
        edits = [edit for _ in range(draw.randint(1, 3)) for edit in draw.choice(choices)]
        expected[" ".join([name, *edits])] = verdict(changed(content, edits))
    run = subprocess.run([program], input="\n".join(expected) + "\n", stdout=subprocess.PIPE, text=True, cwd=os.path.join(CRATE, "data"), check=True)
    lines = run.stdout.splitlines()
    wrong = [line for (row, said), line in zip(expected.items(), lines) if line != f"{row}: {said}"]
    print(*wrong, sep="\n", end="\n" * bool(wrong))
    print(len(lines), "tried,", len(wrong), "wrong")
    return 1 if wrong or len(lines) != len(expected) else 0


if __name__ == "__main__":
    if len(sys.argv) == 3:
        sys.exit(try_at_random(sys.argv[1], int(sys.argv[2])))
    write_rows()
