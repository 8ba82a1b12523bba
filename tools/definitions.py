#!/usr/bin/env python3
"""Lists the definitions that the headline rests on, in reading order: what a reader has to believe, and no more.

  definitions.py            prints the lists
  definitions.py --write    writes them into docs/trust.md, between its marks
  definitions.py --check    ends with 1 where those in docs/trust.md are others

Each part begins at some definitions and goes on through the text of each: a name is an item of the same file, or what a `use` line of the file
brings. A definition stands behind those that it names; what an earlier part has isn't listed again, and a part doesn't go into a definition at which a later one
begins. Names of the toolchain's libraries end the walk. A part that begins at a call begins at its signature, with its clauses, and goes on through the traits that it names,
with theirs.
Types that are declared in Rust, traits and calls are named by their file in `src/`. A name of a number, as of a register or a limit, is listed in a part of its own with the
number. Of each part the lines are counted: those of its definitions and, once, of the telescopes around them, without comments, attributes and imports.
"""
import os
import re
import sys

TOP = os.path.dirname(os.path.dirname(os.path.realpath(__file__)))
DOCUMENT = os.path.join(TOP, "docs", "trust.md")
BEGIN, END = "<!-- definitions -->", "<!-- end of definitions -->"
# Each part: what it is for, and the definitions at which it begins. The core is what has to be believed for `run`, its first parts for the run of an image that does what a
# source means; the next serves one clause alone; an appendix is for who relies on what it says.
MEANT = [
    ("1 What a program means", [("mv_meaning/specs/Meaning.antt", "mean")]),
    ("2 What a run of an image does", [("mv_machine/specs/Runs.antt", "runs")]),
    ("3 That the run does what the program means", [("mv_refine_machine/specs/Runs/Behaves.antt", "BehavesAlways"), ("mv_refine_images/specs/Own.antt", "LoadsNoOwnSwitch")]),
]
COMMANDED = [
    ("4 What `run` says of its status, its output and its notes", [("mv_top/specs/Running.antt", "RunDoes")]),
    ("5 What joins it to the words of a command and to the devices", [("mv_top/src/top.rt", "multiverse"), ("mv_top/src/picking.rt", "multiverse_by_words")]),
]
APART = [
    ("6 The work that a meaning counts", [("mv_ast/specs/Names.antt", "names_local"), ("mv_ast/specs/Counts.antt", "patchable_places"), ("mv_meaning/specs/Meaning.antt", "poll_work")]),
]
APPENDICES = [
    ("A Which text is which program", [("mv_front/specs/Verdicts.antt", "IsProgram")]),
    ("A1 Which texts are accepted", [
        ("mv_check_expressions/specs/Breaches.antt", "breaches"), ("mv_check_expressions/specs/Judged.antt", "first_broken"),
        ("mv_check_limits/specs/Ordered.antt", "first_excess"), ("mv_parser/specs/Verdict.antt", "IsShallow"), ("mv_front/specs/Verdicts.antt", "IsRefused"),
        ("mv_count_limits/specs/Counted.antt", "IsWithinCounts")]),
    ("B `build`, and the form of an image", [("mv_top/specs/Building.antt", "BuildsFile"), ("mv_top/specs/Building.antt", "IsBuiltAs"), ("mv_image/specs/Faults.antt", "Spells")]),
    ("C `exec`", [
        ("mv_top/specs/Executing.antt", "ExecDoes"), ("mv_exec/specs/Loading.antt", "IsBadImage"), ("mv_actions/specs/Operator.antt", "IsImageFirstWrong"),
        ("mv_actions/specs/Operator.antt", "IsImageActions")]),
    ("D `list` and `disasm`", [("mv_top/specs/Listing.antt", "ListsFile"), ("mv_top/specs/Listing.antt", "DisassemblesFile")]),
    ("E `eval`", [("mv_top/specs/Evaluating.antt", "EvaluatesFile"), ("mv_eval/specs/Evaluations.antt", "meaning")]),
    ("F `gen`", [("mv_top/specs/Generating.antt", "GenDoes"), ("mv_gen/specs/Generated.antt", "generated"), ("mv_top/specs/Generating.antt", "is_cut_short")]),
    ("G Several harts, and what the other harts adopt", [
        ("mv_harts/src/harts.rt", "run_harts"), ("mv_harts/src/top.rt", "mvharts"), ("mv_ast/specs/Bindings.antt", "are_bindings"),
        ("mv_ast/specs/Bindings.antt", "are_typed_bindings"), ("mv_machine/specs/Runs.antt", "adopted")]),
    ("H `help` and `version`", [("mv_command/specs/Help.antt", "help_on"), ("mv_command/specs/Help.antt", "version_text")]),
    ("I `upgrade`, `asm`, `elf` and `unelf`", [
        ("mv_top/specs/Converting.antt", "ConvertsFile"), ("mv_top/specs/Converting.antt", "status_of_conversion"), ("mv_convert/specs/Conversions.antt", "IsConverted"),
        ("mv_convert/specs/Causes.antt", "IsNotConverted")]),
    ("J `check`", [("mv_top/specs/Checking.antt", "ChecksFile"), ("mv_top/specs/Checking.antt", "AsksToCheck"), ("mv_top/specs/Checking.antt", "CompareDoes")]),
]
PARTS = MEANT + COMMANDED + APART + APPENDICES
# Of these only what an earlier part has is to be believed: the rest says which bodies and tables an image was made of.
CLOSED = {("mv_build/specs/Images.antt", "IsImageOf"), ("mv_build/specs/Verdicts.antt", "PassesLimit")}

USE = re.compile(r"^ *(?:pub )?(?:ghost )?use +Rattle\.(?P<path>[^\s{;]+?)(?:\.\{(?P<names>[^}]*)\})?(?: as (?P<alias>[^\s;]+))?;? *$")
ITEM = re.compile(r"^ *(?:(?:pub|abbrev|unfoldable|private) )*(?:(?:record|data) )?(?P<name>[^\s(){}:,;=]+)(?: +[({].*?)? *:(?: |$)")
NUMBER = re.compile(r"^ *abbrev pub (?P<name>\w+) : ℕ\n *(?P=name) = (?P<value>[\w+*^ ()-]+)\s*$")
IMPORT = re.compile(r"^use +(?P<crate>mv_\w+)::(?:\{(?P<names>[^}]*)\}|(?P<name>\w+));$", re.M)
CALL = re.compile(r"^pub fn (?P<name>\w+)(?P<text>.*?)^\{$", re.M | re.S)
TRAIT = re.compile(r"^pub trait (?P<name>\w+)(?P<text>.*?)^\}$", re.M | re.S)
TYPE = re.compile(r"^pub(?:\([a-z]+\))? (?:struct|enum|const) (?P<name>\w+)(?:[^\n{]*;|[^\n]*\{\}|.*?^\})$", re.M | re.S)
WORD = re.compile(r"[^\s(){}\[\],;λ\"«»]+")


def is_counted(line):
    """A line is counted, if it is no comment, no attribute and no import."""
    bare = line.strip()
    return bool(bare) and not bare.startswith(("--", "//", "#[")) and not USE.match(line)


class File:
    """A file of definitions: what its `use` lines bring, and the text of each item with the numbers of its lines."""

    def __init__(self, path):
        self.path, self.names, self.modules, self.items, self.lines = path, {}, {}, {}, {}
        lines = open(path, encoding='utf-8').read().replace('«', '').replace('»', '').split('\n')
        starts = []
        for number, line in enumerate(lines):
            bare = line.split(' -- ')[0]
            if bare.lstrip().startswith('--') or not bare.strip():
                continue
            use = USE.match(bare)
            if use:
                self.take(use)
                continue
            if bare.lstrip().startswith(('module ', 'pub module ', 'pub mod ', 'mod ', 'use ')):
                starts.append((number, None, bare))
                continue
            item = ITEM.match(bare)
            indent = len(bare) - len(bare.lstrip())
            if item and (indent == 0 or bare.lstrip().startswith(('abbrev ', 'pub ', 'unfoldable ', 'record ', 'data '))) and not self.is_field(bare, starts, lines, indent):
                starts.append((number, item['name'], bare))
        telescope = []
        for (number, name, bare), (stop, _, _) in zip(starts, starts[1:] + [(len(lines), None, '')]):
            text = '\n'.join(part.split(' -- ')[0] for part in lines[number:stop] if not part.lstrip().startswith('--'))
            counted = {at for at in range(number, stop) if is_counted(lines[at])}
            indent = len(bare) - len(bare.lstrip())
            telescope = [outer for outer in telescope if outer[0] < indent]
            if name is None:
                telescope.append((indent, text, counted))
            else:
                around = '\n'.join(words for _, words, _ in telescope)
                self.items[name] = self.items.get(name, '') + '\n' + around + '\n' + text
                self.lines[name] = self.lines.get(name, set()).union(counted, *(outer for _, _, outer in telescope))

    def take(self, use):
        if use['names'] is not None:
            for name in use['names'].split(','):
                name = name.strip()
                if ' as ' in name:
                    name, alias = name.split(' as ')
                    self.names[alias.strip()] = (use['path'], name.strip())
                elif name:
                    self.names[name] = (use['path'], name)
        if use['alias']:
            self.modules[use['alias']] = use['path']

    @staticmethod
    def is_field(line, starts, lines, indent):
        """A field of a record, or a constructor: it stands deeper than a record or data that is open."""
        if line.lstrip().startswith(('abbrev ', 'pub abbrev ', 'unfoldable ', 'record ', 'pub record ', 'data ', 'pub data ')):
            return False
        for number, name, head in reversed(starts):
            depth = len(head) - len(head.lstrip())
            if depth < indent:
                return bool(re.match(r' *(pub )?(record|data) ', head))
        return False


class Code(File):
    """A file of Rust: what its `ghost use` lines bring, the crate of each name that it imports, and the text of public calls up to their bodies and of
    traits."""

    def __init__(self, path):
        self.path, self.names, self.modules, self.items, self.lines, self.crates = path, {}, {}, {}, {}, {}
        lines = [line for line in open(path, encoding='utf-8').read().split('\n') if not line.lstrip().startswith('//')]
        for line in lines:
            use = USE.match(line)
            if use:
                self.take(use)
        text = '\n'.join(lines)
        for found in IMPORT.finditer(text):
            for name in (found['names'] or found['name']).split(','):
                self.crates[name.strip()] = found['crate']
        for found in [*CALL.finditer(text), *TRAIT.finditer(text)]:
            self.items[found['name']] = re.sub('[<>&:]', ' ', found['text'])
            self.count(text, found)
        for found in TYPE.finditer(text):
            self.count(text, found)

    def count(self, text, found):
        """Keeps the numbers of the lines of a declaration."""
        first = text.count('\n', 0, found.start())
        self.lines[found['name']] = {first + at for at, line in enumerate(found[0].split('\n')) if is_counted(line)}


class Walk:
    def __init__(self, root):
        self.root, self.files, self.order, self.seen, self.closed = root, {}, [], set(), set()

    def file(self, path):
        if path not in self.files:
            self.files[path] = (Code if path.endswith('.rt') else File)(path) if os.path.exists(path) else None
        return self.files[path]

    def place(self, module):
        """The file of a module of this repository's specifications, or None."""
        parts = module.split('.')
        if not parts[0].startswith('mv_') or len(parts) < 3:
            return None
        return os.path.join(self.root, 'crates', parts[0], *parts[1:]) + '.antt'

    def home(self, module):
        """The module itself where a crate passes one of another crate on, in its list of modules."""
        crate, *rest = module.split('.')
        lists = os.path.join(self.root, 'crates', crate, 'specs', 'Lib.antt')
        if crate.startswith('mv_') and rest[:1] == ['specs'] and len(rest) > 1 and os.path.exists(lists):
            text = open(lists, encoding='utf-8').read()
            passed = re.search(rf"^pub use Rattle\.(mv_\S+)(?<=\.{re.escape(rest[1])})$|^pub use Rattle\.(mv_\S+) as {re.escape(rest[1])}$", text, re.M)
            if passed:
                return self.home('.'.join([passed[1] or passed[2], *rest[2:]]))
        return module

    def follow(self, module, name):
        module = self.home(module)
        parts = module.split('.')
        if 'declared' in parts:
            self.follow_declared(parts[0], parts[parts.index('declared') + 1:], name)
            return
        path = self.place(module)
        if path and self.file(path) and name in self.file(path).items:
            self.visit(path, name)

    def follow_declared(self, crate, parts, name):
        """A type, a variant of one, or a constant. What is generated beside the types of a whole crate is none of these."""
        if parts[-1] == 'TheConstants':
            self.declared(crate, parts[:-1], name)
        elif parts[-1] == 'TheVariants':
            self.declared(crate, parts[:-2], parts[-2])
        elif not parts[-1].startswith('The'):
            self.declared(crate, parts[:-1], parts[-1])

    def declared(self, crate, folders, name):
        if not crate.startswith('mv_'):
            return
        base = os.path.join(self.root, 'crates', crate, 'src', *folders)
        path = next((p for p in (base + '.rt', os.path.join(base, 'mod.rt'), os.path.join(self.root, 'crates', crate, 'src', 'lib.rt')) if os.path.exists(p)), base + '.rt')
        if (path, name) not in self.seen:
            self.seen.add((path, name))
            self.order.append((path, name))

    def number(self, path, name):
        """The number that a name stands for, as it is written, or None for a definition that is no name of a number."""
        if not path.endswith(".antt"):
            return None
        found = NUMBER.match(self.file(path).items[name].strip("\n"))
        return found["value"].strip() if found else None

    def visit(self, path, name):
        if (path, name) in self.seen or (path, name) in self.closed:
            return
        self.seen.add((path, name))
        if (os.path.relpath(path, os.path.join(self.root, 'crates')), name) not in CLOSED:
            self.words(self.file(path), self.file(path).items[name], path, name)
        self.order.append((path, name))

    def words(self, file, text, path=None, own=None):
        for word in WORD.findall(text):
            word = word.rstrip('.')
            if word == own:
                continue
            self.word(file, word, path)

    def trait(self, crate, name):
        """A trait of a crate, or nothing where the name is another's."""
        folder = os.path.join(self.root, 'crates', crate, 'src')
        for short in sorted(os.listdir(folder)):
            path = os.path.join(folder, short)
            if path.endswith('.rt') and f'\npub trait {name}' in open(path, encoding='utf-8').read():
                self.visit(path, name)

    def word(self, file, word, path):
        if path and word in file.items:
            self.visit(path, word)
            return
        if isinstance(file, Code) and word in file.crates:
            self.trait(file.crates[word], word)
            return
        if word in file.names:
            self.follow(*file.names[word])
            return
        # a name with its module, or a value with its field
        head, _, rest = word.partition('.')
        if head in file.modules and rest:
            self.follow(file.modules[head], rest.split('.')[0])
        elif rest and (head in file.names or (path and head in file.items)):
            self.word(file, head, path)


    def length(self, order):
        """How many lines some definitions have together."""
        return len({(path, at) for path, name in order for at in self.file(path).lines[name]})


def grouped(order):
    """Returns lines of names by file, each file where its last name is read."""
    files = {}
    for path, name in order:
        short = os.path.relpath(path, os.path.join(TOP, "crates"))
        files[short] = files.pop(short, []) + [name]
    return [f"- `{short}`: " + ", ".join(f"`{name}`" for name in names) for short, names in files.items()]


def numbered(walk, order):
    """Returns lines of names of numbers by file, each with its number."""
    files = {}
    for path, name in order:
        files.setdefault(os.path.relpath(path, os.path.join(TOP, "crates")), []).append(f"`{name}` {walk.number(path, name)}")
    return [f"- `{short}`: " + ", ".join(names) for short, names in files.items()]


def listed(walk, later, starts):
    """Returns the definitions of a part, which doesn't go into those at which later ones begin, and no names of numbers."""
    before, walk.closed = len(walk.order), later
    for path, name in starts:
        walk.visit(path, name)
    return [(path, name) for path, name in walk.order[before:] if walk.number(path, name) is None]


def table(sizes):
    """Returns the lines of a table of the parts, with sums."""
    rows = [(title, *size) for (title, _), size in zip(PARTS, sizes)]

    def total(title, count):
        return (f"**{title}**", sum(definitions for _, definitions, _ in rows[:count]), sum(lines for _, _, lines in rows[:count]))

    meant, core = len(MEANT), len(MEANT) + len(COMMANDED)
    shown = rows[:meant] + [total("1 to 3, from the source to the run", meant)] + rows[meant:core] + [total("1 to 5, the core", core)] + rows[core:] + [total("All", len(rows))]
    return ["| Part | Definitions | Lines |", "|---|---|---|"] + [f"| {title} | {definitions:,} | {lines:,} |" for title, definitions, lines in shown]


def listing():
    """Returns the lines of all parts."""
    walk, lines, sizes = Walk(TOP), [], []
    begins = [[(os.path.join(TOP, "crates", path), name) for path, name in starts] for _, starts in PARTS]
    for number, (title, _) in enumerate(PARTS):
        part = listed(walk, {start for starts in begins[number + 1:] for start in starts}, begins[number])
        sizes.append((len(part), walk.length(part)))
        lines += ["", f"### {title}", "", f"{len(part)} definitions, {sizes[-1][1]} lines, in {len(grouped(part))} files.", ""] + grouped(part)
    numbers = [(path, name) for path, name in walk.order if walk.number(path, name) is not None]
    lines += ["", "### Numbers that have a name", "", f"{len(numbers)} names in {len(numbered(walk, numbers))} files.", ""] + numbered(walk, numbers)
    return [""] + table(sizes) + lines


def main():
    lines = listing()
    how = sys.argv[1:]
    if not how:
        print("\n".join(lines))
        return 0
    with open(DOCUMENT, encoding="utf-8") as it:
        text = it.read()
    before, rest = text.split(BEGIN)
    after = rest.split(END)[1]
    whole = before + BEGIN + "\n".join(lines) + "\n\n" + END + after
    if how == ["--write"]:
        with open(DOCUMENT, "w", encoding="utf-8") as it:
            it.write(whole)
        return 0
    if whole != text:
        print("docs/trust.md: its lists of definitions are others: python3 tools/definitions.py --write")
        return 1
    return 0


if __name__ == "__main__":
    sys.exit(main())
