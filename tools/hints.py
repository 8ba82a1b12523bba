"""Hints on a source that is accepted: what its switches can't do as it is written. They are read off the tokens, and refuse nothing."""
import re
from dataclasses import dataclass, field

TOKEN = re.compile(
    r"""(?P<gap>\s+|//[^\n]*|/\*.*?\*/|^[ \t]*\#[^\n]*)|(?P<name>[A-Za-z_]\w*)|(?P<number>\d\w*)|(?P<text>'(?:[^'\\\n]|\\.)*'|"(?:[^"\\\n]|\\.)*")"""
    r"|(?P<mark><<=|>>=|[-+*/%&|^!<>=]=|\+\+|--|&&|\|\||<<|>>|.)",
    re.S | re.M,
)
# The words that begin a declaration.
TYPES = frozenset("static const void _Bool char short int unsigned signed enum".split())
STORES = frozenset("= += -= *= /= %= &= |= ^= <<= >>= ++ --".split())
COMMITS = ("multiverse_commit", "multiverse_commit_func", "multiverse_commit_refs")
REFUSED_CALLS = (*COMMITS, "multiverse_revert", "multiverse_revert_func", "multiverse_revert_refs")
CLOSING = {"(": ")", "[": "]", "{": "}"}
SIMPLE_ESCAPES = dict(zip("abfnrtv0\\'\"?", (7, 8, 12, 10, 13, 9, 11, 0, 92, 39, 34, 63)))


@dataclass
class Token:
    kind: str
    text: str
    place: tuple


@dataclass
class Function:
    name: str
    place: tuple
    body: list


@dataclass
class Switch:
    place: tuple
    domain: list


@dataclass
class Unit:
    functions: list = field(default_factory=list)
    attributed: set = field(default_factory=set)
    switches: dict = field(default_factory=dict)
    enumerators: dict = field(default_factory=dict)
    enums: dict = field(default_factory=dict)


def tokens_of(text):
    """Returns the tokens of a text, each with its line and its column."""
    found, line, start = [], 1, 0
    for it in TOKEN.finditer(text):
        if it.lastgroup != "gap":
            found.append(Token(it.lastgroup, it[0], (line, it.start() - start + 1)))
        if "\n" in it[0]:
            line += it[0].count("\n")
            start = it.start() + it[0].rindex("\n") + 1
    return found


def group_end(tokens, at):
    """Returns the place behind the group that opens at a place."""
    closing = []
    while at < len(tokens):
        text = tokens[at].text
        if text in CLOSING:
            closing.append(CLOSING[text])
        elif closing and text == closing[-1]:
            closing.pop()
        at += 1
        if not closing:
            break
    return at


def parts_of(tokens, mark):
    """Returns the parts of some tokens between the marks that stand in no group."""
    parts, at = [[]], 0
    while at < len(tokens):
        end = group_end(tokens, at)
        if tokens[at].text == mark:
            parts.append([])
        else:
            parts[-1] += tokens[at:end]
        at = end
    return parts


def value_of(tokens, enumerators):
    """Returns the value of a number, a character or an enumerator, with a sign or without, or None."""
    texts = [it.text for it in tokens]
    if texts[:1] == ["-"]:
        value = value_of(tokens[1:], enumerators)
        return None if value is None else -value
    if len(texts) != 1:
        return None
    if tokens[0].kind == "number":
        digits = texts[0].rstrip("uUlL")
        base = 16 if digits[:2] in ("0x", "0X") else 8 if digits[:1] == "0" else 10
        return int(digits, base)
    if tokens[0].kind == "text" and texts[0][0] == "'":
        inner = texts[0][1:-1]
        return ord(inner) if len(inner) == 1 else SIMPLE_ESCAPES.get(inner[1:])
    return enumerators.get(texts[0])


def without_attributes(tokens):
    """Returns the tokens outside of attributes, and the values of the last attribute: None where there is none."""
    kept, values, at = [], None, 0
    while at < len(tokens):
        if tokens[at].text != "__attribute__":
            kept.append(tokens[at])
            at += 1
            continue
        end = group_end(tokens, at + 1)
        inner = tokens[at + 4 : end - 2]
        values = parts_of(inner[1:-1], ",") if inner else []
        at = end
    return kept, values


def note_enum(unit, tokens):
    """Notes the enumerators of an enum that some specifiers define, and returns those of the enum that they name."""
    texts = [it.text for it in tokens]
    if "enum" not in texts:
        return None
    at = texts.index("enum") + 1
    tag = tokens[at].text if at < len(tokens) and tokens[at].kind == "name" else None
    if "{" in texts:
        values, following = [], 0
        opening = texts.index("{")
        for part in parts_of(tokens[opening + 1 : group_end(tokens, opening) - 1], ","):
            if part:
                value = value_of(part[2:], unit.enumerators) if len(part) > 1 else following
                unit.enumerators[part[0].text] = value
                values.append(value)
                following = None if value is None else value + 1
        unit.enums[tag] = values
    return unit.enums.get(tag)


def note_objects(unit, declaration):
    """Notes the switches of a declaration of objects."""
    shared = declaration
    for number, part in enumerate(parts_of(declaration, ",")):
        kept, values = without_attributes(part)
        head = parts_of(kept, "=")[0]
        if number == 0:
            enum, shared = note_enum(unit, head), values
        names = [it for it in head if it.kind == "name"]
        values = shared if values is None else values
        if values is None or not names or any(it.text in "([*" for it in head):
            continue
        domain = [value_of(it, unit.enumerators) for it in values] or (list(dict.fromkeys(enum)) if enum is not None else [0, 1])
        unit.switches[names[-1].text] = Switch(names[-1].place, domain)


def unit_of(tokens):
    """Returns what hints are given of: the functions with bodies, the switches and the enumerators."""
    unit, start, at = Unit(), 0, 0
    while at < len(tokens):
        text = tokens[at].text
        end = group_end(tokens, at)
        if text == ";":
            kept, values = without_attributes(tokens[start:at])
            texts = [it.text for it in parts_of(kept, "=")[0]]
            if "(" in texts:
                note_enum(unit, kept)
                if values is not None:
                    unit.attributed.add(texts[texts.index("(") - 1])
            else:
                note_objects(unit, tokens[start:at])
            start = end
        elif text == "{" and tokens[at - 1].text == ")":
            kept, values = without_attributes(tokens[start:at])
            opening = [it.text for it in kept].index("(")
            unit.functions.append(Function(kept[opening - 1].text, kept[opening - 1].place, kept[opening:] + tokens[at:end]))
            if values is not None:
                unit.attributed.add(kept[opening - 1].text)
            start = end
        at = end
    return unit


def declares_pointer(body, at):
    """Whether the name at a place in a function's tokens is that of a pointer to a function which is declared there."""
    star = at - 1 - (body[at - 1].text == "const")
    return body[star].text == "*" and body[star - 1].text == "(" and (body[star - 2].text in TYPES or body[star - 3].text == "enum")


def brace_kind(body, at):
    """Returns whether the `{` at a place in a function's tokens opens a list of values, one of enumerators or a block."""
    return "list" if body[at - 1].text == "=" else "enum" if "enum" in (body[at - 1].text, body[at - 2].text) else "block"


def names_of_globals(body):
    """Returns the places in a function's tokens, its parameters first, whose names mean nothing that the function declares."""
    found, scopes, braces, declaring, depth = [], [set()], [], 1, 0
    for at, token in enumerate(body):
        text, before = token.text, body[at - 1].text if at else "("
        if text == "{":
            braces.append(brace_kind(body, at))
            if braces[-1] == "block":
                scopes.append(set())
        depth += text in ("(", "[") or text == "{" and braces[-1] == "list"
        depth -= text in (")", "]") or text == "}" and braces[-1] == "list"
        if text in TYPES and (declaring is None or depth <= declaring):
            declaring = depth
        elif text == ";" or text in ("{", "}") and braces[-1] == "block" or declaring is not None and depth < declaring:
            declaring = None
        if text == "}" and braces.pop() == "block":
            scopes.pop()
        is_behind = declaring == depth and before in (",", "{", "}")
        if token.kind != "name" or text in TYPES:
            continue
        if before in TYPES or body[at - 2].text == "enum" or is_behind or declares_pointer(body, at):
            scopes[-1].add(text)
        elif not any(text in it for it in scopes):
            found.append(at)
    return found


def is_read(body, at):
    """Whether the name at a place is no argument of a call on switches."""
    return not (body[at - 1].text == "&" and body[at - 2].text == "(")


def hints_on_reads(unit, function, places):
    """What reads a switch and stores none to it has an attribute, but for `main`."""
    body = function.body
    stored = {body[at].text for at in places if body[at + 1].text in STORES or body[at - 1].text in ("++", "--")}
    for at in places:
        name = body[at].text
        if name in unit.switches and name not in stored and is_read(body, at):
            yield body[at].place, f"`{function.name}` reads the switch `{name}` and has no attribute: no commit changes it"
            return


def hints_on_calls(function, places):
    """What is attributed makes no switch call."""
    for at in places:
        name = function.body[at].text
        if name in REFUSED_CALLS:
            yield function.body[at].place, f"`{function.name}` is attributed and live here: `{name}` answers -1 and changes nothing"


def hints_on_stores(unit, function, places):
    """What is stored to a switch before a commit is one of its values."""
    body = function.body
    for number, at in enumerate(places):
        switch = unit.switches.get(body[at].text)
        if switch is None or body[at + 1].text != "=" or None in switch.domain:
            continue
        end = at + 2
        while body[end].text not in (";", ",", ")"):
            end = group_end(body, end)
        value = value_of(body[at + 2 : end], unit.enumerators)
        behind = (body[it] for it in places[number + 1 :] if body[it].text in (*COMMITS, body[at].text))
        following = next(behind, None)
        if value is not None and value not in switch.domain and following is not None and following.text in COMMITS:
            values = ", ".join(map(str, switch.domain))
            cause = f"{value} is no value of the switch `{body[at].text}` ({values})"
            yield body[at].place, f"{cause}: the commit in line {following.place[0]} frees what reads it"


def hints(text):
    """Returns the hints on the text of an accepted source, in order of their places."""
    unit = unit_of(tokens_of(text))
    found, named = [], set()
    for function in unit.functions:
        places = names_of_globals(function.body)
        if function.name in unit.attributed:
            named.update(function.body[at].text for at in places)
            found += hints_on_calls(function, places)
        elif function.name != "main":
            found += hints_on_reads(unit, function, places)
        found += hints_on_stores(unit, function, places)
    for name, switch in unit.switches.items():
        if name not in named:
            found.append((switch.place, f"no attributed function reads the switch `{name}`: no commit changes any code for it"))
    return sorted(found)
