"""Which of the causes of a rule holds where it is broken, and which function passes a limit: read off the tokens of the source, as hints are.

The causes of a rule are the lines that docs/refusals.ini has of it. A function here gives the number of one of them from 0 on, or None where the tokens
don't tell. The text is one that the grammar takes, as each is that breaks a rule or passes a limit.
"""
import math

import hints

# The words that name a type together, in alphabetical order.
NAMED = {tuple(it.split()) for it in ("void", "enum", "_Bool", "char", "char signed", "char unsigned")}
NAMED |= {tuple(it.split()) for it in ("short", "int short", "short signed", "int short signed", "short unsigned", "int short unsigned")}
NAMED |= {tuple(it.split()) for it in ("int", "signed", "int signed", "unsigned", "int unsigned")}
# What stands behind the last token.
END = hints.Token("end", "", (0, 0))


def opening_of(tokens, at):
    """Returns the place of the innermost bracket that is open at a place, or None."""
    opened = []
    for place, token in enumerate(tokens[:at]):
        if token.text in hints.CLOSING:
            opened.append(place)
        elif opened and token.text in hints.CLOSING.values():
            opened.pop()
    return opened[-1] if opened else None


def is_block(tokens, opening):
    """Whether what a bracket opens is a block, or the clauses of a `for`: what is declared there is local."""
    return tokens[opening].text == "{" or tokens[opening - 1].text == "for"


def end_of_specifiers(tokens, at):
    """Returns the place behind the specifiers that begin at a place."""
    while True:
        text = tokens[at].text
        if text == "__attribute__":
            at = hints.group_end(tokens, at + 1)
        elif text == "enum":
            at += 1 + (tokens[at + 1].kind == "name")
            at = hints.group_end(tokens, at) if tokens[at].text == "{" else at
        elif text in hints.TYPES:
            at += 1
        else:
            return at


def end_of_declarator(tokens, at):
    """Returns the place behind the declarator that begins at a place: that of its initial value, its block or the next one."""
    while tokens[at].text not in ("=", ",", ";", "{", ")", ""):
        at = hints.group_end(tokens, at)
    return at


def start_of_declaration(tokens, at):
    """Returns the place where the declaration outside functions begins that has what stands at a place."""
    start, here = 0, 0
    while here < at:
        end = hints.group_end(tokens, here)
        if tokens[here].text == ";" or tokens[here].text == "{" and tokens[here - 1].text == ")":
            start = end
        here = end
    return start


def declarators(tokens, at):
    """Returns the first and the last place of each declarator behind the specifiers of a declaration, its initial value left out."""
    found = []
    while tokens[at].text not in (";", "{", ""):
        end = end_of_declarator(tokens, at)
        found.append((at, end))
        at = end
        while tokens[at].text not in (",", ";", "") and (tokens[at].text != "{" or tokens[at - 1].text == "="):
            at = hints.group_end(tokens, at)
        at += tokens[at].text == ","
    return found


def of_extent(tokens, at):
    """Rule 10, at a declarator: a size below 1, none and no values, more values than elements, a list for a scalar, a string."""
    small, unsized, more, listed, string = range(5)
    end = end_of_declarator(tokens, at)
    first = tokens[end + 1] if tokens[end].text == "=" else None
    is_text = first is not None and first.text[0] == '"'
    opening = next((it for it in range(at, end) if tokens[it].text == "["), None)
    if opening is None:
        return string if is_text else listed
    written = tokens[opening + 1 : hints.group_end(tokens, opening) - 1]
    size = hints.value_of(written, hints.unit_of(tokens).enumerators)
    if size is not None and size < 1 or written and first is None:
        return small
    if first is None:
        return unsized
    if is_text:
        is_global = opening_of(tokens, at) is None
        return more if is_global and written and any(it.text == "char" for it in tokens[start_of_declaration(tokens, at) : at]) else string
    values = hints.parts_of(tokens[end + 2 : hints.group_end(tokens, end + 1) - 1], ",")
    return more if size is not None and len(values) > size else None


def of_label(tokens, at):
    """Rule 11, at a label, a declaration or a `switch`: a label elsewhere, a declaration, no block, a label again."""
    elsewhere, declaration, no_block, again = range(4)
    if tokens[at].text == "switch":
        return no_block
    if tokens[at].text not in ("case", "default"):
        return declaration
    opening = opening_of(tokens, at)
    tested = opening_of(tokens, opening - 1) if tokens[opening - 1].text == ")" else None
    is_direct = tested is not None and tokens[tested - 1].text == "switch" and tokens[at - 1].text in ("{", "}", ";", ":")
    return again if is_direct else elsewhere


def of_attribute(tokens, at):
    """Rule 14, at an attribute: on a local, a parameter, an array, `const`, `main`, an enum alone; two; values on a function or a pointer to one."""
    local, parameter, array, constant, main, alone, twice, valued = range(8)
    opening = opening_of(tokens, at)
    if opening is not None:
        return local if is_block(tokens, opening) else parameter
    start = start_of_declaration(tokens, at)
    behind = end_of_specifiers(tokens, start)
    held = [(first, end) for first, end in declarators(tokens, behind) if at < behind or first <= at < end]
    if not held:
        return alone
    if any(it.text == "__attribute__" for part in ((start, behind), *held) for it in tokens[part[0] : min(at, part[1])]):
        return twice
    has_values = tokens[at + 4].text == "("
    for first, end in held:
        texts = [it.text for it in hints.without_attributes(tokens[first:end])[0]]
        if "[" in texts or texts[0] == "main":
            return array if "[" in texts else main
        if has_values and "(" in texts:
            return valued
    # (what else has none is `const`, by this declaration or by another one of the name)
    return constant


def of_placement(tokens, at):
    """Rule 20, at an operator, a cast or a name: `&`, `*`, a cast to `void`, a cast from a pointer, the name of a known function."""
    address, leading, to_void, from_pointer, known = range(5)
    if tokens[at].text == "(":
        return to_void if any(it.text == "void" for it in tokens[at : hints.group_end(tokens, at)]) else from_pointer
    return {"&": address, "*": leading}.get(tokens[at].text, known)


def of_declaration(tokens, at):
    """Rule 22, at specifiers or a declarator: no type, `static`, neither name nor enum, a parameter without a name, a block, a value, a function in a block."""
    no_type, hidden, empty, nameless, block, given, inner = range(7)
    opening = opening_of(tokens, at)
    behind = end_of_specifiers(tokens, at)
    if behind == at:
        if opening is not None and not is_block(tokens, opening):
            return nameless
        if tokens[at + 1].text != "(" or tokens[at].text == "(":
            return block
        return given if opening is None else inner
    texts = [it.text for it in hints.without_attributes(tokens[at:behind])[0]]
    words = tuple(sorted(it for it in texts if it in hints.TYPES and it not in ("static", "const")))
    if words not in NAMED:
        return no_type
    if "static" in texts and opening is not None:
        return hidden
    return empty if tokens[behind].text == ";" else nameless


RULES = {10: of_extent, 11: of_label, 14: of_attribute, 20: of_placement, 22: of_declaration}


def cause_of(rule, source, place):
    """Returns the number of the cause for which a source breaks a rule at a place, or None where the rule has one alone or the tokens don't tell."""
    tokens = [*hints.tokens_of(source.decode("latin-1")), END, END]
    at = next((number for number, token in enumerate(tokens) if token.place == place), None)
    return None if rule not in RULES or at is None else RULES[rule](tokens, at)


def switches_named(unit, function):
    """Returns the switches of a function, in order of their declaration."""
    body = function.body
    named = {body[at].text for at in hints.names_of_globals(body) if hints.is_read(body, at)}
    return [name for name in unit.switches if name in named]


def passing_function(limit, count, source):
    """Returns the place of the first attributed function that counts so much by limit 6 or 7, and what it counts, or None."""
    unit = hints.unit_of(hints.tokens_of(source.decode("latin-1")))
    for function in unit.functions:
        names = switches_named(unit, function) if function.name in unit.attributed else []
        sizes = [len(unit.switches[name].domain) for name in names]
        if names and limit == 6 and len(names) == count:
            return function.place, f"`{function.name}` names {', '.join(f'`{name}`' for name in names)}"
        if names and limit == 7 and math.prod(sizes) == count:
            values = ", ".join(f"`{name}` ({size})" for name, size in zip(names, sizes))
            return function.place, f"`{function.name}` has {count}, by the values of {values}"
    return None
