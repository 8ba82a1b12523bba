#!/usr/bin/env python3
"""Programs that commit, revert and poll, and what they do by the rules of docs/switches.md: the rows `# patching program N` of crates/mv_test_top.

  patching_rows.py     writes these rows anew, at the end of stdin and stdout

The programs are drawn from a seed. Each makes all six orders, polls, and calls attributed functions by name, through a pointer, from helpers and
from each other, also with orders below their frames. What they write and log is worked out here, by a model of the rules that knows nothing of the compiler.
"""
import itertools
import os
import random
import re
import textwrap
from typing import Callable, NamedTuple

ROWS = os.path.join(os.path.dirname(os.path.dirname(os.path.realpath(__file__))), "crates", "mv_test_top")
TITLE = "# patching program"
PROGRAMS = 40
ATTRIBUTE = "__attribute__((multiverse))"
# How a switch is declared: its type with its attribute, its domain, and values of its type, of which some are outside the domain.
KINDS = [
    (f"{ATTRIBUTE} int", [0, 1], [0, 1, 2, -7]),
    (f"{ATTRIBUTE} _Bool", [0, 1], [0, 1]),
    (f"{ATTRIBUTE} enum level", [0, 4, 9], [0, 4, 9, 5]),
    ("__attribute__((multiverse(-2, -1, 3))) signed char", [-2, -1, 3], [-2, -1, 3, 0, -128]),
    ("__attribute__((multiverse(0, 2, 3, 5))) unsigned short", [0, 2, 3, 5], [0, 2, 3, 5, 4, 65535]),
]
OPERATORS = {
    "+": lambda x, y: x + y, "-": lambda x, y: x - y, "*": lambda x, y: x * y, "&": lambda x, y: x & y, "|": lambda x, y: x | y,
    "^": lambda x, y: x ^ y, "==": lambda x, y: x == y, "!=": lambda x, y: x != y, "<": lambda x, y: x < y, ">=": lambda x, y: x >= y,
}


class Switch(NamedTuple):
    name: str
    declared: str
    domain: list
    values: list
    first: int


class Piece(NamedTuple):
    """An expression or a statement: its text, what it does in a world and a frame, and the switches that it names. A statement that returns gives a value in a
    list, each other one None."""

    text: str
    act: Callable
    names: frozenset = frozenset()


class Function(NamedTuple):
    name: str
    attributed: bool
    result: str
    body: list

    def text(self):
        marked = f"{ATTRIBUTE} " if self.attributed else ""
        return f"{marked}{self.result} {self.name}(int a) {{ {' '.join(it.text for it in self.body)} }}"

    def names(self):
        return frozenset().union(*(it.names for it in self.body))


class World:
    """What a run comes to: memory, bindings, live attributed frames, the operator's actions to come, the log and the output."""

    def __init__(self, switches, functions, actions):
        self.memory = {"g": 0, "h": 0, **{it.name: it.first for it in switches}}
        self.switches, self.functions = switches, functions
        self.bindings = [None] * len(functions)
        self.live, self.actions, self.log, self.out = 0, list(actions), [], ""

    def own(self, function):
        """Returns the switches of an attributed function, in order of declaration."""
        return [it for it in self.switches if it.name in function.names()]

    def values(self, number, binding):
        """Returns what is written of the values to which the attributed function with this number is bound."""
        return "".join(f" {it.name}={value}" for it, value in zip(self.own(self.functions[number]), binding))

    def call(self, function, argument):
        frame = {"a": argument}
        if function.attributed:
            bound = self.bindings[self.functions.index(function)]
            frame.update(zip((it.name for it in self.own(function)), bound or ()))
            self.live += 1
        returned = run_all(function.body, self, frame)
        self.live -= function.attributed
        return returned[0] if returned else 0

    def order(self, is_commit, addressed):
        """Commits or reverts the functions with these numbers, and returns the answer."""
        if self.live:
            return -1
        for number in addressed:
            own = self.own(self.functions[number])
            values = [self.memory[it.name] for it in own]
            is_bound = is_commit and all(value in it.domain for value, it in zip(values, own))
            binding = values if is_bound else None
            if binding != self.bindings[number]:
                self.log.append((number, binding))
            self.bindings[number] = binding
        return sum(self.bindings[number] is not None for number in addressed) if is_commit else 0

    def poll(self):
        action = self.actions.pop(0) if self.actions and not self.live else None
        if action is None:
            return 0
        name, value = action
        self.memory[name] = value
        self.order(True, range(len(self.functions)))
        return 1


def run_all(body, world, frame):
    for statement in body:
        returned = statement.act(world, frame)
        if returned is not None:
            return returned
    return None


def wrapped(value):
    return (int(value) + 2**31) % 2**32 - 2**31


def names_of(*pieces):
    return frozenset().union(*(it.names for it in pieces))


# ---- expressions


def number(value):
    return Piece(f"({value})" if value < 0 else str(value), lambda world, frame: value)


def scalar(name):
    return Piece(name, lambda world, frame: frame.get(name, world.memory.get(name)))


def read(switch):
    return scalar(switch.name)._replace(names=frozenset([switch.name]))


def operation(mark, x, y):
    return Piece(f"({x.text} {mark} {y.text})", lambda world, frame: wrapped(OPERATORS[mark](x.act(world, frame), y.act(world, frame))), names_of(x, y))


def choice(test, x, y):
    return Piece(f"({test.text} ? {x.text} : {y.text})", lambda world, frame: (x if test.act(world, frame) else y).act(world, frame), names_of(test, x, y))


def call(function, argument, name=None):
    return Piece(f"{name or function.name}({argument.text})", lambda world, frame: world.call(function, argument.act(world, frame)), argument.names)


def poll():
    return Piece("multiverse_poll()", lambda world, frame: world.poll())


def all_orders(switches, functions):
    """Returns the orders on these functions, a list for each of the six kinds."""
    orders = []
    for is_commit, verb in ((True, "commit"), (False, "revert")):
        def ordered(text, addressed, is_commit=is_commit):
            return Piece(text, lambda world, frame: world.order(is_commit, addressed(world)))
        orders.append([ordered(f"multiverse_{verb}()", lambda world: range(len(world.functions)))])
        orders.append([ordered(f"multiverse_{verb}_func({mark}{it.name})", lambda world, it=it: [world.functions.index(it)]) for it in functions for mark in ("", "&")])
        orders.append([
            ordered(f"multiverse_{verb}_refs(&{it.name})", lambda world, it=it: [n for n, f in enumerate(world.functions) if it in world.own(f)])
            for it in switches
        ])
    return orders


# ---- statements


def back(value):
    return Piece(f"return {value.text};", lambda world, frame: [value.act(world, frame)], value.names)


def store(name, value):
    def act(world, frame):
        world.memory[name] = value.act(world, frame)
    return Piece(f"{name} = {value.text};", act, value.names)


def test(condition, yes, no=None):
    text = f"if ({condition.text}) {yes.text}" + (f" else {no.text}" if no else "")
    def act(world, frame):
        chosen = yes if condition.act(world, frame) else no
        return chosen.act(world, frame) if chosen else None
    return Piece(text, act, names_of(condition, yes, *([no] if no else [])))


def cases(subject, arms, other):
    """Returns a `switch` with an arm for each of some values, each of which returns."""
    text = " ".join(f"case {value}: {arm.text}" for value, arm in arms.items())
    def act(world, frame):
        return arms.get(subject.act(world, frame), other).act(world, frame)
    return Piece(f"switch ({subject.text}) {{ {text} default: {other.text} }}", act, names_of(subject, other, *arms.values()))


def summed(turns, value):
    """Returns a loop that returns the sum of a value so many times, and of `a` each time one more."""
    def act(world, frame):
        total = 0
        for turn in range(turns):
            total = wrapped(total + value.act(world, frame) + turn)
        return [total]
    return Piece(f"int i, sum = 0; for (i = 0; i < {turns}; i++) sum += {value.text} + i; return sum;", act, value.names)


def shown(value):
    def act(world, frame):
        # (the value may show others before it)
        written = int(value.act(world, frame))
        world.out += f"{written} "
    return Piece(f"show({value.text});", act, value.names)


def done(value):
    """Returns a call as a statement."""
    def act(world, frame):
        value.act(world, frame)
    return Piece(f"{value.text};", act, value.names)


# ---- programs


class Draw:
    """Draws a program."""

    def __init__(self, seed):
        self.random = random.Random(seed)
        self.switches = []
        for place, (declared, domain, values) in enumerate(self.random.sample(KINDS, self.random.randint(2, 4))):
            self.switches.append(Switch(f"s{place}", declared, domain, values, self.random.choice(domain)))
        self.functions = []
        for place in range(self.random.randint(3, 5)):
            self.functions.append(self.function(f"f{place}"))
        valued = [it for it in self.functions if it.result == "int"]
        self.held = self.random.choice(valued) if valued else None
        self.helpers = [self.helper(f"h{place}") for place in range(2)]
        self.functions.append(self.caller(f"f{len(self.functions)}"))
        self.main = self.statements()
        polls = 1 + sum(it.text.count("multiverse_poll") for it in self.main)
        self.items = [(turn, self.random.choice(self.switches)) for turn in range(1, polls + 1) if self.random.random() < 0.7]
        self.items = [(turn, it.name, self.random.choice(it.values)) for turn, it in self.items] or [(1, "s0", self.switches[0].domain[0])]

    def expression(self, atoms, depth):
        if depth == 0 or self.random.random() < 0.2:
            return self.random.choice(atoms)
        x, y = (self.expression(atoms, depth - 1) for _ in range(2))
        if self.random.random() < 0.2:
            return choice(self.expression(atoms, depth - 1), x, y)
        return operation(self.random.choice(list(OPERATORS)), x, y)

    def atoms(self, switches):
        return [number(self.random.randint(-3, 9)), scalar("a"), scalar("g"), *(read(it) for it in switches), *(read(it) for it in switches)]

    def function(self, name):
        """Returns an attributed function of one of the forms that a variant has: inlined, called, with arms, with a loop, with calls."""
        used = self.random.sample(self.switches, self.random.randint(1, 2))
        subject, value = read(used[0]), self.expression(self.atoms(used), 2)
        earlier = [it for it in self.functions if it.result == "int"]
        forms = [
            ("int", [back(value)]),
            ("int", [test(subject, back(scalar("a"))), back(scalar("g"))]),
            ("int", [back(operation("*", subject, number(self.random.randint(2, 5))))]),
            ("int", [cases(subject, {it: back(self.expression(self.atoms(used), 1)) for it in used[0].domain}, back(number(77)))]),
            ("int", [summed(3, value)]),
            ("int", [back(scalar("a"))]),
            ("void", [test(subject, store("g", scalar("a")))]),
            ("void", [test(operation("==", subject, number(used[0].domain[-1])), store("g", value), store("h", scalar("a")))]),
        ]
        if earlier:
            forms.append(("int", [back(operation("+", call(self.random.choice(earlier), scalar("a")), value))]))
        return Function(name, True, *self.random.choice(forms))

    def orders(self):
        return all_orders(self.switches, self.functions)

    def helper(self, name):
        """Returns a function that isn't attributed: it makes an order, or calls an attributed function."""
        drawn = self.random.choice(self.functions)
        tail = [back(operation("+", read(self.random.choice(self.switches)), call(drawn, scalar("a"))))] if drawn.result == "int" else [done(call(drawn, scalar("a"))), back(scalar("g"))]
        order = self.random.choice(list(itertools.chain(*self.orders())))
        return Function(name, False, "int", [shown(order), *tail] if self.random.random() < 0.7 else tail)

    def caller(self, name):
        """Returns an attributed function under whose frame orders are made and polls."""
        within = [*itertools.chain(*self.orders()), poll(), call(self.helpers[0], number(2))]
        value = operation("+", self.random.choice(within), read(self.random.choice(self.switches)))
        return Function(name, True, "int", [test(scalar("a"), back(value)), back(poll())])

    def calls(self):
        argument = number(self.random.randint(0, 9))
        found = []
        for it in self.functions:
            found.append([shown(call(it, argument))] if it.result == "int" else [done(call(it, argument)), shown(scalar("g")), shown(scalar("h"))])
        if self.held:
            found.append([shown(call(self.held, argument, "pointer"))])
        return found + [[shown(call(it, argument))] for it in self.helpers]

    def statements(self):
        """Returns the body of `main`: each kind of order, polls, and between them stores in switches and calls."""
        steps = [shown(self.random.choice(kind)) for kind in self.orders()]
        steps += [shown(self.random.choice(self.orders()[0])) for _ in range(2)] + [shown(poll()) for _ in range(3)]
        self.random.shuffle(steps)
        body = []
        for step in steps:
            it = self.random.choice(self.switches)
            stored = self.random.choice(it.domain if self.random.random() < 0.8 else it.values)
            body += [store(it.name, number(stored))] if self.random.random() < 0.6 else []
            body.append(step)
            body += [each for calls in self.random.sample(self.calls(), 2) for each in calls]
        return body + [back(number(self.random.randint(0, 255)))]

    def text(self):
        lines = ["enum level { LOW, MIDDLE = 4, HIGH = 9 };"]
        lines += [f"{it.declared} {it.name} = {it.first};" for it in self.switches]
        lines += ["int g, h;", "void digits(int n) { if (n > 9) digits(n / 10); putchar('0' + n % 10); }"]
        lines += ["void show(int n) { if (n < 0) { putchar('-'); n = -n; } digits(n); putchar(' '); }"]
        lines += [it.text() for it in self.functions[:-1]]
        lines += [f"int (*pointer)(int) = {self.held.name};"] if self.held else []
        lines += [it.text() for it in [*self.helpers, self.functions[-1]]]
        return [*lines, "int main(void) {", *textwrap.wrap(" ".join(it.text for it in self.main), 140, initial_indent="    ", subsequent_indent="    "), "}"]

    def actions(self):
        """Returns the operator's actions, None for a skip."""
        flips = {turn: (name, value) for turn, name, value in self.items}
        return [flips.get(turn) for turn in range(1, max(flips) + 1)]

    def rows(self, place):
        """Returns the row of the program, and what it must give."""
        listed = ",".join(f"{turn}:{name}={value}" for turn, name, value in self.items)
        row = [f"{TITLE} {place}", f"run a.c --at {listed} --bindings --log !log", *(f"    {line}" for line in self.text())]
        world = World(self.switches, self.functions, self.actions())
        status = run_all(self.main, world, {})[0]
        wanted = [f"{TITLE} {place}", world.out]
        for number, binding in world.log:
            name = self.functions[number].name
            wanted.append(f"freed {name}" if binding is None else f"bound {name}{world.values(number, binding)}")
        for number, binding in enumerate(world.bindings):
            wanted.append(f"binding {self.functions[number].name}{' free' if binding is None else world.values(number, binding)}")
        return row, [*wanted, f"ended {status}", told(world.log)]


def told(log):
    """Returns the line of what two probes were told, of which one leaves at the first event."""
    events = [" ".join([str(function), *(["free"] if it is None else [str(value % 2**32) for value in it])]) for function, it in log]
    return f"{2 - bool(log)} left, {len(log)} events{':' * bool(log)}{','.join(f' {it}' for it in events)}"


def replace_rows(folder, title, name, lines):
    """Puts rows with a title at the end of a file, in the place of those with it that the file has."""
    file = os.path.join(folder, name)
    with open(file, encoding="utf-8") as it:
        sections = re.split(r"^(?=# )", it.read(), flags=re.M)
    kept = "".join(it for it in sections if not it.startswith(title))
    with open(file, "w", encoding="utf-8") as it:
        it.write(kept + "\n" * (not kept.endswith("\n")) + "\n".join(lines) + "\n")


def main():
    rows, wanted = [], []
    for place in range(1, PROGRAMS + 1):
        row, answer = Draw(place).rows(place)
        rows += row
        wanted += answer
    replace_rows(ROWS, TITLE, "stdin", rows)
    replace_rows(ROWS, TITLE, "stdout", wanted)


if __name__ == "__main__":
    main()
