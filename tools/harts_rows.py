#!/usr/bin/env python3
"""Schedules by their numbers, and programs of several harts with what they do by the rules of docs/harts.md: the rows `# turns of ..` and `# harts program N` of
crates/mv_test_harts.

  harts_rows.py     writes these rows anew, at the end of stdin and stdout

A schedule is worked out here turn for turn, by the rule for its number. The programs are drawn from a seed, with the switches, functions and orders of tools/patching_rows.py. Hart 0
makes all six orders, also below live frames, and polls. Each other hart waits for commits, with switches of its own, and orders that are refused there; some end before the last
commit, and some wait for one more than there is. What a hart writes depends on the commits and not on the schedule, so it is worked out by a model that knows no turns: the hart adopts
the commits one after the other. Each program is run by words of `mvharts`, and once more by a schedule that is drawn, with an operator.
"""
import os
import sys

sys.dont_write_bytecode = True
from patching_rows import Draw, Piece, World, back, number, replace_rows, run_all, shown, store

ROWS = os.path.join(os.path.dirname(os.path.dirname(os.path.realpath(__file__))), "crates", "mv_test_harts")
SCHEDULES = "# turns of"
# How many harts, the number of a schedule, and of how many turns: from few to as many as the harts need to come to their ends.
SCHEDULED = [(2, 12345, range(10, 81, 10)), (3, 4294967295, range(1, 121, 7)), (4, 0, range(20, 161, 20))]
ENDING = "int main(void){ putchar(getchar()); return 1; }"
TITLE = "# harts program"
PROGRAMS = 16
ORACLES = ["", " !oracle fresh", " !oracle table"]
# Turns enough for each hart to come to its end, or to the poll at which it goes on for ever: of all harts together, and of each.
TURNS, TURNS_OF_EACH = 200_000, 50_000


class GoesOn(Exception):
    """A hart waits for a commit that never comes."""


class Leader(World):
    """What hart 0 comes to, with its flips, and the bindings behind each of its commits and reverts."""

    def __init__(self, switches, functions, actions):
        super().__init__(switches, functions, actions)
        self.flips, self.commits = [], []

    def order(self, is_commit, addressed):
        answer = super().order(is_commit, addressed)
        if not self.live:
            self.commits.append(list(self.bindings))
        return answer

    def poll(self):
        coming = self.actions[:1]
        answer = super().poll()
        self.flips += coming if answer else []
        return answer


class Other(World):
    """What another hart comes to, which adopts commits."""

    def __init__(self, switches, functions, commits):
        super().__init__(switches, functions, [])
        self.commits, self.adopted = commits, 0

    def order(self, is_commit, addressed):
        return -1

    def adopt(self):
        if self.adopted == len(self.commits):
            raise GoesOn
        self.bindings = self.commits[self.adopted]
        self.adopted += 1


def adoption():
    """Returns the statement that waits for a commit."""
    return Piece("while (!multiverse_poll()) ;", lambda world, frame: world.adopt())


def word(value):
    return value % 2**32


class Harts(Draw):
    """Draws a program of several harts: `bodies` has what each does, hart 0 first."""

    def __init__(self, seed):
        super().__init__(seed)
        commits = self.led([])[0].commits
        self.count = self.random.randint(2, 4)
        self.bodies = [self.main, *(self.adopting(len(commits)) for _ in range(self.count - 1))]

    def adopting(self, commits):
        """Returns what another hart does: it waits for about as many commits as there are, and calls functions between them."""
        body = list(self.random.choice(self.calls()))
        for _ in range(commits + self.random.choice([0, 0, 0, 1, -2])):
            it = self.random.choice(self.switches)
            body += [store(it.name, number(self.random.choice(it.values)))] if self.random.random() < 0.4 else []
            body += [adoption(), *self.random.choice(self.calls())]
            body += [shown(self.random.choice(self.orders()[0]))] if self.random.random() < 0.2 else []
        return body + [back(number(self.random.randint(0, 255)))]

    def text(self):
        lines = super().text()
        start = lines.index("int main(void) {")
        whole = lines[:start]
        for place, body in enumerate(self.bodies):
            whole += [f"int hart{place}(void) {{", *(f"    {it.text}" for it in body), "}"]
        choice = " ".join(f"if (hart == '{place}') return hart{place}();" for place in range(self.count))
        return [*whole, f"int main(void) {{ int hart = getchar(); {choice} return 0; }}"]

    def led(self, actions):
        """Returns what hart 0 comes to with these actions of the operator, and how it stands."""
        leader = Leader(self.switches, self.functions, actions)
        return leader, f"ended {run_all(self.main, leader, {})[0]}"

    def ends(self, actions):
        """Returns for each hart its lines, and what its polls took but skips; and what each commit left."""
        leader, stop = self.led(actions)
        places = [it.name for it in self.switches]
        yield [f"hart 0 {stop} bytes {len(leader.out)}", leader.out], [f"hart 0 flips {places.index(name)}={word(value)}" for name, value in leader.flips]
        for hart, body in enumerate(self.bodies[1:], 1):
            world = Other(self.switches, self.functions, leader.commits)
            try:
                stop = f"ended {run_all(body, world, {})[0]}"
            except GoesOn:
                stop = "going"
            yield [f"hart {hart} {stop} bytes {len(world.out)}", world.out], [f"hart {hart} adopts {it}" for it in range(world.adopted)]
        for bindings in leader.commits:
            left = ("free" if it is None else " ".join(str(word(value)) for value in it) for it in bindings)
            yield [], ["commit" + "".join(f" {it};" if it else ";" for it in left)]

    def schedule(self):
        """Returns a schedule of parts in which some of the harts have turns, and then all have enough."""
        harts = [str(it) for it in range(self.count)]
        parts = []
        for _ in range(self.random.randint(10, 30)):
            having = self.random.sample(harts, self.random.randint(1, self.count))
            parts.append(f"{''.join(having)}*{self.random.choice([1, 2, 9, 70, 500])}")
        self.random.shuffle(harts)
        return ",".join([*parts, f"{''.join(harts)}*{TURNS_OF_EACH}"])

    def rows(self, place):
        turn, name, value = self.items[0]
        inputs = " ".join(str(hart) for hart in range(self.count))
        row = [f"{TITLE} {place}", f"    {' '.join(self.text())}", f"mvharts a.c {self.count} {place} {TURNS}"]
        row.append(f"harts {self.schedule()} !in {inputs} !at {turn - 1}:{name}={value}{ORACLES[place % 3]}")
        wanted = [f"{TITLE} {place}", *(line for lines, _ in self.ends([]) for line in lines), "done"]
        return row, [*wanted, *(line for lines, more in self.ends([None] * (turn - 1) + [(name, value)]) for line in lines + more)]


def schedule(count, number, turns):
    """Returns whose turn each is, by the rule for the number of a schedule."""
    drawn = number
    for _ in range(turns):
        drawn = (1664525 * drawn + 1013904223) % 2**32
        yield str(drawn // 65536 % count)


def scheduled(count, number, lengths):
    """Returns rows that compare `mvharts` with the harts by the schedule of its number, whose last turns decide which hart has ended."""
    inputs = " ".join(str(hart) for hart in range(count))
    row = [f"{SCHEDULES} {count} harts by {number}", f"    {ENDING}"]
    row += [f"turns a.c {count} {number} {turns} by {''.join(schedule(count, number, turns))} !in {inputs}" for turns in lengths]
    return row, [row[0], *("same" for _ in lengths)]


def write(title, sections):
    """Puts rows with a title, and what they must give, in the place of those that there are."""
    sections = list(sections)
    for name, lines in zip(("stdin", "stdout"), zip(*sections)):
        replace_rows(ROWS, title, name, [line for section in lines for line in section])


def main():
    write(SCHEDULES, (scheduled(*it) for it in SCHEDULED))
    write(TITLE, (Harts(place).rows(place) for place in range(1, PROGRAMS + 1)))


if __name__ == "__main__":
    main()
