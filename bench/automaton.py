"""A model as its text says it, for the translation to Promela. The text must be one that the reader accepts (docs/FORMAT.md)."""
import re
from dataclasses import dataclass

ATOM = re.compile(r"([xv]\d+)(<=|>=|!=|<|>|=)(\d+)")
UPDATE = re.compile(r"(v\d+):=(?:(v\d+)([+-]\d+)|(\d+))")
EDGE_KEYS = ("from", "to", "label", "when", "set", "reset")


@dataclass
class Atom:
    """A clock or a counter, by its name in the text, compared with a constant."""

    name: str
    relation: str
    constant: int


@dataclass
class Update:
    """A counter that gets a constant (no source), or a counter plus an offset."""

    counter: str
    source: str
    number: int


@dataclass
class Edge:
    source: int
    target: int
    guard: list
    # counters' updates in their written order
    updates: list
    # clock that is set: clock copied from, or None for a reset
    clocks: dict


@dataclass
class Automaton:
    initial: int
    target: int
    clocks: list
    # counter: greatest value, initial value
    counters: dict
    # atoms of each location
    invariants: list
    edges: list

    @property
    def ceiling(self):
        """M: 1 plus the greatest constant that a clock is compared with, or 1."""
        atoms = sum(self.invariants + [edge.guard for edge in self.edges], [])
        return 1 + max((atom.constant for atom in atoms if atom.name in self.clocks), default=0)


def items(value):
    """The items of a line's value; a hyphen means none."""
    return [] if value == "-" else value.split(",")


def atom(item):
    name, relation, constant = ATOM.fullmatch(item).groups()
    return Atom(name, relation, int(constant))


def update(item):
    counter, source, offset, constant = UPDATE.fullmatch(item).groups()
    return Update(counter, source, int(constant or offset))


def clock_update(item):
    clock, _, source = item.partition(":=")
    return clock, source or None


def edge(values):
    source, target, _, when, updates, resets = values
    return Edge(
        int(source),
        int(target),
        [atom(item) for item in items(when)],
        [update(item) for item in items(updates)],
        dict(clock_update(item) for item in items(resets)),
    )


def read(text):
    """The automaton of an accepted text."""
    pairs = [line.split("=", 1) for line in text.decode().splitlines()]
    head = {key: value for key, value in pairs if key not in EDGE_KEYS}
    ranges = [tuple(map(int, value.split(","))) for key, value in pairs if key == "var"]
    lines = [value for key, value in pairs if key in EDGE_KEYS]
    return Automaton(
        int(head["init"]),
        int(head["target"]),
        ["x%d" % i for i in range(int(head["clocks"]))],
        {"v%d" % i: pair for i, pair in enumerate(ranges)},
        [[atom(item) for item in items(value)] for key, value in pairs if key == "inv"],
        [edge(lines[i : i + len(EDGE_KEYS)]) for i in range(0, len(lines), len(EDGE_KEYS))],
    )
