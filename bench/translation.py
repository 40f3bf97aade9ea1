"""The translation of a model to Promela, the language of spin.

A location is a label of one process, counters and clocks are bytes. A delay and an edge are one d_step each, whose first statement is
the whole condition of the step, said of the values before it; so spin's steps are the model's. In the target an assertion fails, and a
breadth-first search of spin tells after how few steps.

A delay is a step of 1 to M ticks and not one of a single tick, for the sake of that number. Delay 0 changes nothing and is left out.
(Single ticks would reach the same states by more steps: the states before and after a delay meet the invariant, an atom holds on values
without a gap, since != is not allowed on clocks, and so each tick between them meets it too.)
"""
import operator

SIGN = {"=": "=="}
HOLDS = {"<": operator.lt, "<=": operator.le, "=": operator.eq, ">=": operator.ge, ">": operator.gt}
# the greatest value for which an atom holds, beside its constant
MOST = {"<": -1, "<=": 0, "=": 0}


def compared(value, atom):
    """The atom, said of an expression in place of its clock or counter."""
    return "%s%s%d" % (value, SIGN.get(atom.relation, atom.relation), atom.constant)


def step(conditions, effects):
    return "d_step { %s -> %s }" % (" && ".join(conditions) or "true", "; ".join(effects) or "skip")


def longest_delay(model, location):
    """The longest delay that the invariant can allow; without a clock a delay changes nothing."""
    most = [atom.constant + MOST[atom.relation] for atom in model.invariants[location] if atom.relation in MOST]
    return min([model.ceiling] + most) if model.clocks else 0


def delay(model, location, ticks):
    """No atom sees that a clock is cut at the ceiling, since every constant is below it."""
    conditions = [compared("%s+%d" % (atom.name, ticks), atom) for atom in model.invariants[location]]
    cut = "{0} = ({0}+{1}<{2} -> {0}+{1} : {2})"
    return step(conditions, [cut.format(clock, ticks, model.ceiling) for clock in model.clocks])


def new_values(edge):
    """Each counter's new value: a counter's value before the edge (None: nothing) and what is added to it. A source that is set
    earlier in the list is read after its update, a counter's own value before."""
    new = {}
    for update in edge.updates:
        base, number = new.get(update.source, (update.source, 0))
        new[update.counter] = (base, number + update.number)
    return new


def in_range(model, edge):
    """That every new counter value lies in its range; else the edge cannot be taken."""
    for counter, (base, number) in new_values(edge).items():
        greatest = model.counters[counter][0]
        if base:
            yield "%s%+d>=0" % (base, number)
            yield "%s%+d<=%d" % (base, number, greatest)
        elif not 0 <= number <= greatest:
            yield "false"


def conditions(model, edge):
    """Guard, ranges, and the invariant of the edge's target with the clocks set."""
    clock_after = {clock: source or "0" for clock, source in edge.clocks.items()}
    guard = [compared(atom.name, atom) for atom in edge.guard]
    invariant = [compared(clock_after.get(atom.name, atom.name), atom) for atom in model.invariants[edge.target]]
    return guard + list(in_range(model, edge)) + invariant


def saved(edge):
    """The clocks that are set before another is copied from them, with names for their old values: all copies read the values from
    before the edge."""
    early = {source for clock, source in edge.clocks.items() if source in edge.clocks and source < clock}
    return {clock: clock.replace("x", "old") for clock in sorted(early)}


def effects(edge):
    """Counters as the text sets them, one after the other; clocks rising. An old value is put back to 0, so that states do not differ
    in it."""
    old = saved(edge)
    yield from ("%s = %s" % (name, clock) for clock, name in old.items())
    for update in edge.updates:
        yield "%s = %s" % (update.counter, "%s%+d" % (update.source, update.number) if update.source else update.number)
    for clock, source in edge.clocks.items():
        yield "%s = %s" % (clock, "0" if source is None else old.get(source, source))
    yield from ("%s = 0" % name for name in old.values())


def options(model, location):
    """The steps from a location, each with the location after it and a comment."""
    for ticks in range(1, longest_delay(model, location) + 1):
        yield delay(model, location, ticks), location, "delay %d" % ticks
    for number, edge in enumerate(model.edges):
        if edge.source == location:
            yield step(conditions(model, edge), effects(edge)), edge.target, "edge %d" % number


def block(model, location):
    """The statement of a location."""
    if location == model.target:
        return "L%d:\tassert(false)" % location
    lines = ["\t:: %s; goto L%d\t/* %s */\n" % option for option in options(model, location)]
    return "L%d:\t%s" % (location, "if\n%s\tfi" % "".join(lines) if lines else "false")


def starts(model):
    """Whether the initial state, with every clock at 0, meets its invariant."""
    return all(HOLDS[atom.relation](0, atom.constant) for atom in model.invariants[model.initial])


def promela(model):
    """The Promela text. The process begins at its first statement, so the initial location stands first."""
    old = {name for edge in model.edges for name in saved(edge).values()}
    values = {counter: initial for counter, (_, initial) in model.counters.items()}
    values.update({name: 0 for name in model.clocks + sorted(old)})
    declared = "".join("byte %s = %d;\n" % pair for pair in values.items())
    order = sorted(range(len(model.invariants)), key=lambda location: location != model.initial)
    blocks = [block(model, location) for location in order] if starts(model) else ["\tfalse"]
    return "%sactive proctype model() {\n%s\n}\n" % (declared, ";\n".join(blocks))
