"""The sides of the comparison. Each is asked for its verdict on a model, and gives the steps of a shortest run, None if there is none, and
the time that it took."""
import os
import re

import spin
from subjects import MOST, RELEASE, ROOT
from timing import Time, often, run, run_often

COMMAND = os.path.join(RELEASE, "wirdoku-next")
PROMELA = os.path.join(ROOT, "bench", "promela")
# each solver on a file
SOLVERS = {"cadical": ["cadical", "-q"], "minisat": ["minisat", "-verb=0"], "picosat": ["picosat"]}
RUN, NO_RUN = 10, 20


class NoVerdict(Exception):
    """A side gave none."""


def found(done):
    """Whether there is a run, by the exit status that the command and the solvers have in common."""
    if done.status not in (RUN, NO_RUN):
        raise NoVerdict("exit status %d: %s" % (done.status, done.messages.decode().strip()))
    return done.status == RUN


def steps(done):
    """The steps of the run that the command tells of, or None."""
    if not found(done):
        return None
    told = re.search(rb"a run of (\d+) step", done.output)
    if not told:
        raise NoVerdict("the number of steps is not told: %s" % done.output.decode())
    return int(told.group(1))


def check(subject, solver):
    """The command, up to 64 steps, by the solver's word."""
    return checked(subject, solver, "--no-prove")


def proved(subject, solver):
    """The same, with a refutation that proved code checks."""
    return checked(subject, solver, "--prove")


def checked(subject, solver, proof):
    done, passed = run_often([COMMAND, "check"] + subject.files + ["--quiet", "--solver", solver, proof])
    return steps(done), passed


def in_order(subject, solver):
    """The bounds 0, 1, .. in order up to the first with a run, or 64: one list and one solver process each."""
    return often(bounds_in_order, [COMMAND, "check"] + subject.files + ["--quiet", "--no-prove", "--solver", solver, "--bound"])


def bounds_in_order(command):
    total = Time()
    for bound in range(MOST + 1):
        done, passed = run(command + [str(bound)])
        total += passed
        if found(done):
            return bound, total
    return None, total


def alone(subject, solver, folder):
    """The solver alone, on the last list that the bounds in order come to."""
    bound = MOST if subject.smallest is None else subject.smallest
    path = os.path.join(folder, "list.cnf")
    with open(path, "wb") as file:
        file.write(run([COMMAND, "dimacs"] + subject.files + ["--bound", str(bound)])[0].output)
    done, passed = run_often(SOLVERS[solver] + [path])
    return bound if found(done) else None, passed


def has_reach():
    """Whether the command has the search without a solver."""
    return b"wirdoku reach" in run([COMMAND, "--help"])[0].output


def reach(subject):
    """The command's search of all states, of any number of steps."""
    done, passed = run_often([COMMAND, "reach"] + subject.files + ["--quiet"])
    return steps(done), passed


def by_spin(subject, folder):
    """spin: the verdict, and the times of translation, spin -a, gcc -O2 and pan, and of gcc -O0."""
    translated, translation = spin.finished("promela", run_often([PROMELA] + subject.files))
    with open(os.path.join(folder, "model.pml"), "wb") as file:
        file.write(translated.output)
    generated = spin.generate("model.pml", folder, run_often)
    plain, compiled = [spin.compile_verifier(folder, optimise, run_often) for optimise in ("-O0", "-O2")]
    verdict, searched = spin.search(folder, run_often)
    return verdict, [translation, generated, compiled, searched], plain
