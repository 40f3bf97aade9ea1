"""spin's verdict on a Promela text: whether its assertion can fail, and after how many steps at the least."""
import os
import re
from dataclasses import dataclass

import timing

# Breadth-first, whole states kept, no cycles; with one process there is nothing to reduce.
DEFINED = ["-DBFS", "-DSAFETY", "-DNOREDUCE"]
# A state without a step is no error; no list of statements that are not reached; a hash table of 2 MB, which grows.
OPTIONS = ["-E", "-n", "-w18"]


class Failed(Exception):
    """spin, gcc or pan gave no verdict."""


@dataclass
class Verdict:
    # steps of a shortest path to the failing assertion, or None if there is none of any length
    steps: int
    states: int


def generate(path, folder, run=timing.run):
    """Makes the verifier's source of a Promela file in a folder; the time of spin."""
    return finished("spin", run(["spin", "-a", path], folder))[1]


def compile_verifier(folder, optimise="-O2", run=timing.run):
    """Compiles the verifier; the time of gcc."""
    return finished("gcc", run(["gcc", optimise, "-w"] + DEFINED + ["-o", "pan", "pan.c"], folder))[1]


def search(folder, run=timing.run):
    """Runs the verifier; its verdict and its time."""
    done, passed = finished("pan", run([os.path.join(folder, "pan")] + OPTIONS, folder))
    return verdict(done.output.decode()), passed


def finished(name, answer):
    """What a program did, and its time, if it ended well."""
    done = answer[0]
    if done.status != 0:
        raise Failed("%s: exit status %d: %s" % (name, done.status, (done.output + done.messages).decode().strip()))
    return answer


def verdict(output):
    """The verdict in what pan prints. Without the failed assertion it counts only if the search is complete."""
    states = re.search(r"(\d+) states, stored", output)
    failed = re.search(r"assertion violated 0 \(at depth (\d+)\)", output)
    complete = "errors: 0" in output and "not completed" not in output
    if not states or not (failed or complete):
        raise Failed("pan: no verdict: " + output.strip())
    return Verdict(int(failed.group(1)) if failed else None, int(states.group(1)))
