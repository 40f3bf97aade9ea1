"""Running a command, with the time that it takes."""
import resource
import statistics
import subprocess
import time
from dataclasses import dataclass

# What takes less time is done this often, and the medians are taken.
SHORT = 0.5
ROUNDS = 5


@dataclass
class Time:
    """Seconds: of the processor, in the command and all that it started, and as they pass."""

    processor: float = 0.0
    wall: float = 0.0

    def __add__(self, other):
        return Time(self.processor + other.processor, self.wall + other.wall)


@dataclass
class Done:
    status: int
    output: bytes
    messages: bytes


def spent():
    """The processor time of all commands that have ended."""
    usage = resource.getrusage(resource.RUSAGE_CHILDREN)
    return usage.ru_utime + usage.ru_stime


def run(command, folder=None):
    """Runs a command once; what it did, and its time."""
    before, begin = spent(), time.perf_counter()
    done = subprocess.run(command, cwd=folder, stdin=subprocess.DEVNULL, capture_output=True)
    passed = Time(spent() - before, time.perf_counter() - begin)
    return Done(done.returncode, done.stdout, done.stderr), passed


def often(work, *arguments):
    """Does what gives an answer and its time, if it is short several times; the last answer, and the medians of the times."""
    times = []
    while not times or (len(times) < ROUNDS and times[-1].wall < SHORT):
        answer, passed = work(*arguments)
        times.append(passed)
    return answer, Time(*(statistics.median(getattr(one, key) for one in times) for key in ("processor", "wall")))


def run_often(command, folder=None):
    """Runs a command, a short one several times."""
    return often(run, command, folder)
