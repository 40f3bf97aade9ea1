"""What the scripts that check examples share: files and programs of the repository, and the count of what passed and failed."""
import os
import subprocess
import sys

from crates import ROOT, program_of

RELEASE = os.path.join(ROOT, "rust-target", "release")
REFERENCE = os.path.join(RELEASE, "reference")
COMMAND = os.path.join(RELEASE, "wirdoku")
NEXT = os.path.join(RELEASE, "wirdoku-next")
SIZE = program_of("size")
CNF = program_of("cnf")

passed = 0
failed = 0


def content(*path):
    """The bytes of a file, by its path from the top of the repository."""
    with open(os.path.join(ROOT, *path), "rb") as file:
        return file.read()


def printed(command, data=b""):
    """What a program writes when it is given an input; it must end with status 0."""
    return subprocess.run(command, input=data, capture_output=True, timeout=120, check=True).stdout


def values(output):
    """The lines KEY=VALUE of an output, as a dictionary."""
    return dict(line.split("=", 1) for line in output.decode().splitlines() if "=" in line)


def called_wirdoku(folder):
    """A folder for the path, made in this one, in which the next command is called as it will be."""
    programs = os.path.join(folder, "programs")
    os.mkdir(programs)
    os.symlink(NEXT, os.path.join(programs, "wirdoku"))
    return programs


def check(name, expected, found):
    global passed, failed
    if expected == found:
        passed += 1
    else:
        failed += 1
        print("FAILED: %s: expected %r, found %r" % (name, expected, found))


def finish(checks, *programs):
    """Runs the checks, if the programs that they ask are built, and ends. The last line is 'N passed, M failed'."""
    missing = [os.path.relpath(program, ROOT) for program in programs if not os.path.exists(program)]
    if missing:
        check("programs that are not built", [], missing)
    else:
        checks()
    print("%d passed, %d failed" % (passed, failed))
    sys.exit(1 if failed else 0)
