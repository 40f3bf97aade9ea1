"""The crates of crates.txt: those that each one names, those that stand above some, and the wrong programs of each."""
import glob
import os

ROOT = os.path.realpath(os.path.join(os.path.dirname(os.path.abspath(__file__)), ".."))


def text_of(path):
    with open(path, encoding="utf-8") as file:
        return file.read()


def lines_of(text):
    """The lines of a crates.txt: a crate's name, what it is if it is no library or program, and the crates that it names."""
    for line in text.split("\n"):
        head, colon, deps = line.split("#")[0].partition(":")
        if colon:
            yield head.split()[0], head.split()[1:], deps.split()


def parsed(text):
    """The crates that a crates.txt lists, each with those that it names."""
    return {name: deps for name, _, deps in lines_of(text)}


LISTED = text_of(os.path.join(ROOT, "crates.txt"))
DEPENDENCIES = parsed(LISTED)
STATIC = {name for name, kinds, _ in lines_of(LISTED) if "staticlib" in kinds}


def folder_of(crate):
    return os.path.join(ROOT, "crates", crate)


def program_of(crate):
    """Where `rt run` and `rt ci` leave the program of a crate."""
    return os.path.join(folder_of(crate), "out", crate)


def with_those_below(names):
    """The named crates and every crate that one of them depends on, in the order of crates.txt."""
    found = set(names)
    size = -1
    while size != len(found):
        size = len(found)
        found |= {dep for crate in found for dep in DEPENDENCIES[crate] if dep in DEPENDENCIES}
    return [crate for crate in DEPENDENCIES if crate in found]


def with_those_above(names):
    """The named crates and every crate that depends on one of them, in the order of crates.txt."""
    found = set(names)
    size = -1
    while size != len(found):
        size = len(found)
        found |= {crate for crate, deps in DEPENDENCIES.items() if found & set(deps)}
    return [crate for crate in DEPENDENCIES if crate in found]


def edits_of(crate, folder):
    """The files of a crate's wrong programs in one of its folders, by label: 'must-fail' or 'wrong-programs'."""
    paths = sorted(glob.glob(os.path.join(folder_of(crate), folder, "*.edit")))
    return {os.path.basename(path)[: -len(".edit")]: path for path in paths}
