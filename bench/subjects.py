"""The models that are measured, with the verdict that is due: those of models/, the pairs of them that are composed, and those of
bench/models."""
import csv
import os
import subprocess
from dataclasses import dataclass

ROOT = os.path.dirname(os.path.dirname(os.path.abspath(__file__)))
RELEASE = os.path.join(ROOT, "rust-target", "release")
REFERENCE = os.path.join(RELEASE, "reference")
# The greatest bound of a list, and of the reference program's search.
MOST = 64
# folder, and its table of single models or of pairs
TABLES = [("models", "EXPECTED.tsv"), ("models", "PAIRS.tsv"), ("bench/models", "EXPECTED.tsv")]


class Refused(Exception):
    """A text, or two of them together, that the reader refuses."""


@dataclass
class Subject:
    name: str
    files: list
    # steps of a shortest run, or None if there is none of at most 64
    smallest: int


def subject(folder, row):
    names = [row[key] for key in ("name", "first", "second") if key in row]
    files = [os.path.join(ROOT, folder, name + ".txt") for name in names]
    return Subject(", ".join(names), files, None if row["smallest"] == "none" else int(row["smallest"]))


def subjects():
    """All of them, in the order of the tables."""
    for folder, table in TABLES:
        with open(os.path.join(ROOT, folder, table), encoding="utf-8") as lines:
            for row in csv.DictReader(lines, delimiter="\t"):
                yield subject(folder, row)


def text_of(files):
    """The text of one model, or of two composed, as the reference program accepts it."""
    if len(files) == 1:
        with open(files[0], "rb") as file:
            text = file.read()
        answer = subprocess.run([REFERENCE, "totals", "0"], input=text, capture_output=True, check=True).stdout
    else:
        answer = text = subprocess.run([REFERENCE, "compose"] + files, capture_output=True, check=True).stdout
    if answer.startswith(b"refusal="):
        raise Refused(answer.decode().replace("\n", " ").strip())
    return text
