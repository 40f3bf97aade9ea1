#!/usr/bin/env python3
"""Checks that every wrong program (crates/*/must-fail/*.edit, crates/*/wrong-programs/*.edit) still fits the file that it edits.

usage: tools/check_edits.py [CRATE[/LABEL]..]     all of them, if none is named
       tools/check_edits.py names [CRATE[/LABEL]..]

An edit fits if each of its files is there, each `old:` text stands in it exactly once, after the earlier pairs of the edit, and each `new:` text differs from
its `old:` text. With `names` it also tells each word of a `new:` text that the edited file has nowhere else: such a word must be in scope without an import
(a method, a field, a local that the text itself binds), or the edit cannot be read. It proves nothing: scripts/must-fail and `rt must-fail` try the edits.
The last line is 'N passed, M failed', and the exit status is 0 only if none failed.
"""
import glob
import os
import re
import sys

ROOT = os.path.realpath(os.path.join(os.path.dirname(os.path.abspath(__file__)), ".."))
WORD = re.compile(r"[^\W\d][\w'-]*")


def text_of(path):
    with open(path, encoding="utf-8") as file:
        return file.read()


def pairs_of(text):
    """The replacements (file, old, new) of an edit, as `rt` reads them."""
    file = old = None
    found = []
    for line in text.split("\n"):
        if line.startswith("file: "):
            file = line[len("file: "):].strip()
        elif line.startswith("old: "):
            old = line[len("old: "):]
        elif line.startswith("new:"):
            new = line[len("new:"):]
            found.append((file, old, new[1:] if new.startswith(" ") else new))
            old = None
    return found


def words_of(text, is_antt):
    return set(WORD.findall(re.sub(r"(?m)(^|\s)(--|//).*$" if is_antt else r"//.*$", "", text)))


def faults_of(path, names):
    """What keeps an edit from its files, and with `names` the words that only its new texts have."""
    folder = os.path.dirname(os.path.dirname(path))
    pairs = pairs_of(text_of(path))
    texts, faults = {}, []
    if not pairs:
        return ["it replaces nothing"]
    for file, old, new in pairs:
        if not file or not re.match(r"(src|specs|proofs)/", file):
            return ["it names no file below src/, specs/ or proofs/"]
        if file not in texts:
            if not os.path.isfile(os.path.join(folder, file)):
                return [f"no file {file}"]
            texts[file] = text_of(os.path.join(folder, file))
        if not old:
            return [f"a new text for {file} has no old text"]
        if old == new:
            faults.append(f"an old and a new text for {file} are the same: {old}")
        count = texts[file].count(old)
        if count != 1:
            faults.append(f"an old text stands in {file} {count} times: {old}")
            continue
        if names:
            is_antt = file.endswith(".antt")
            known = words_of(texts[file], is_antt)
            strange = [w for w in WORD.findall(new) if w not in known]
            if strange:
                faults.append(f"words that only the new text for {file} has: {' '.join(strange)}")
        texts[file] = texts[file].replace(old, new)
    return faults


def main():
    words = sys.argv[1:]
    names = words[:1] == ["names"]
    words = words[1:] if names else words
    passed = failed = 0
    for path in sorted(glob.glob(os.path.join(ROOT, "crates", "*", "*", "*.edit"))):
        crate, folder, label = os.path.relpath(path, os.path.join(ROOT, "crates")).split(os.sep)
        if folder not in ("must-fail", "wrong-programs") or words and crate not in words and f"{crate}/{label[:-len('.edit')]}" not in words:
            continue
        faults = faults_of(path, names)
        for fault in faults:
            print(f"{crate}/{folder}/{label}: {fault}")
        passed += not faults
        failed += bool(faults)
    print(f"{passed} passed, {failed} failed")
    return 0 if failed == 0 and passed else 1


if __name__ == "__main__":
    sys.exit(main())
