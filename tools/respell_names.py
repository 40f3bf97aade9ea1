#!/usr/bin/env python3
"""Brings the repository's own definitions and lemmas to today's spelling: snake case, an apostrophe for a prime.

usage: tools/respell_names.py          in the repository, once, after port.py: respells crates/ by tools/respelled.tsv
       tools/respell_names.py table    prints the rows of such a table for the names that crates/ declares outside `where`, as a start of tools/respelled.tsv

A definition in camel case and a lemma with a dash are written with '_'. Where a lemma would then have the name of a definition or of another lemma, it gets
'_lem'. Names of functions, exported names and strings stay, since the table has only names that specs/ and proofs/ declare.
"""
import collections
import os
import re
import sys

TABLE = os.path.join(os.path.dirname(os.path.abspath(__file__)), "respelled.tsv")
TOKEN = re.compile(r"[^\s(){}\[\];:.,@\"«»|`=]+|=")
DECLARED = re.compile(r"^(\s{0,4})(?:(?:abbrev|unfoldable)\s+)?(?:pub\s+)?(?:(?:data|record)\s+)?([^\s(){}\[\];:.,@\"=]+)(?:\s+[({].*)?\s*:(?: |$)")
# Lemmas that were in snake case already, or that port.py turned, and that stand in one file with a definition of the new spelling.
SAME = "all_named counter_at no_gap pairs_of read_back read_told sum_below".split()


def files(*ends):
    for folder, folders, names in os.walk("crates"):
        folders[:] = sorted(f for f in folders if f != "out")
        for name in sorted(names):
            if name.endswith(ends):
                yield os.path.join(folder, name)


def of_a_function(path):
    parts = path.split("/")
    return parts[2] == "proofs" and len(parts) > 4 and parts[-1] in ("Proof.antt", "Answers.antt", "Invariants.antt")


def declared():
    found = collections.OrderedDict()
    for path in files(".antt"):
        if of_a_function(path):
            continue
        with open(path, encoding="utf-8") as f:
            for line in f:
                m = DECLARED.match(line)
                if m and not line.strip().startswith(("--", "use", "pub use")):
                    found[m.group(2)] = True
    return found


def snake(name):
    return re.sub(r"(?<=[a-z0-9])([A-Z])", lambda m: "_" + m.group(1).lower(), name).replace("-", "_").replace("′", "'")


def imported():
    """The names that some file brings in, the library's among them."""
    found = set()
    for path in files(".antt", ".rt"):
        with open(path, encoding="utf-8") as f:
            for names in re.findall(r"(?m)^\s*(?:pub |ghost )?use [^{\n]*\{([^}]*)\}", f.read()):
                found |= {n.strip().split(" as ")[-1] for n in names.split(",")}
    return found


def make_table():
    names = declared()
    new = {}
    taken = {n for n in names if snake(n) == n} | imported()
    for n in names:
        if "-" not in n and re.match(r"[a-z][^-]*[A-Z]", n):
            new[n] = snake(n)
            taken.add(new[n])
    for n in names:
        if "-" in n:
            new[n] = snake(n) + ("_lem" if snake(n) in taken else "")
            if new[n] in taken:
                raise SystemExit(f"{n}: {new[n]} is taken")
            taken.add(new[n])
    for n in SAME:
        new[n] = n + "_lem"
    for a, b in sorted(new.items()):
        print(f"{a}\t{b}")


def respell_line(line, table, is_antt):
    mark = "--" if is_antt else "//"
    code, comment = line, ""
    at = line.find(mark)
    if at >= 0 and (at == 0 or line[at - 1].isspace()):
        code, comment = line[:at], line[at:]
    opens = code.find("{") if re.match(r"\s*(pub use|use|ghost use) ", code) else 0

    def turn(m):
        t = m.group(0)
        if t not in table or (opens > 0 and m.start() < opens) or (opens < 0):
            return t
        before = code[m.start() - 1] if m.start() else ""
        if t in SAME and (before == "." or not is_antt):
            return t
        return table[t]

    code = TOKEN.sub(turn, code)
    # in a comment only what stands in quotes is a name for sure, and what is in camel case or has a dash
    comment = re.sub(r"`([^`\s]+)`", lambda m: "`" + (m.group(1) if m.group(1) in SAME else table.get(m.group(1), m.group(1))) + "`", comment)
    comment = re.sub(r"(?<![\w.-])[a-z]+[A-Z]\w*(?![\w-])", lambda m: table.get(m.group(0), m.group(0)), comment)
    return code + comment


def respell():
    with open(TABLE, encoding="utf-8") as f:
        table = dict(line.rstrip("\n").split("\t") for line in f)
    for path in files(".antt", ".rt", ".edit"):
        with open(path, encoding="utf-8") as f:
            old = f.read()
        is_antt = path.endswith(".antt") or (path.endswith(".edit") and re.search(r"(?m)^file: .*\.antt$", old) is not None)
        out = []
        for line in old.split("\n"):
            if path.endswith(".edit") and not line.startswith(("old: ", "new: ")):
                out.append(line)
            else:
                out.append(respell_line(line, table, is_antt))
        new = "\n".join(out)
        if new != old:
            with open(path, "w", encoding="utf-8") as f:
                f.write(new)


if __name__ == "__main__":
    make_table() if sys.argv[1:] == ["table"] else respell()
