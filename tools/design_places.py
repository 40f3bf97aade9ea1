#!/usr/bin/env python3
"""Lists the places in crates/*/src that docs/DESIGN-PASS.md counts, point by point.

usage: tools/design_places.py [--root FOLDER] [--list] [POINT..]

Without --list it prints a row for each kind of place: point, kind, how many. With --list each place stands below it as FILE:LINE NAME.
The kinds are found by form alone, so a place may be one that stays for a reason; the page says which.
"""
import glob
import os
import re
import sys

HERE = os.path.realpath(os.path.join(os.path.dirname(os.path.abspath(__file__)), ".."))


def strip(text):
    """The code without comments, each line kept."""
    return re.sub(r"//[^\n]*", "", text)


def block(text, at):
    """The end of the braces that begin at or after `at`."""
    at = text.index("{", at)
    depth = 0
    for i in range(at, len(text)):
        if text[i] == "{":
            depth += 1
        elif text[i] == "}":
            depth -= 1
            if depth == 0:
                return at, i + 1
    return at, len(text)


def line_of(text, at):
    return text.count("\n", 0, at) + 1


class Function:
    def __init__(self, file, text, m):
        self.file, self.name = file, m.group("name")
        self.at = m.start("name")
        self.line = line_of(text, self.at)
        i = m.end()
        depth = 0
        while depth or text[i] != "{" or self.is_clause(text, i):
            c = text[i]
            if c in "({[":
                depth += 1
            elif c in ")}]":
                depth -= 1
            i += 1
        self.head = text[m.start():i]
        start, end = block(text, i)
        self.body = text[start:end]
        paren = self.head.index("(", self.head.index(self.name))
        d, j = 0, paren
        while True:
            if self.head[j] == "(":
                d += 1
            elif self.head[j] == ")":
                d -= 1
                if d == 0:
                    break
            j += 1
        self.params = self.head[paren + 1:j]
        self.clauses = self.head[j + 1:]

    @staticmethod
    def is_clause(text, i):
        return re.search(r"\b(requires|ensures)(\s+\w+)?\s*$", text[max(0, i - 60):i]) is not None


FN = re.compile(r"^[ ]*(?:pub(?:\([a-z]+\))? )?(?:final |const )?fn (?P<name>\w+)", re.M)


def functions(files):
    for file, text in files.items():
        for m in FN.finditer(text):
            if text.find("{", m.end()) < 0:
                continue
            try:
                yield Function(file, text, m)
            except (ValueError, IndexError):
                continue


def types(files, kind):
    for file, text in files.items():
        for m in re.finditer(r"^(?:pub(?:\([a-z]+\))? )?%s (\w+)[^;{]*\{" % kind, text, re.M):
            start, end = block(text, m.end() - 1)
            attrs = text[max(text.rfind("\n\n", 0, m.start()), 0):m.start()]
            yield file, line_of(text, m.start()), m.group(1), text[start + 1:end - 1], attrs


NOTHING = r"\b(OutOfRange|NotWellFormed|Nothing|NotABound|Malformed|NoFault|Absent)\b"
DONE = r"\b(Accepted|Written|Taken|Read|Composed|Ceiling|Totals|Counts|Steps|Bound|Refuted|Satisfiable|Value|At|Number|One)\b"


def enums_like_option(files):
    for file, line, name, body, _ in types(files, "enum"):
        variants = re.findall(r"^\s*(\w+)", re.sub(r"\{[^}]*\}|\([^)]*\)", "", body), re.M)
        text = " ".join(variants)
        if (re.search(NOTHING, text) and (re.search(DONE, text) or "NoFault" in text or "Malformed" in text)) or text in ("At Nothing",):
            yield file, line, name


def flag_with_value(files):
    for file, line, name, body, attrs in types(files, "struct"):
        fields = re.findall(r"^\s*(?:pub )?(\w+): ([^,]+(?:\[[^\]]*\])?),?$", body, re.M)
        if "repr(C)" in attrs:
            continue
        if len(fields) > 1 and any(t.strip() == "bool" and n in ("allowed", "ok", "found") or n in ("outcome", "fault", "number") for n, t in fields):
            yield file, line, name


def number_codes(files):
    for file, text in files.items():
        for m in re.finditer(r"\bnumber(?:\(\))? [!=]= 0|outcome\(\) == \d+|\bonly == [01]\b|\bg == 0 \{\s*return at", text):
            yield file, line_of(text, m.start()), m.group(0).split("\n")[0]


TOKEN = re.compile(r"[A-Za-z_]\w*|\d+|[^\s\w]")
KEEP = set("fn let mut if else for in while loop match return as true false pub self Self continue break".split())


def skeleton(body):
    names = {}
    out = []
    for t in TOKEN.findall(re.sub(r'b?"[^"]*"', "S", body)):
        if re.match(r"[A-Za-z_]", t) and t not in KEEP:
            t = "n%d" % names.setdefault(t, len(names))
        elif t.isdigit():
            t = "0"
        out.append(t)
    return tuple(out)


def twins(files):
    groups = {}
    for f in functions(files):
        s = skeleton(f.body)
        if len(s) >= 26 and not f.file.split("/")[1].endswith("_c"):
            groups.setdefault(s, []).append(f)
    for s, fs in groups.items():
        if len(fs) > 1:
            for f in fs:
                yield f.file, f.line, f.name + "  (of %d: %s)" % (len(fs), ", ".join(g.name for g in fs if g is not f)[:100])


def index_loops(files):
    for file, text in files.items():
        for m in re.finditer(r"(?:'\w+: )?\bfor (\w+) in [^\n{]*\.\.[^\n{]*\{", text):
            start, end = block(text, m.end() - 1)
            i = m.group(1)
            body = text[start:end]
            if re.search(r"\[[^\]]*\b%s\b[^\]]*\]" % i, body):
                yield file, line_of(text, m.start()), m.group(0).rstrip(" {")
        for m in re.finditer(r"\b(?:while [^\n{]*|loop) \{", text):
            start, end = block(text, m.end() - 1)
            yield file, line_of(text, m.start()), m.group(0).rstrip(" {")


def bool_matches(files):
    for file, text in files.items():
        for m in re.finditer(r"\bmatch [^\n{]+\{", text):
            start, end = block(text, m.end() - 1)
            body = re.sub(r"\s+", " ", text[start + 1:end - 1])
            results = re.findall(r"=> ?(true|false) ?,", body)
            arms = body.count("=>")
            if arms > 1 and len(results) == arms:
                yield file, line_of(text, m.start()), m.group(0).rstrip(" {")


def helpers_of_the_library(files):
    for f in functions(files):
        if f.name in ("smaller", "larger", "amount", "slot", "starts_with", "find", "is_digit", "head", "tail", "byte", "digits", "clear",
                      "first_wrong_byte", "place_of_true", "among", "mark", "members_true", "are_digits", "is_text", "all_within", "opposite"):
            yield f.file, f.line, f.name


def bare_derives(files):
    for kind in ("enum", "struct"):
        for file, line, name, body, attrs in types(files, kind):
            if "PartialEq" not in attrs and "repr(C)" not in attrs and "ghost " not in body and "'a" not in body:
                yield file, line, name


def makers(files):
    for f in functions(files):
        body = re.sub(r"\s+", " ", f.body)[1:-1].strip()
        m = re.match(r"(\w+) \{", body)
        if not m or not f.params or "self" in f.params or "(" in body or "." in body or ";" in body or body.count("{") != body.count("}"):
            continue
        if m.group(1)[0].isupper() and body.endswith("}"):
            yield f.file, f.line, f.name


def repeated_facts(files):
    where = {}
    for f in functions(files):
        for clause in re.findall(r"requires(?:\s+\w+)? \{(.*?)\}\s*(?=requires|ensures|$)", re.sub(r"\s+", " ", f.clauses)):
            for fact in clause.split(" × "):
                fact = fact.strip()
                if len(fact) > 6 and not fact.startswith("RoomFor") and not fact.startswith("Room "):
                    where.setdefault(re.sub(r"\b(\w+)\.(now|old)\b", r"\1", fact), []).append(f)
    for fact, fs in sorted(where.items(), key=lambda p: -len(p[1])):
        if len(fs) >= 3:
            for f in fs:
                yield f.file, f.line, f.name + "  " + fact[:60]


def travelling(files):
    for f in functions(files):
        p = f.params
        if ("GroupTable" in p and "Model" in p) or "first: &[u16]" in p or ("Totals" in p and "Model" in p):
            yield f.file, f.line, f.name


def length_beside(files):
    for file, line, name, body, attrs in types(files, "struct"):
        arrays = re.findall(r"(\w+): \[[^;\]]+; ([^\]]+)\]", body)
        if arrays and re.search(r"\b(count|groups): usize", body) and "repr(C)" not in attrs:
            yield file, line, name + "  (a length beside an array)"
        elif len([1 for n, k in arrays if [x for x, y in arrays].count(n) and [y for x, y in arrays].count(k) > 1]) > 1 and "repr(C)" not in attrs and name not in ("Edge", "State"):
            yield file, line, name + "  (parallel arrays)"
        elif len(re.findall(r":", body)) == 1 and "[" in body:
            yield file, line, name + "  (an array alone)"
        elif re.fullmatch(r"\s*pub \w+: \w+,\s*", body):
            yield file, line, name + "  (a value alone)"


def flags(files):
    for f in functions(files):
        if re.search(r"\b(?!negative|bare|ok)\w+: bool", f.params):
            yield f.file, f.line, f.name


KINDS = [
    ("1", "an enum of the shape of Option or Result", enums_like_option),
    ("1", "a flag, an outcome or a fault with a value beside it", flag_with_value),
    ("1", "a number that is tested for a kind or a refusal", number_codes),
    ("2", "functions whose bodies differ in names, types and constants alone", twins),
    ("3", "a loop over an index that reads by it, a while, a loop", index_loops),
    ("4", "a match whose arms are all true or false", bool_matches),
    ("4", "a function that the library has", helpers_of_the_library),
    ("4", "a type without derived equality and printing", bare_derives),
    ("4", "a function that only makes a record of its parameters", makers),
    ("5", "a fact in the requires of three or more functions, once for each", repeated_facts),
    ("5", "a function with a model and its table or totals, or with the table's arrays", travelling),
    ("6", "a struct with a length beside an array, parallel arrays, or one field alone", length_beside),
    ("7", "a function with a flag that says what to do", flags),
]


def main():
    args = sys.argv[1:]
    root = HERE
    listed = "--list" in args
    if "--root" in args:
        root = args[args.index("--root") + 1]
    points = [a for a in args if re.fullmatch(r"\d", a)]
    files = {}
    for path in sorted(glob.glob(os.path.join(root, "crates/*/src/**/*.rt"), recursive=True)):
        with open(path, encoding="utf-8") as f:
            files[os.path.relpath(path, root)] = strip(f.read())
    for point, kind, find in KINDS:
        if points and point not in points:
            continue
        found = list(find(files))
        print("%s  %4d  %s" % (point, len(found), kind))
        if listed:
            for file, line, name in found:
                print("         %s:%d %s" % (file[len("crates/"):], line, name))


main()
