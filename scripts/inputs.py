"""Worked inputs of the size program and of the cnf program: each refusal with its line, on both sides of its limit.

A case is a name, the five numbers that the size program prints (refusal, line, variables, clauses, words), and the input.
"""
from checks import content

A = content("models", "a.txt")
B = content("models", "logger_b.txt")

# A with one clock and two counters: its lines, to be changed one at a time.
WIDE = (
    b"locations=2 init=0 target=1 clocks=1 vars=2 var=3,1 var=31,0 inv=- inv=- edges=1"
    b" from=0 to=1 label=0 when=- set=- reset=-"
).split()


def wide(line, value):
    """The wide model with one line changed, after bound=1."""
    return b"bound=1\n" + b"".join(
        (value if i + 1 == line else text) + b"\n" for i, text in enumerate(WIDE)
    )


def two_counters(updates):
    """A with two counters of greatest value 1 and the updates of its edge."""
    return A.replace(b"vars=0\n", b"vars=2\nvar=1,0\nvar=1,0\n").replace(b"\nset=-\n", b"\nset=" + updates + b"\n")


def two_clocks(guard, items):
    """A with two clocks, and the guard and the reset items of its edge."""
    text = A.replace(b"clocks=0\n", b"clocks=2\n").replace(b"\nwhen=-\n", b"\nwhen=" + guard + b"\n")
    return text.replace(b"\nreset=-\n", b"\nreset=" + items + b"\n")


def looping(head, edges, update):
    """A text of a head and so many edges from location 0 to itself, each with one update."""
    edge = b"from=0 to=0 label=0 when=- set=%s reset=-" % update
    return b"".join(line + b"\n" for line in (head + b" edges=%d" % edges + (b" " + edge) * edges).split())


# A clock saved in another beside its reset, and two clocks exchanged.
SAVED = two_clocks(b"x0>=1", b"x0,x1:=x0")
EXCHANGED = two_clocks(b"-", b"x0:=x1,x1:=x0")

# B with the greatest label on each edge.
LABELLED = B.replace(b"label=0\n", b"label=15\n")

# Lists of as many words as the size program lends, and of one more.
MOST = looping(b"bound=57 locations=1 init=0 target=0 clocks=1 vars=1 var=1,0 inv=x0<=0", 7, b"v0:=31")
MORE = looping(b"bound=50 locations=3 init=0 target=0 clocks=1 vars=0 inv=x0<=1 inv=- inv=-", 6, b"-")


def refused(number, line=0, words=0):
    return (number, line, 0, 0, words)


CASES = [
    ("A at 0", (0, 0, 2, 4, 10), b"bound=0\n" + A),
    ("A at 1", (0, 0, 7, 16, 51), b"bound=1\n" + A),
    ("A at 2", (0, 0, 12, 28, 92), b"bound=2\n" + A),
    ("A at 64", (0, 0, 322, 772, 2634), b"bound=64\n" + A),
    ("A at 65", refused(21), b"bound=65\n" + A),
    ("A at 999", refused(21), b"bound=999\n" + A),
    ("B at 3", (0, 0, 68, 424, 1516), b"bound=3\n" + B),
    ("B at 34", refused(22, words=16396), b"bound=34\n" + B),
    ("16,384 words", (0, 0, 803, 5026, 16384), MOST),
    ("16,385 words", refused(22, words=16385), MORE),
    ("no input", refused(9), b""),
    ("bound line without LF", refused(9), b"bound=1"),
    ("bound=01", refused(9), b"bound=01\n" + A),
    ("bound=1000", refused(9), b"bound=1000\n" + A),
    ("no number", refused(9), b"bound=\n" + A),
    ("bound=64x", refused(9), b"bound=64x\n" + A),
    ("another key", refused(9), b"bounds=1\n" + A),
    ("bound line with CR", refused(9), b"bound=1\r\n" + A),
    ("bound 65 after a bad text", refused(2, 1), b"bound=65\n"),
    ("no text", refused(2, 1), b"bound=1\n"),
    ("no LF at the end", refused(2, 14), b"bound=1\n" + A[:-1]),
    ("the last line missing", refused(2, 14), b"bound=1\n" + A[: -len(b"reset=-\n")]),
    ("CR LF", refused(3, 1), b"bound=1\n" + A.replace(b"\n", b"\r\n")),
    ("a byte left", refused(8, 15), b"bound=1\n" + A + b"x"),
    ("an LF left", refused(8, 15), b"bound=1\n" + A + b"\n"),
    ("8,192 bytes", refused(8, 15), b"bound=1\n" + A + b"\n" * (8192 - len(A))),
    ("8,193 bytes", refused(1), b"bound=1\n" + A + b"\n" * (8193 - len(A))),
    ("100,000 bytes", refused(1), b"bound=1\n" + b"\0" * 100000),
    ("100,000 bytes, no bound line", refused(9), b"\xff" * 100000),
    ("wide model", (0, 0, 83, 1145, 3613), wide(0, b"")),
    ("another key in line 1", refused(2, 1), wide(1, b"location=2")),
    ("byte 0", refused(3, 1), wide(1, b"locations=\0")),
    ("byte 255", refused(3, 1), wide(1, b"locations=2\xff")),
    ("a leading zero", refused(3, 1), wide(1, b"locations=02")),
    ("no value", refused(3, 1), wide(1, b"locations=")),
    ("a hyphen for a number", refused(3, 1), wide(1, b"locations=-")),
    ("locations=1000", refused(3, 1), wide(1, b"locations=1000")),
    ("locations=999", refused(4, 1), wide(1, b"locations=999")),
    ("locations=17", refused(4, 1), wide(1, b"locations=17")),
    ("locations=0", refused(4, 1), wide(1, b"locations=0")),
    ("locations=16", refused(2, 10), wide(1, b"locations=16")),
    ("init=2", refused(5, 2), wide(2, b"init=2")),
    ("init=999", refused(5, 2), wide(2, b"init=999")),
    ("target=2", refused(5, 3), wide(3, b"target=2")),
    ("clocks=5", refused(4, 4), wide(4, b"clocks=5")),
    ("vars=5", refused(4, 5), wide(5, b"vars=5")),
    ("var=32,0", refused(4, 6), wide(6, b"var=32,0")),
    ("var=3,4", refused(4, 6), wide(6, b"var=3,4")),
    ("var=3", refused(3, 6), wide(6, b"var=3")),
    ("var=3,1,0", refused(3, 6), wide(6, b"var=3,1,0")),
    ("inv=x0<=30", refused(22, words=17014), wide(8, b"inv=x0<=30")),
    ("inv=x0<=31", refused(4, 8), wide(8, b"inv=x0<=31")),
    ("inv=x1<1", refused(5, 8), wide(8, b"inv=x1<1")),
    ("inv=x999<1", refused(5, 8), wide(8, b"inv=x999<1")),
    ("inv=x00<1", refused(3, 8), wide(8, b"inv=x00<1")),
    ("inv=x0!=1", refused(3, 8), wide(8, b"inv=x0!=1")),
    ("inv=v0<1", refused(3, 8), wide(8, b"inv=v0<1")),
    ("inv=x0<1,", refused(3, 8), wide(8, b"inv=x0<1,")),
    ("four atoms", (0, 0, 86, 1212, 3861), wide(8, b"inv=x0<1,x0<1,x0<1,x0<1")),
    ("five atoms", refused(7, 8), wide(8, b"inv=x0<1,x0<1,x0<1,x0<1,x0<1")),
    ("five atoms, one out of range", refused(7, 8), wide(8, b"inv=x7<31,x0<1,x0<1,x0<1,x0<1")),
    ("five atoms, one malformed", refused(3, 8), wide(8, b"inv=x0<1,x0<1,x0<1,x0<1,x0")),
    ("edges=33", refused(4, 10), wide(10, b"edges=33")),
    ("edges=32", refused(2, 17), wide(10, b"edges=32")),
    ("from=2", refused(5, 11), wide(11, b"from=2")),
    ("to=2", refused(5, 12), wide(12, b"to=2")),
    ("when=v9<40", refused(4, 14), wide(14, b"when=v9<40")),
    ("when=v9<4", refused(5, 14), wide(14, b"when=v9<4")),
    ("when=v0!=31", (0, 0, 83, 1145, 3613), wide(14, b"when=v0!=31")),
    ("when=v0<32", refused(4, 14), wide(14, b"when=v0<32")),
    ("when=x0>31", refused(4, 14), wide(14, b"when=x0>31")),
    ("set=v0:=3,v1:=v0-31", (0, 0, 83, 1114, 3484), wide(15, b"set=v0:=3,v1:=v0-31")),
    ("set=v0:=32", refused(4, 15), wide(15, b"set=v0:=32")),
    ("set=v0:=v0+32", refused(4, 15), wide(15, b"set=v0:=v0+32")),
    ("set=v0:=v0-0", refused(3, 15), wide(15, b"set=v0:=v0-0")),
    ("set=v0:=v9+0", refused(5, 15), wide(15, b"set=v0:=v9+0")),
    ("set=v1:=1,v0:=v9+0", refused(5, 15), wide(15, b"set=v1:=1,v0:=v9+0")),
    ("set=v1:=1,v0:=1", (0, 0, 83, 1111, 3475), wide(15, b"set=v1:=1,v0:=1")),
    ("set=v0:=v0+1,v1:=v0+0", (0, 0, 83, 1117, 3500), wide(15, b"set=v0:=v0+1,v1:=v0+0")),
    ("set=v1:=v0+0,v0:=v0+1", (0, 0, 83, 1117, 3500), wide(15, b"set=v1:=v0+0,v0:=v0+1")),
    ("set=v0:=1,v0:=2", refused(6, 15), wide(15, b"set=v0:=1,v0:=2")),
    ("set=v1:=1,v0:=1,v1:=0", refused(6, 15), wide(15, b"set=v1:=1,v0:=1,v1:=0")),
    ("set=v1:=1,v1:=v9+0", refused(5, 15), wide(15, b"set=v1:=1,v1:=v9+0")),
    ("two counters set twice and more, a number out of range", refused(4, 15), wide(15, b"set=v0:=1,v1:=1,v0:=1,v1:=1,v0:=32")),
    ("set=v1:=1,v0:=1,x", refused(3, 15), wide(15, b"set=v1:=1,v0:=1,x")),
    ("reset=x1", refused(5, 16), wide(16, b"reset=x1")),
    ("reset=x0,x0", refused(6, 16), wide(16, b"reset=x0,x0")),
    ("A with two counters, one raised and then copied", (0, 0, 15, 38, 126), b"bound=1\n" + two_counters(b"v0:=v0+1,v1:=v0+0")),
    ("A with two counters, one copied and then raised", (0, 0, 15, 38, 126), b"bound=1\n" + two_counters(b"v1:=v0+0,v0:=v0+1")),
    ("reset=-,x0", refused(3, 16), wide(16, b"reset=-,x0")),
    ("reset=x0:=x0", (0, 0, 83, 1145, 3613), wide(16, b"reset=x0:=x0")),
    ("reset=x0:=x1, one clock", refused(5, 16), wide(16, b"reset=x0:=x1")),
    ("reset=x0:=v0", refused(3, 16), wide(16, b"reset=x0:=v0")),
    ("a clock saved beside its reset, at 1", (0, 0, 20, 62, 215), b"bound=1\n" + SAVED),
    ("a clock saved beside its reset, at 2", (0, 0, 32, 110, 390), b"bound=2\n" + SAVED),
    ("two clocks exchanged", (0, 0, 15, 38, 127), b"bound=1\n" + EXCHANGED),
]
# A with two clocks and these reset items.
CASES += [("reset=" + items, numbers, b"bound=1\n" + two_clocks(b"-", items.encode())) for items, numbers in [
    ("x0:=x1", (0, 0, 15, 38, 127)),
    ("x0,x1:=x0", (0, 0, 15, 37, 122)),
    ("x1:=x0,x0", refused(6, 14)),
    ("x0:=x1,x0", refused(6, 14)),
    ("x0:=x2", refused(5, 14)),
    ("x2:=x0", refused(5, 14)),
    ("x1:=x0,x0:=x9", refused(5, 14)),
    ("x0:=x999", refused(5, 14)),
    ("x0:=x1000", refused(3, 14)),
    ("x0:=x1,", refused(3, 14)),
    ("x0:=0", refused(3, 14)),
    ("x0:=x1+0", refused(3, 14)),
    ("x0=x1", refused(3, 14)),
]]
# B with these lines in the place of line 14, the label of its first edge.
CASES += [("B, line 14: " + line, numbers, b"bound=3\n" + B.replace(b"label=0", line.encode(), 1)) for line, numbers in [
    ("label=15", (0, 0, 68, 424, 1516)),
    ("label=16", refused(4, 14)),
    ("label=999", refused(4, 14)),
    ("label=1000", refused(3, 14)),
    ("label=015", refused(3, 14)),
    ("label=-", refused(3, 14)),
    ("label=", refused(3, 14)),
    ("label=x1", refused(3, 14)),
    ("when=-", refused(2, 14)),
    ("Label=1", refused(2, 14)),
]]
CASES += [
    ("B, every label 15", (0, 0, 68, 424, 1516), b"bound=3\n" + LABELLED),
    ("B without its second label line", refused(2, 20), b"bound=3\n" + B.replace(b"to=2\nlabel=0\n", b"to=2\n")),
    ("B without label lines", refused(2, 14), b"bound=3\n" + B.replace(b"label=0\n", b"")),
]
