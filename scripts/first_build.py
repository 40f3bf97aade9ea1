"""The first build of the command as its user sees it (scripts/wirdoku), with stand-ins for rt and cargo; that of the next command
(next/wirdoku), and what it answers before."""
import os
import re
import shutil
import signal
import subprocess

from checks import check, content
from crates import text_of
from stand_ins import BELOW, until
from terminal import CTRL_C, Terminal

TOTAL = len(BELOW)
HELD = BELOW[5]
LINE = re.compile(r"\[(\d+)/(\d+)\] (\w+)(, proved before)?, (\d+ s|\d+m\d\ds) elapsed")
ENTRY = "proving the library and building the command, which takes minutes; log: "


def told(lines):
    """The crates of the lines that count them, each with whether it was proved before; the numbers must rise one by one."""
    rows = [row.groups() for row in map(LINE.fullmatch, lines) if row]
    check("the lines count to the crates that there are", [(str(n + 1), str(TOTAL)) for n in range(len(rows))], [row[:2] for row in rows])
    return [(row[2], row[3] is not None) for row in rows]


def without_build(copy):
    """What is answered at once, on a copy where nothing is built and neither rt nor cargo is on the path."""
    bare = dict(copy.env(), PATH=copy.path_without("rt", "cargo"))
    for words in ["--help"], ["help"], ["-h"], ["check", "--help"]:
        asked = copy.script("wirdoku", *words, folder="next")
        check("%s without a build" % words, (0, content("next/src/help.txt").decode(), ""), copy.run(asked, env=bare))
    said = "wirdoku: a command is missing\n`wirdoku --help` says how it is used\n"
    check("no command, without a build", (1, "", said), copy.run(copy.script("wirdoku", folder="next"), env=bare))
    check("nothing is written for that", False, os.path.exists(copy.root + "/rust-target"))
    said = "wirdoku: the Rattle toolchain (rt) is not on the path; README.md says where it comes from\n"
    for folder in "scripts", "next":
        check("no rt, %s/wirdoku" % folder, (6, "", said), copy.run(copy.script("wirdoku", "check", "m", folder=folder), env=bare))


def versions(copy):
    """The three lines of --version without a build: with and without rt, git, and changes."""
    number = re.search(r'^version = "(.*)"$', text_of(copy.root + "/next/Cargo.toml"), re.M).group(1)

    def lines(commit, toolchain="stand-in logic 0123456789abcdef"):
        return (0, "wirdoku %s\ncommit %s\ntoolchain %s\n" % (number, commit, toolchain), "")

    def git(*words):
        who = ["-c", "user.name=nobody", "-c", "user.email=nobody@localhost", "-c", "commit.gpgsign=false"]
        return subprocess.run(["git", "-C", copy.root] + who + list(words), check=True, capture_output=True).stdout.decode().strip()

    command = copy.script("wirdoku", "--version", folder="next")
    check("version outside git", lines("unknown"), copy.run(command))
    git("init", "--quiet")
    check("version before the first commit", lines("unknown"), copy.run(command))
    git("add", "--all")
    git("commit", "--quiet", "--message", "all")
    head = git("rev-parse", "HEAD")[:12]
    check("version of a commit", lines(head), copy.run(copy.script("wirdoku", "-V", folder="next")))
    check("version without rt", lines(head, "unknown"), copy.run(command, env=dict(copy.env(), PATH=copy.path_without("rt"))))
    with open(copy.root + "/next/src/main.rs", "a", encoding="utf-8") as file:
        file.write("\n")
    check("version with a change", lines(head + " (with changes)"), copy.run(command))
    inner = os.path.join(copy.root, "inner")
    shutil.copytree(os.path.join(copy.root, "next"), inner + "/next")
    check("version in a folder of another repository", lines("unknown"), copy.run(["sh", inner + "/next/version"]))


def plain(copy, script="scripts/wirdoku", source="tool/src/main.rs"):
    """A build without a terminal, then the command; afterwards only what has changed is built."""
    log = copy.root + "/rust-target/build.log"
    os.symlink(os.path.join(copy.root, script), copy.folder + "/linked")
    call = [copy.folder + "/linked", "check", "m"]
    ran = "check m in %s: text\n" % os.path.realpath(copy.folder)
    status, out, err = copy.run(call, cwd=copy.folder, data="text")
    lines = err.splitlines()
    check("the command is run after its build, through a link, in the caller's folder", (10, ran), (status, out))
    check("every crate is told once, as proved now", sorted((crate, False) for crate in BELOW), sorted(told(lines)))
    check("the log is named first", "wirdoku: " + ENTRY + log, lines[0])
    check("the last line", True, bool(re.fullmatch(r"wirdoku: built in \d+ s", lines[-1])))
    check("plain lines only, and no more", (len(lines), False), (TOTAL + 2, "\r" in err or "\x1b" in err))
    check("the log has what rt says", True, "%d of %d crates ok" % (TOTAL, TOTAL) in text_of(log))
    check("nothing is left", [], copy.left())
    check("the next call starts at once", (10, ran, ""), copy.run(call, cwd=copy.folder, data="text"))
    check("--version is the command's own once it is built", 10, copy.run(call[:1] + ["--version"])[0])
    os.utime(os.path.join(copy.root, source))
    status, _, err = copy.run(call)
    check("only the command is built again", (10, "wirdoku: building the command; log: " + log), (status, err.splitlines()[0]))
    check("rt was not asked again", ["all", "lib", "version"], copy.calls())


def held(copy, **more):
    """A build in a terminal that has come to a crate which takes long."""
    terminal = Terminal(copy.script("wirdoku", "check", "m"), copy.env(FAKE_HOLD=HELD, **more), "/")
    check("what is being done is shown", True, terminal.sees(rb"\r\x1b\[Kproving %s; \d+ s elapsed" % HELD.encode()))
    return terminal


def release(copy):
    with open(copy.fake + "/go", "w", encoding="utf-8"):
        pass


def in_terminal(copy):
    """A crate is told as it is proved, and not when those are that rt has begun with it; at the end the screen has whole lines only."""
    terminal = held(copy)
    check("a crate is told before its neighbour ends", True, terminal.sees(rb"\[5/%d\] %s, \d+ s elapsed" % (TOTAL, BELOW[4].encode())))
    os.utime(copy.root + "/tool/src/main.rs")
    release(copy)
    check("the command's status", 10, terminal.end())
    lines = terminal.lines()
    check("the crates on the screen", sorted(BELOW), sorted(crate for crate, _ in told(lines)))
    check("the screen has no more than the lines", TOTAL + 4, len(lines))
    status, _, err = copy.run(copy.script("wirdoku", "check", "m"))
    check("what has changed during a build is built again", (10, True), (status, err.startswith("wirdoku: building the command; ")))


def second_call(copy):
    """A second call says for whom it waits, and then finds all built."""
    files = [os.path.join(copy.folder, name) for name in ("first", "second")]
    first = copy.start(copy.script("wirdoku", "check", "m"), files[0], copy.env(FAKE_HOLD=HELD))
    check("the first call builds", True, until(lambda: "[5/" in text_of(files[0])))
    second = copy.start(copy.script("wirdoku", "check", "m"), files[1], copy.env())
    check("the second one waits", True, until(lambda: text_of(files[1]).endswith("build.log\n")))
    third = Terminal(copy.script("wirdoku", "check", "m"), copy.env(), "/")
    check("a third one waits too", True, third.sees(b"waiting for process %d, " % first.pid))
    third.press(CTRL_C)
    check("Ctrl-C ends the waiting", (130, None, None), (third.end(), first.poll(), second.poll()))
    release(copy)
    check("both run the command", [10, 10], [call.wait(60) for call in (first, second)])
    said = r"wirdoku: waiting for process %d, begun at \d\d:\d\d:\d\d, which is building; its log is .*/rust-target/build.log\n" % first.pid
    check("it says for whom", True, bool(re.fullmatch(said, text_of(files[1]))))
    check("rt was asked once", ["all", "lib", "version"], copy.calls())


def interrupted(copy):
    """After Ctrl-C nothing is left, and the next call goes on where this one stopped."""
    terminal = held(copy)
    check("there are processes to end", True, len(copy.processes()) > 3)
    terminal.press(CTRL_C)
    check("the status of an interrupted build", 130, terminal.end())
    check("it has ended all that it began", [], copy.processes())
    check("what it says", "wirdoku: stopped; the next call goes on from here", terminal.lines()[-2])
    check("nothing is left after Ctrl-C", [], copy.left())
    status, _, err = copy.run(copy.script("wirdoku", "check", "m"))
    before = [crate for crate, was_before in told(err.splitlines()) if was_before]
    check("the next call goes on", (10, sorted(BELOW[:5])), (status, sorted(before)))
    check("no lock is left", False, "waiting" in err)


def killed(copy, number):
    """The same for signals that a terminal does not send. A process that is killed outright can end nothing; its build ends itself."""
    call = copy.start(copy.script("wirdoku", "check", "m"), copy.folder + "/err", copy.env(FAKE_HOLD=HELD))
    check("the build has begun", True, until(lambda: "[5/" in text_of(copy.folder + "/err")))
    os.kill(call.pid, number)
    if number == signal.SIGKILL:
        check("no process is left of a killed build", True, until(lambda: not copy.processes()))
        call.wait()
    else:
        check("the status after signal %d" % number, 128 + number, call.wait(60))
        check("no process is left after signal %d" % number, [], copy.processes())
        check("nothing is left after signal %d" % number, [], copy.left())
    status, _, err = copy.run(copy.script("wirdoku", "check", "m"))
    check("the next call builds after signal %d" % number, (10, False), (status, "waiting" in err))
    check("nothing is left after that build", [], copy.left())


def failing(copy):
    """A build that fails shows the end of its log, its path, and what is not proved."""
    log = copy.root + "/rust-target/build.log"
    status, out, err = copy.run(copy.script("wirdoku", "check", "m"), env=copy.env(FAKE_FAIL=HELD))
    lines = err.splitlines()
    check("a build that fails", (6, "", "wirdoku: the whole log: " + log), (status, out, lines[-1]))
    check("the log's end", ["    %d of %d crates ok" % (TOTAL - 1, TOTAL)], lines[-2:-1])
    at = lines.index("wirdoku: could not be built; the log ends with:")
    check("no more than its end", 15, len(lines) - at - 2)
    check("the crate is told", True, any(re.fullmatch(HELD + r" is not proved, \d+ s elapsed", line) for line in lines[:at]))
    check("nothing is left of a build that fails", [], copy.left())
    status, out, err = copy.run(copy.script("build-tool"), env=copy.env(FAKE_CARGO_FAIL="yes"))
    check("a command that does not compile", (6, ["    error: could not compile `wirdoku`"]), (status, err.splitlines()[-2:-1]))
    check("nothing is left then", [], copy.left())
    check("and at last", 10, copy.run(copy.script("wirdoku", "check", "m"))[0])
