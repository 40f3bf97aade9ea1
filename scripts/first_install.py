"""The installed command and library: scripts/install with what is built. The next command's manual page and completion (next/share) against
its help text."""
import os
import re
import shutil
import subprocess

from checks import NEXT, called_wirdoku, check, content
from crates import ROOT
from terminal import CTRL_A, Terminal

FILES = [
    "bin/wirdoku",
    "include/wirdoku.h",
    "lib/libwirdoku.a",
    "lib/pkgconfig/wirdoku.pc",
]
PAGE, COMPLETION = [os.path.join(ROOT, "next", "share", name) for name in ("wirdoku.1", "wirdoku.bash")]
SOLVERS = ["cadical", "minisat", "picosat"]
HELP = content("next/src/help.txt").decode()
# a usage line of the help text, which may go on in a line that is set in: the command's name, and what may follow
USAGE = re.findall(r"^  wirdoku (\w+) (.*)$", re.sub(r"\n {16}(?=\[)", " ", HELP), re.M)
VERSION, NEXT_VERSION = [
    re.search(r'^version = "(.*)"$', content(folder + "/Cargo.toml").decode(), re.M).group(1) for folder in ("tool", "next")
]


def run(*command, cwd="/", **more):
    """Status, output and standard error."""
    env = {name: value for name, value in os.environ.items() if name not in ("DESTDIR", "MANPATH", "COLUMNS")}
    done = subprocess.run(command, cwd=cwd, env={**env, **more}, capture_output=True, timeout=120, encoding="utf-8")
    return done.returncode, done.stdout, done.stderr


def script(name, *words, **more):
    return run("sh", os.path.join(ROOT, "scripts", name), *words, **more)


def files_below(folder):
    found = (os.path.join(above, name) for above, _, names in os.walk(folder) for name in names)
    return sorted(os.path.relpath(path, folder) for path in found)


def installed(prefix):
    said = "".join("%s %s/%s\n" % ("installed", prefix, name) for name in FILES)
    status, out, err = script("install", "--prefix", prefix)
    check("installation", (0, sorted(said.splitlines()), ""), (status, sorted(out.splitlines()), err))
    check("the files that are installed", FILES, files_below(prefix))
    command = prefix + "/bin/wirdoku"
    status, out, err = run(command, "check", os.path.join(ROOT, "models", "logger_b.txt"), "--quiet")
    check("the installed command", (10, "a run of 3 steps reaches the target", ""), (status, out.partition("\n")[0], err))
    check("its version", (0, "wirdoku %s\n" % VERSION, ""), run(command, "--version"))
    check("the next command's version", run("sh", os.path.join(ROOT, "next", "version")), run(NEXT, "--version"))
    check("the next command's help", (0, HELP, ""), run(NEXT, "--help"))


def for_c(prefix):
    """A program of one line, compiled by what pkg-config says."""
    path = prefix + "/lib/pkgconfig"
    check("version by pkg-config", (0, VERSION + "\n", ""), run("pkg-config", "--modversion", "wirdoku", PKG_CONFIG_PATH=path))
    status, flags, err = run("pkg-config", "--cflags", "--libs", "wirdoku", PKG_CONFIG_PATH=path)
    check("flags by pkg-config", (0, ["-I%s/include" % prefix, "-L%s/lib" % prefix, "-lwirdoku"], ""), (status, flags.split(), err))
    source = prefix + "/one.c"
    with open(source, "w", encoding="utf-8") as file:
        file.write("#include <wirdoku.h>\nint main(void) { return wirdoku_read(0, 0).number; }\n")
    check("a program in C is compiled", (0, "", ""), run("cc", "-o", prefix + "/one", source, *flags.split()))
    # an empty text has no first line (2)
    check("and runs", (2, "", ""), run(prefix + "/one"))
    os.remove(source)
    os.remove(prefix + "/one")


def removed(prefix):
    """Another file in the same folder stays; a second removal finds nothing."""
    with open(prefix + "/bin/other", "w", encoding="utf-8"):
        pass
    status, out, err = script("install", "--uninstall", "--prefix=" + prefix)
    check("removal", (0, len(FILES), ""), (status, len(out.splitlines()), err))
    check("what is left", ["bin/other"], files_below(prefix))
    check("a second removal", (0, "", ""), script("install", "--uninstall", "--prefix", prefix))


def other_calls(folder):
    prefix, stage = folder + "/later", folder + "/stage"
    check("installation with DESTDIR", 0, script("install", "--prefix", prefix, DESTDIR=stage)[0])
    check("its files", (FILES, []), (files_below(stage + prefix), files_below(prefix)))
    with open(stage + prefix + "/lib/pkgconfig/wirdoku.pc", encoding="utf-8") as file:
        check("its folder for pkg-config", "prefix=%s\n" % prefix, file.readline())
    check("installation below the caller's folder", 0, script("install", "--prefix", "own", cwd=folder)[0])
    check("its files", FILES, files_below(folder + "/own"))
    said = "install: files cannot be written below /dev/null/x: try as another user, or another folder by --prefix\n"
    check("a folder that cannot be", (1, "", said), script("install", "--prefix", "/dev/null/x"))
    said = "install: `cargo` is not expected; --help says how it is used\n"
    check("a word that is not expected", (1, "", said), script("install", "cargo"))
    check("no folder", (1, "", "install: --prefix needs a folder\n"), script("install", "--prefix"))
    status, out, err = script("install", "--help")
    check("help of the installation", (0, [], ""), (status, [name for name in FILES if name not in out], err))


def manual(page):
    """The page is well formed and has every usage line, option and exit status of the help text."""
    check("the page has no warnings", (0, "", ""), run("groff", "-man", "-Tutf8", "-ww", "-z", page))
    check("nor does man find any", "", run("man", "--warnings", "-l", page, MANWIDTH="80")[2])
    status, out, _ = run("man", "--no-hyphenation", "-l", page, MANWIDTH="300")
    # groff may write other signs for these two
    lines = [" ".join(line.split()).replace("\u2019", "'").replace("\u2010", "-") for line in out.splitlines()]
    check("the page is shown", (0, True), (status, lines[0].startswith("WIRDOKU(1)")))
    check("the page's version", True, "wirdoku " + NEXT_VERSION in out)
    for name, rest in USAGE:
        check("usage of %s on the page" % name, True, "wirdoku %s %s" % (name, rest) in lines)
        check("command %s on the page" % name, True, any(line == name or line.startswith(name + " ") for line in lines))
    for option in sorted(set(re.findall(r"--[a-z-]+", HELP))):
        check("option %s on the page" % option, True, any(re.match(option + r"\b", line) for line in lines) or option == "--help")
    whole = " ".join(lines).lower()
    for status, meaning in re.findall(r"^  (\d+) +(\D.*(?:\n {6}.*)*)", HELP, re.M):
        check("exit status %s on the page" % status, True, "%s %s." % (status, " ".join(meaning.split()).lower()) in whole)


def examples(folder):
    """The page's examples, each in a copy of the shipped models, find a run or draw one."""
    with open(PAGE, encoding="utf-8") as file:
        blocks = re.findall(r"^\.EX\n(.*?)^\.EE$", file.read(), re.M | re.S)
    check("the page has examples", True, len(blocks) >= 4)
    path = called_wirdoku(folder) + os.pathsep + os.environ["PATH"]
    for block in blocks:
        models = folder + "/examples"
        shutil.copytree(os.path.join(ROOT, "models"), models)
        status, out, _ = run("sh", "-c", block.replace("\\-", "-"), cwd=models, PATH=path)
        check("example %r" % block, (10, True), (status, out.startswith("a run of ") or out == ""))
        shutil.rmtree(models)


def completed(script_file, *words):
    """What the completion offers for the last word."""
    code = 'source "$1"; shift; COMP_WORDS=("$@"); COMP_CWORD=$(($# - 1)); _wirdoku; printf "%s\\n" "${COMPREPLY[@]}"'
    status, out, err = run("bash", "--norc", "-c", code, "bash", script_file, "wirdoku", *words)
    check("completion of %r" % (words,), (0, ""), (status, err))
    return sorted(out.split())


def completion(file):
    """Every command and option of the help text, at its place, and no other."""
    names = {name for name, _ in USAGE}
    check("commands are completed", sorted(names | {"--help", "--version"}), completed(file, ""))
    check("a command is completed", ["decode"], completed(file, "dec"))
    for name in sorted(names - {"help"}):
        options = {option for other, rest in USAGE if other == name for option in re.findall(r"--[a-z-]+", rest)}
        check("options of %s" % name, sorted(options | {"--help"}), completed(file, name, "m", "--"))
    check("solvers", SOLVERS, completed(file, "check", "--solver", ""))
    check("solver after =", ["minisat"], completed(file, "check", "m", "--solver", "=", "m"))
    check("all solvers after =", SOLVERS, completed(file, "check", "m", "--solver", "="))
    check("a number", [], completed(file, "check", "m", "--bound", ""))
    # files are bash's own part, so this is seen in a terminal only
    terminal = Terminal(["bash", "--norc", "--noprofile", "-i"], {**os.environ, "TERM": "dumb", "PS1": "> "}, ROOT)
    terminal.press(b"source '%s'; enough=\"is read\"; echo it \"$enough\"\r" % file.encode())
    check("the completion is read", True, terminal.sees(rb"it is read"))
    terminal.press(b"wirdoku check models/logger_b.t\t--sol\tpico\t" + CTRL_A + b"echo it is \rexit\r")
    check("a file, an option and a solver in bash", True, terminal.sees(rb"\nit is wirdoku check models/logger_b.txt --solver picosat"))
    check("bash ends", 0, terminal.end())


def main(folder):
    needed = ["pkg-config:pkgconf", "cc:gcc", "man:man-db", "groff:groff-base"]
    check("the programs that the tests use", 0, script("packages", *needed)[0])
    check("the command is up to date", 0, script("build-tool")[0])
    prefix = folder + "/prefix"
    installed(prefix)
    for_c(prefix)
    manual(PAGE)
    examples(folder)
    completion(COMPLETION)
    removed(prefix)
    other_calls(folder)
