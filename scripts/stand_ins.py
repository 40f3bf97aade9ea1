"""What scripts/first-minutes builds with: a small copy of the repository, and programs that stand in for rt and cargo, since these take
minutes. They print the lines that the real ones print, keep records as they do, and wait or fail where a test asks for it."""
import os
import shutil
import subprocess
import time

from crates import ROOT, text_of, with_those_below
from terminal import usual_signals

# FAKE is the folder of the stand-ins, FAKE_CRATES what there is to prove, in this order and two at a time; the last one is no library. At the
# crate FAKE_HOLD the prover goes on only when there is a file FAKE/go; the crate FAKE_FAIL is not proved.
RT = """#!/bin/sh
echo "$1" >>"$FAKE/calls"
top=${FAKE_CRATES##* }
prove() {
    ! [ -f "../$1/out/rlib/stamp" ] || return
    [ "$1" = "$top" ] || mkdir -p "../$1/out/rlib"
    while [ "$1" = "${FAKE_HOLD-}" ] && [ ! -e "$FAKE/go" ]; do "$FAKE/prover"; done
    "$FAKE/prover"
    [ "$1" != "${FAKE_FAIL-}" ] || { printf 'fn %s::%s: not proved\nlogic=not-proved\n' "$1" "$1"; return; }
    printf 'fn %s::%s: proved\nlogic=proved functions=1\n' "$1" "$1"
    [ "$1" = "$top" ] || : >"../$1/out/rlib/stamp"
}
block() { said=$(prove "$1"); printf '== %s\n%s' "$1" "${said:+$said
}"; }
case $1 in
version) echo 'stand-in logic 0123456789abcdef' ;;
all)
    beside=''
    for crate in $FAKE_CRATES; do
        block "$crate" &
        case $beside in '') beside=yes ;; *) wait; beside='' ;; esac
    done
    wait
    echo '== summary'
    ok=0 all=0
    for crate in $FAKE_CRATES; do
        all=$((all + 1))
        if [ "$crate" = "${FAKE_FAIL-}" ]; then echo "$crate: failed (1)"; else echo "$crate: ok"; ok=$((ok + 1)); fi
    done
    echo "$ok of $all crates ok"
    [ "$ok" = "$all" ] ;;
lib)
    mkdir -p out
    : >"out/lib$top.a"
    echo 'logic=proved functions=1' ;;
esac
"""
PROVER = "#!/bin/sh\nsleep 0.02\n"
CARGO = """#!/bin/sh
: >"$TMPDIR/of-cargo"
[ -z "${FAKE_CARGO_FAIL-}" ] || { echo 'error: could not compile `wirdoku`'; exit 101; }
for package; do :; done
mkdir -p rust-target/release
cp "$FAKE/wirdoku" "rust-target/release/$package"
"""
# the command that such a build gives: it fails if it holds the lock of its build
WIRDOKU = """#!/bin/sh
echo "$* in $(pwd -P): $([ -t 0 ] || cat)"
[ ! -e /proc/$$/fd/9 ] || exit 1
exit 10
"""
COPIED = ["scripts", "tool", "next", "crates/wirdoku", "crates/wirdoku_c", "crates.txt", "Cargo.toml", "Cargo.lock", ".gitignore"]


# what is proved for the command
BELOW = with_those_below(["wirdoku_c"])


class Copy:
    """A copy of the repository in a folder of its own, in which nothing is built yet."""

    def __init__(self, folder):
        self.folder = folder
        self.root = os.path.join(folder, "wirdoku")
        self.fake = os.path.join(folder, "fake")
        self.temporary = os.path.join(folder, "tmp")
        os.mkdir(self.fake)
        os.mkdir(self.temporary)
        ignored = shutil.ignore_patterns("__pycache__", "out")
        for name in COPIED:
            source, target = os.path.join(ROOT, name), os.path.join(self.root, name)
            os.makedirs(os.path.dirname(target), exist_ok=True)
            shutil.copytree(source, target, ignore=ignored) if os.path.isdir(source) else shutil.copy2(source, target)
        for name, text in ("rt", RT), ("prover", PROVER), ("cargo", CARGO), ("rustc", ""), ("cadical", ""), ("wirdoku", WIRDOKU):
            path = os.path.join(self.fake, name)
            with open(path, "w", encoding="utf-8") as file:
                file.write(text)
            os.chmod(path, 0o755)

    def env(self, **more):
        """The environment of what is run: the stand-ins stand first on the path, and temporary files go to a folder that is looked at."""
        own = {"PATH": self.fake + os.pathsep + os.environ["PATH"], "TERM": "xterm", "TMPDIR": self.temporary, "FAKE": self.fake}
        return {**os.environ, **own, "FAKE_CRATES": " ".join(BELOW), **more}

    def path_without(self, *names):
        """The path without some programs. Where a folder has one of them, links lead to the others that it has."""
        return os.pathsep.join(self._cleared(entry, names) for entry in os.environ["PATH"].split(os.pathsep))

    def _cleared(self, entry, names):
        if not any(os.path.exists(os.path.join(entry, name)) for name in names):
            return entry
        links = os.path.join(self.folder, "path" + entry.replace("/", "-"))
        os.makedirs(links, exist_ok=True)
        for program in set(os.listdir(entry)) - set(names) - set(os.listdir(links)):
            os.symlink(os.path.join(entry, program), os.path.join(links, program))
        return links

    def script(self, name, *words, folder="scripts"):
        return ["sh", os.path.join(self.root, folder, name)] + list(words)

    def run(self, command, cwd="/", data="", env=None):
        """Status, output and standard error of a command, without a terminal."""
        done = subprocess.run(command, input=data, cwd=cwd, env=env or self.env(), capture_output=True, timeout=60, encoding="utf-8")
        return done.returncode, done.stdout, done.stderr

    def start(self, command, err, env):
        """The same in the background, with standard error in a file."""
        none = subprocess.DEVNULL
        with open(err, "w", encoding="utf-8") as file:
            return subprocess.Popen(command, cwd="/", env=env, stdin=none, stdout=none, stderr=file, preexec_fn=usual_signals)

    def processes(self):
        """The processes that have this copy's environment, and so were begun by what was run in it."""
        mark = ("FAKE=%s" % self.fake).encode()
        found = []
        for pid in filter(str.isdigit, os.listdir("/proc")):
            try:
                with open("/proc/%s/environ" % pid, "rb") as file:
                    found += [pid] if mark in file.read().split(b"\0") else []
            except OSError:  # it has ended meanwhile
                pass
        return found

    def left(self):
        """What a build has left behind: processes, and files beside the log, the lock and what is built."""
        waited = until(lambda: not self.processes())
        built = {"build.lock", "build.log", "built", "built-next", "release"}
        return ([] if waited else self.processes()) + os.listdir(self.temporary) + sorted(set(os.listdir(self.root + "/rust-target")) - built)

    def calls(self):
        """What rt was asked for, in this order."""
        path = os.path.join(self.fake, "calls")
        return text_of(path).split() if os.path.exists(path) else []


def until(holds, seconds=20):
    """Whether something comes to hold within the time."""
    end = time.time() + seconds
    while not holds():
        if time.time() > end:
            return False
        time.sleep(0.02)
    return True
