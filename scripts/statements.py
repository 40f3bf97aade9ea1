"""Statements of the documents, each block compiled as a program of its own and run."""
import os
import subprocess
import tempfile

from checks import RELEASE, ROOT, content

ARCHIVE = os.path.join(ROOT, "target", "staticlib", "libwirdoku.a")

# The reference library: a is model A.
RUST = """
    use reference::{assign::{decode, encode}, step::walk, text::read};
    fn main() {
        let _ = (decode, encode, walk);
        let a = read(include_bytes!("%s")).model;
        let _ = &a;
        %s
    }
"""
# The proved library: a and b are the texts of models A and B, TEXT("..") is a string as bytes and their number.
C = """
    #undef NDEBUG
    #include <assert.h>
    #include <string.h>
    #include "wirdoku.h"
    #define TEXT(string) (const uint8_t *)(string), sizeof(string) - 1
    int main(void) {
        const uint8_t a[] = {%s};
        const uint8_t b[] = {%s};
        (void)a, (void)b;
        %s
        return 0;
    }
"""


def of_rust(lines):
    """Compiles and runs statements with the reference library: the exit status and what was said."""
    library = "reference=" + os.path.join(RELEASE, "libreference.rlib")
    program = RUST % (os.path.join(ROOT, "models", "a.txt"), "\n".join(lines))
    return run(program, ".rs", ["rustc", "--edition", "2021", "--extern", library], [])


def of_c(lines):
    """Compiles and runs statements with the proved library."""
    texts = [", ".join(map(str, content("models", file))) for file in ("a.txt", "logger_b.txt")]
    program = C % (*texts, "\n".join(lines))
    headers = os.path.join(ROOT, "crates", "wirdoku", "include")
    return run(program, ".c", ["cc", "-std=c99", "-Wall", "-Wextra", "-Werror", "-I", headers], [ARCHIVE])


def run(program, ending, compiler, libraries):
    with tempfile.TemporaryDirectory() as folder:
        source, built = os.path.join(folder, "calls" + ending), os.path.join(folder, "calls")
        with open(source, "w", encoding="utf-8") as file:
            file.write(program)
        done = subprocess.run(compiler + ["-o", built, source] + libraries, capture_output=True)
        if done.returncode == 0:
            done = subprocess.run([built], capture_output=True)
    return done.returncode, done.stderr.decode().strip()
