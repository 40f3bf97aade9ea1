//! Notes what the command says of its version.

use std::path::{Path, PathBuf};
use std::process::Command;
use std::{env, fs};

fn main() {
    let package = PathBuf::from(variable("CARGO_MANIFEST_DIR"));
    let root = package.parent().expect("the package's folder is below the top of the repository");
    note_version(root);
}

fn variable(name: &str) -> String {
    env::var(name).unwrap_or_else(|_| panic!("cargo sets {}", name))
}

/// Writes what `next/version` prints to the file that `src/version.rs` includes.
fn note_version(root: &Path) {
    let unknown = || format!("wirdoku {}\ncommit unknown\ntoolchain unknown\n", variable("CARGO_PKG_VERSION"));
    let text = printed(Command::new("sh").arg(root.join("next").join("version"))).unwrap_or_else(unknown);
    let file = Path::new(&variable("OUT_DIR")).join("version.txt");
    fs::write(&file, text).unwrap_or_else(|error| panic!("{}: {}", file.display(), error));
    // the sources tell whether there are changes, and git's files that there is another commit
    let sources = [
        "crates.txt",
        "Cargo.toml",
        "Cargo.lock",
        "tool/Cargo.toml",
        "tool/build.rs",
        "tool/src",
        "next/Cargo.toml",
        "next/build.rs",
        "next/src",
        "next/version",
        "target/staticlib/proved",
    ];
    let crates = inside(&root.join("crates"));
    // what rt writes stands in each crate's folder too
    let parts = crates.iter().flat_map(|one| inside(one)).filter(|path| !path.ends_with("out"));
    for source in sources.iter().map(|source| root.join(source)).chain(parts) {
        println!("cargo:rerun-if-changed={}", source.display());
    }
    for name in ["HEAD", "logs/HEAD"] {
        // in a work tree of its own, .git is a file that says where they are
        let answer = printed(Command::new("git").current_dir(root).args(["rev-parse", "--git-path", name]));
        if let Some(path) = answer.map(|path| root.join(path.trim_end())).filter(|path| path.is_file()) {
            println!("cargo:rerun-if-changed={}", path.display());
        }
    }
}

/// What stands in a folder.
fn inside(folder: &Path) -> Vec<PathBuf> {
    fs::read_dir(folder).map_or_else(|_| Vec::new(), |entries| entries.flatten().map(|entry| entry.path()).collect())
}

fn printed(command: &mut Command) -> Option<String> {
    let output = command.output().ok().filter(|output| output.status.success())?;
    String::from_utf8(output.stdout).ok()
}
