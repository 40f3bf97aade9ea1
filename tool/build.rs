//! Links the proved library's archive, which scripts/build-tool builds.

use std::env;
use std::path::PathBuf;

fn main() {
    let package = env::var("CARGO_MANIFEST_DIR").expect("cargo names the package's folder");
    let folder = PathBuf::from(package).join("..").join("target").join("staticlib");
    let archive = folder.join("libwirdoku.a");
    println!("cargo:rerun-if-changed=build.rs");
    println!("cargo:rerun-if-changed={}", archive.display());
    println!("cargo:rustc-link-search=native={}", folder.display());
    println!("cargo:rustc-link-lib=static=wirdoku");
    if !archive.is_file() {
        // `cargo check` needs no archive; a build ends with the linker's error after this line.
        println!(
            "cargo:warning={} is missing: run `sh scripts/build-tool` at the top of the repository, which builds it and this package",
            archive.display()
        );
    }
}
