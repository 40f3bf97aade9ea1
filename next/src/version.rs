//! What `wirdoku --version` prints.

/// The version, the commit and the toolchain, a line each. The build script has them from `next/version`.
pub fn text() -> String {
    include_str!(concat!(env!("OUT_DIR"), "/version.txt")).to_string()
}
