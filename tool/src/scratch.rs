//! A folder of its own for a solver's result file.

use std::fs::{self, DirBuilder};
use std::io;
use std::os::unix::fs::DirBuilderExt;
use std::path::{Path, PathBuf};
use std::process;
use std::sync::atomic::{AtomicUsize, Ordering};

/// A new folder that only this user can enter; it is removed with all it holds when the value goes out of use.
pub struct Scratch {
    folder: PathBuf,
}

static NEXT: AtomicUsize = AtomicUsize::new(0);

impl Scratch {
    /// Makes a folder under `parent`, which keeps what it has: a name that is taken is passed over.
    pub fn under(parent: &Path) -> io::Result<Scratch> {
        loop {
            let count = NEXT.fetch_add(1, Ordering::Relaxed);
            let folder = parent.join(format!("wirdoku-{}-{}", process::id(), count));
            match DirBuilder::new().mode(0o700).create(&folder) {
                Ok(()) => return Ok(Scratch { folder }),
                Err(error) if error.kind() == io::ErrorKind::AlreadyExists => {}
                Err(error) => return Err(error),
            }
        }
    }

    pub fn file(&self, name: &str) -> PathBuf {
        self.folder.join(name)
    }
}

impl Drop for Scratch {
    fn drop(&mut self) {
        // Nothing can be done about a failure here, and the answer does not depend on it.
        let _ = fs::remove_dir_all(&self.folder);
    }
}

#[cfg(test)]
mod tests {
    use super::Scratch;
    use std::{env, fs, process};

    #[test]
    fn folders_differ_are_private_and_go_away() {
        use std::os::unix::fs::PermissionsExt;
        let first = Scratch::under(&env::temp_dir()).unwrap();
        let second = Scratch::under(&env::temp_dir()).unwrap();
        assert_ne!(first.folder, second.folder);
        let mode = fs::metadata(&first.folder).unwrap().permissions().mode();
        assert_eq!(mode & 0o777, 0o700);
        let inside = first.file("result");
        fs::write(&inside, "something").unwrap();
        let folder = first.folder.clone();
        drop(first);
        assert!(!folder.exists());
        assert!(second.folder.is_dir());
    }

    #[test]
    fn a_taken_name_is_passed_over_and_a_missing_parent_is_an_error() {
        let parent = env::temp_dir().join(format!("wirdoku-parent-{}", process::id()));
        assert!(Scratch::under(&parent).is_err());
        fs::create_dir(&parent).unwrap();
        for count in 0..50 {
            fs::create_dir(parent.join(format!("wirdoku-{}-{}", process::id(), count))).unwrap();
        }
        let scratch = Scratch::under(&parent).unwrap();
        assert!(scratch.folder.is_dir());
        drop(scratch);
        assert_eq!(fs::read_dir(&parent).unwrap().count(), 50);
        fs::remove_dir_all(&parent).unwrap();
    }
}
