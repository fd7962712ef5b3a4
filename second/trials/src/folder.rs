//! A fresh temporary folder, removed when it is no longer used.

use std::io::{Error, ErrorKind, Result};
use std::path::{Path, PathBuf};
use std::{env, fs, process};

pub struct Folder(PathBuf);

/// What is written here need not come to a disk.
const IN_MEMORY: &str = "/dev/shm";

impl Folder {
    /// A folder that was not there before; its name begins like this.
    pub fn fresh(name: &str) -> Result<Folder> {
        Folder::under(&env::temp_dir(), name)
    }

    /// The same in memory, where there is a place for that: what is brought to a disk is slow.
    pub fn quick(name: &str) -> Result<Folder> {
        Folder::under(Path::new(IN_MEMORY), name).or_else(|_| Folder::fresh(name))
    }

    fn under(folder: &Path, name: &str) -> Result<Folder> {
        let mut number = 0;
        loop {
            let name = format!("{name}-{}-{number}", process::id());
            let path = folder.join(name);
            match fs::create_dir(&path) {
                Ok(()) => return Ok(Folder(path)),
                Err(error) if error.kind() == ErrorKind::AlreadyExists => number += 1,
                Err(error) => {
                    let said = format!("cannot make the folder {}: {error}", path.display());
                    return Err(Error::other(said));
                }
            }
        }
    }

    pub fn path(&self) -> &Path {
        &self.0
    }
}

impl Drop for Folder {
    fn drop(&mut self) {
        // What cannot be removed stays; the answer does not hang on it.
        let _ = fs::remove_dir_all(&self.0);
    }
}

#[cfg(test)]
mod tests {
    use super::*;

    #[test]
    fn two_folders_of_one_name_differ_and_are_removed() {
        let first = Folder::fresh("folder").expect("a folder can be made");
        let second = Folder::fresh("folder").expect("a folder can be made");
        assert_ne!(first.path(), second.path());
        fs::write(first.path().join("file"), "").expect("a file can be written");
        let path = first.path().to_path_buf();
        drop(first);
        assert!(!path.exists() && second.path().exists());
    }
}
