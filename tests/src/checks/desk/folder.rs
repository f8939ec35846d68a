//! Folders that a program is run in.

use std::ffi::OsStr;
use std::fs::{self, Permissions};
use std::io::ErrorKind;
use std::os::unix::ffi::OsStrExt;
use std::os::unix::fs::PermissionsExt;
use std::path::{Path, PathBuf};
use std::sync::atomic::{AtomicUsize, Ordering};
use std::{env, io, process};

use crate::second::files::{Entry, Files};

/// A new folder for temporary files, which is removed in the end with all that is in it.
pub struct Folder {
    pub path: PathBuf,
}

impl Folder {
    /// A folder with these files.
    pub fn new(files: &Files) -> Result<Folder, String> {
        let folder = Folder::empty().map_err(|error| format!("no new folder for temporary files: {error}"))?;
        folder.add(files)?;
        Ok(folder)
    }

    /// Puts these files there too, in the place of those that are there.
    pub fn add(&self, files: &Files) -> Result<(), String> {
        self.put(files).map_err(|error| format!("cannot write to {}: {error}", self.path.display()))
    }

    fn empty() -> io::Result<Folder> {
        static NEXT: AtomicUsize = AtomicUsize::new(0);
        loop {
            let number = NEXT.fetch_add(1, Ordering::Relaxed);
            let path = env::temp_dir().join(format!("desktest-{}-{number}", process::id()));
            match fs::create_dir(&path) {
                Ok(()) => return Ok(Folder { path }),
                Err(error) if error.kind() == ErrorKind::AlreadyExists => {}
                Err(error) => return Err(error),
            }
        }
    }

    fn put(&self, files: &Files) -> io::Result<()> {
        // A folder comes before what is in it.
        for (path, entry) in &files.entries {
            let path = self.path.join(OsStr::from_bytes(path));
            match entry {
                Entry::Folder => fs::create_dir(path)?,
                Entry::File { bytes, mode } => {
                    fs::write(&path, bytes)?;
                    fs::set_permissions(path, Permissions::from_mode(*mode))?;
                }
            }
        }
        Ok(())
    }

    /// What the folder holds.
    pub fn files(&self) -> Result<Files, String> {
        let mut files = Files::default();
        self.gather(&self.path, &mut files).map_err(|error| format!("cannot read {}: {error}", self.path.display()))?;
        Ok(files)
    }

    fn gather(&self, folder: &Path, files: &mut Files) -> io::Result<()> {
        for found in fs::read_dir(folder)? {
            let found = found?;
            let path = found.path();
            let entry = if found.file_type()?.is_dir() {
                self.gather(&path, files)?;
                Entry::Folder
            } else {
                let mode = found.metadata()?.permissions().mode() & 0o7777;
                Entry::File { bytes: fs::read(&path)?, mode }
            };
            let path = path.strip_prefix(&self.path).expect("a path in the folder");
            files.entries.insert(path.as_os_str().as_bytes().to_vec(), entry);
        }
        Ok(())
    }
}

impl Drop for Folder {
    fn drop(&mut self) {
        // What cannot be removed is left to whoever looks after temporary files.
        let _ = fs::remove_dir_all(&self.path);
    }
}

/// The umask of this process, which programs that it starts have too.
pub fn umask() -> u32 {
    let status = fs::read_to_string("/proc/self/status").expect("what Linux says of this process");
    let digits = status.lines().find_map(|line| line.strip_prefix("Umask:")).expect("a umask");
    u32::from_str_radix(digits.trim(), 8).expect("a number in base 8")
}

#[cfg(test)]
mod tests {
    use super::*;

    #[test]
    fn a_folder_has_the_files_that_were_put_there_and_is_removed() {
        let file = |mode| Entry::File { bytes: b"\x80".to_vec(), mode };
        let entries = [(&b"a b"[..], file(0o600)), (b"d", Entry::Folder), (b"d/\xFF", file(0o640))];
        let files = Files { entries: entries.into_iter().map(|(path, entry)| (path.to_vec(), entry)).collect() };
        let folder = Folder::new(&files).expect("a folder");
        assert_eq!(folder.files(), Ok(files));

        fs::write(folder.path.join("new"), b"").expect("a new file");
        let mode = 0o666 & !umask();
        let new = folder.files().expect("files").entries.remove(&b"new"[..]);
        assert_eq!(new, Some(Entry::File { bytes: vec![], mode }));

        let path = folder.path.clone();
        drop(folder);
        assert!(!path.exists());
    }
}
