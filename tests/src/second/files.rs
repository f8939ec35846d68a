//! A folder as a program finds it and leaves it: as much of what Linux does with names as `desk` asks of it.

use std::collections::BTreeMap;
use std::io;

/// The number of an error of the system.
#[derive(Clone, Copy, Debug, PartialEq, Eq)]
pub struct Errno(pub i32);

pub const ENOENT: Errno = Errno(2);
pub const EBUSY: Errno = Errno(16);
pub const EEXIST: Errno = Errno(17);
pub const ENOTDIR: Errno = Errno(20);
pub const EISDIR: Errno = Errno(21);
pub const EINVAL: Errno = Errno(22);
pub const ENAMETOOLONG: Errno = Errno(36);
pub const EILSEQ: Errno = Errno(84);

impl Errno {
    /// The system's text for it.
    pub fn text(self) -> String {
        let error = io::Error::from_raw_os_error(self.0).to_string();
        error.split(" (os error").next().unwrap_or_default().to_string()
    }
}

/// The longest name that the system takes, and the longest part of one.
const LONGEST_NAME: usize = 4_095;
const LONGEST_PART: usize = 255;

#[derive(Clone, Debug, PartialEq, Eq)]
pub enum Entry {
    Folder,
    File { bytes: Vec<u8>, mode: u32 },
}

/// All that a folder holds, and that the folders in it hold, each under its path: parts with a slash between them.
#[derive(Clone, Debug, Default, PartialEq, Eq)]
pub struct Files {
    pub entries: BTreeMap<Vec<u8>, Entry>,
}

/// Where a name leads, if all but its last part is there.
struct Way {
    path: Vec<u8>,
    /// Whether the last part is a folder's name for itself or for the one that holds it.
    ends_in_dots: bool,
    /// Whether a slash follows the last part.
    ends_in_slash: bool,
}

impl Files {
    /// The bytes of the file of this name.
    pub fn read(&self, name: &[u8]) -> Result<Vec<u8>, Errno> {
        let way = self.way(name)?;
        match self.entries.get(&way.path) {
            // A folder can be opened, but not read.
            _ if way.ends_in_dots => Err(EISDIR),
            Some(Entry::Folder) => Err(EISDIR),
            Some(Entry::File { .. }) if way.ends_in_slash => Err(ENOTDIR),
            Some(Entry::File { bytes, .. }) => Ok(bytes.clone()),
            None => Err(ENOENT),
        }
    }

    /// What has this name, if anything has.
    pub fn look(&self, name: &[u8]) -> Result<Option<&Entry>, Errno> {
        let way = match self.way(name) {
            Err(ENOENT) => return Ok(None),
            way => way?,
        };
        match self.entries.get(&way.path) {
            _ if way.ends_in_dots => Ok(Some(&Entry::Folder)),
            Some(Entry::File { .. }) if way.ends_in_slash => Err(ENOTDIR),
            found => Ok(found),
        }
    }

    /// Makes a file under a name that nothing has, and gives its path. The name ends in neither dots nor a slash.
    pub fn make(&mut self, name: &[u8], bytes: &[u8], mode: u32) -> Result<Vec<u8>, Errno> {
        let way = self.way(name)?;
        assert!(!way.ends_in_dots && !way.ends_in_slash, "the name of a file");
        if self.entries.contains_key(&way.path) {
            return Err(EEXIST);
        }
        self.entries.insert(way.path.clone(), Entry::File { bytes: bytes.to_vec(), mode });
        Ok(way.path)
    }

    /// Gives the file with this path another name, in the place of the file that has it, if any.
    pub fn rename(&mut self, path: &[u8], name: &[u8]) -> Result<(), Errno> {
        let way = self.way(name)?;
        match self.entries.get(&way.path) {
            _ if way.ends_in_dots => Err(EBUSY),
            _ if way.ends_in_slash => Err(ENOTDIR),
            Some(Entry::Folder) => Err(EISDIR),
            Some(Entry::File { .. }) | None => {
                let file = self.entries.remove(path).expect("a file");
                self.entries.insert(way.path, file);
                Ok(())
            }
        }
    }

    /// Follows a name from this folder. A name that leads out of it is a slip of whoever made it.
    fn way(&self, name: &[u8]) -> Result<Way, Errno> {
        if name.is_empty() {
            return Err(ENOENT);
        }
        // docs/DESK.md is silent. Taken: a name that the system cannot be handed is an argument that it would not take.
        if name.contains(&0) {
            return Err(EINVAL);
        }
        if name.len() > LONGEST_NAME {
            return Err(ENAMETOOLONG);
        }
        assert!(!name.starts_with(b"/"), "{} leads out of the folder", name.escape_ascii());
        let parts: Vec<&[u8]> = name.split(|&byte| byte == b'/').filter(|part| !part.is_empty()).collect();
        let (last, before) = parts.split_last().expect("a part");
        let mut reached = Vec::new();
        for part in before {
            self.enter(&mut reached, part)?;
        }
        if last.len() > LONGEST_PART {
            return Err(ENAMETOOLONG);
        }
        let ends_in_dots = [&b"."[..], b".."].contains(last);
        reached.push(last);
        Ok(Way { path: reached.join(&b'/'), ends_in_dots, ends_in_slash: name.ends_with(b"/") })
    }

    /// Goes on from a folder to the one that this part of a name leads to.
    fn enter<'a>(&self, reached: &mut Vec<&'a [u8]>, part: &'a [u8]) -> Result<(), Errno> {
        match part {
            b"." => return Ok(()),
            b".." => return reached.pop().map(drop).ok_or_else(|| panic!("a name leads out of the folder")),
            _ if part.len() > LONGEST_PART => return Err(ENAMETOOLONG),
            _ => reached.push(part),
        }
        match self.entries.get(&reached.join(&b'/')) {
            Some(Entry::Folder) => Ok(()),
            Some(Entry::File { .. }) => Err(ENOTDIR),
            None => Err(ENOENT),
        }
    }
}

#[cfg(test)]
mod tests {
    use super::*;

    /// A file "f" of one byte, a folder "d", and a file in it.
    fn some() -> Files {
        let file = || Entry::File { bytes: b"1".to_vec(), mode: 0o600 };
        let entries = [(&b"f"[..], file()), (b"d", Entry::Folder), (b"d/f", file())];
        Files { entries: entries.into_iter().map(|(path, entry)| (path.to_vec(), entry)).collect() }
    }

    #[test]
    fn texts_are_the_system_s() {
        let texts = [ENOENT, EBUSY, EEXIST, ENOTDIR, EISDIR, EINVAL, ENAMETOOLONG, EILSEQ].map(Errno::text);
        let expected = [
            "No such file or directory",
            "Device or resource busy",
            "File exists",
            "Not a directory",
            "Is a directory",
            "Invalid argument",
            "File name too long",
            "Invalid or incomplete multibyte or wide character",
        ];
        assert_eq!(texts, expected);
    }

    #[test]
    fn names_are_followed() {
        let files = some();
        for name in ["f", "./f", "d/f", "d//./f", "d/../f", "d/../d/f"] {
            assert_eq!(files.read(name.as_bytes()), Ok(b"1".to_vec()), "{name}");
        }
        let refused = [
            ("", ENOENT),
            ("g", ENOENT),
            ("e/f", ENOENT),
            ("f/f", ENOTDIR),
            ("f/", ENOTDIR),
            ("f/.", ENOTDIR),
            ("d", EISDIR),
            ("d/", EISDIR),
            (".", EISDIR),
            ("d/..", EISDIR),
        ];
        for (name, errno) in refused {
            assert_eq!(files.read(name.as_bytes()), Err(errno), "{name}");
        }
        for (length, errno) in [(255, ENOENT), (256, ENAMETOOLONG), (4_095, ENAMETOOLONG), (4_096, ENAMETOOLONG)] {
            assert_eq!(files.read(&vec![b'f'; length]), Err(errno), "{length}");
        }
        assert_eq!(files.read(&[&b"./".repeat(2_047)[..], b"f"].concat()), Ok(b"1".to_vec()));
        assert_eq!(files.read(&[&b"./".repeat(2_047)[..], b"/f"].concat()), Err(ENAMETOOLONG));
    }

    #[test]
    fn names_are_looked_at() {
        let files = some();
        for name in ["d", "d/", "d/.", "d/..", "."] {
            assert_eq!(files.look(name.as_bytes()), Ok(Some(&Entry::Folder)), "{name}");
        }
        assert_eq!(files.look(b"d/../f"), Ok(files.entries.get(&b"f"[..])));
        for name in ["g", "g/", "e/f", "e/.."] {
            assert_eq!(files.look(name.as_bytes()), Ok(None), "{name}");
        }
        for name in ["f/", "f/f", "f/.."] {
            assert_eq!(files.look(name.as_bytes()), Err(ENOTDIR), "{name}");
        }
    }

    #[test]
    #[should_panic(expected = "leads out of the folder")]
    fn names_stay_in_the_folder() {
        let _ = some().read(b"d/../../f");
    }

    #[test]
    fn a_new_file_takes_the_place_of_another_or_of_none() {
        let mut files = some();
        for name in [&b"f"[..], b"d", b"d/f"] {
            assert_eq!(files.make(name, b"2", 0o644), Err(EEXIST));
        }
        assert_eq!(files.make(b"f\0", b"2", 0o644), Err(EINVAL));
        assert_eq!(files.make(b"./g", b"2", 0o644), Ok(b"g".to_vec()));
        for (name, errno) in [("d", EISDIR), ("d/", ENOTDIR), (".", EBUSY), ("d/..", EBUSY), ("e/f", ENOENT)] {
            assert_eq!(files.rename(b"g", name.as_bytes()), Err(errno), "{name}");
        }
        assert_eq!(files.rename(b"g", b"d/f"), Ok(()));
        assert_eq!(files.entries.get(&b"d/f"[..]), Some(&Entry::File { bytes: b"2".to_vec(), mode: 0o644 }));
        assert_eq!(files.entries.len(), 3);
    }
}
