//! All that stands in a folder, with what a save must not harm: kinds, modes, owners, names and bytes.

use std::collections::BTreeMap;
use std::fs::{self, Metadata};
use std::hash::{DefaultHasher, Hash, Hasher};
use std::io;
use std::os::unix::fs::{FileTypeExt, MetadataExt};
use std::path::Path;

use super::script::show;
use crate::trial::QUOTED;

/// Each thing under its path, told in a line.
pub type Standing = BTreeMap<String, String>;

pub fn standing(folder: &Path) -> Result<Standing, String> {
    let mut all = Standing::new();
    gather(folder, "", &mut all).map_err(|error| format!("cannot read {}: {error}", folder.display()))?;
    Ok(all)
}

fn gather(folder: &Path, before: &str, all: &mut Standing) -> io::Result<()> {
    for found in fs::read_dir(folder)? {
        let found = found?;
        let path = format!("{before}{}", found.file_name().to_string_lossy());
        let data = found.metadata()?;
        if data.is_dir() {
            gather(&found.path(), &format!("{path}/"), all)?;
        }
        let line = tell(&found.path(), &data)?;
        all.insert(path, line);
    }
    Ok(())
}

fn tell(path: &Path, data: &Metadata) -> io::Result<String> {
    let kind = data.file_type();
    let (mode, owner) = (data.mode() & 0o7777, format!("{}:{}", data.uid(), data.gid()));
    Ok(match () {
        () if kind.is_file() => file(mode, &owner, data.nlink(), &fs::read(path)?),
        () if kind.is_symlink() => format!("a link to {}", fs::read_link(path)?.display()),
        // How many names a folder has, and when it was last changed, is no matter.
        () if kind.is_dir() => format!("a folder, {mode:o} of {owner}"),
        () if kind.is_fifo() => format!("a named pipe, {mode:o} of {owner}"),
        () if kind.is_socket() => format!("a socket, {mode:o} of {owner}"),
        () => format!("a device {}, {mode:o} of {owner}", data.rdev()),
    })
}

/// The line for a file.
pub fn file(mode: u32, owner: &str, names: u64, bytes: &[u8]) -> String {
    format!("a file, {mode:o} of {owner}, by {names} names, {}", contents(bytes))
}

/// Its first bytes, with a sum of all of them where there are more.
pub fn contents(bytes: &[u8]) -> String {
    let mut sum = DefaultHasher::new();
    bytes.hash(&mut sum);
    let sum = if bytes.len() > QUOTED { format!(" (sum {:016X})", sum.finish()) } else { String::new() };
    format!("{}{sum}", show(bytes))
}

/// That this stands there and no more.
pub fn same_standing(expected: &Standing, found: &Standing) -> Result<(), String> {
    for path in expected.keys().chain(found.keys()) {
        let line = |all: &Standing| all.get(path).cloned().unwrap_or_else(|| "nothing".to_string());
        if line(found) != line(expected) {
            return Err(format!("at {path} is {} and not {}", line(found), line(expected)));
        }
    }
    Ok(())
}
