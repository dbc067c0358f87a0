//! What lies in a folder.

use std::ffi::OsString;
use std::path::Path;

/// One entry of a folder.
pub struct Entry {
    pub name: OsString,
    /// Why it is passed over unread, if it is.
    pub skipped: Option<&'static str>,
}

/// The entries of a folder, by name. Only plain files are read: no folder, no link, nothing that could wait for ever.
pub fn list(folder: &Path) -> std::io::Result<Vec<Entry>> {
    let mut entries = vec![];
    for entry in std::fs::read_dir(folder)? {
        let entry = entry?;
        let skipped = match entry.file_type() {
            Ok(kind) if kind.is_file() => None,
            Ok(kind) if kind.is_dir() => Some("a folder"),
            Ok(kind) if kind.is_symlink() => Some("a symbolic link"),
            Ok(_) => Some("no plain file"),
            Err(_) => Some("its kind cannot be read"),
        };
        entries.push(Entry { name: entry.file_name(), skipped });
    }
    entries.sort_by(|a, b| a.name.cmp(&b.name));
    Ok(entries)
}
