//! Scripts by name: files, folders and standard input.

use std::io::{self, Read};
use std::path::{Path, PathBuf};

use crate::token::Dialect;

/// What is read in place of a file named `-`.
const STANDARD_INPUT: &str = "-";

/// A script, or what could not be looked into.
#[derive(Debug)]
pub enum Found {
    Script(PathBuf),
    Unreadable(PathBuf, io::Error),
}

impl Found {
    #[must_use]
    pub fn path(&self) -> &Path {
        match self {
            Self::Script(path) | Self::Unreadable(path, _) => path,
        }
    }

    /// # Errors
    ///
    /// Why it cannot be read, in words.
    pub fn read(&self) -> Result<Vec<u8>, String> {
        match self {
            Self::Script(path) => read(path).map_err(|error| error.to_string()),
            Self::Unreadable(_, error) => Err(error.to_string()),
        }
    }
}

/// The named files, and every `.lua` and `.luau` below the named folders, in the order of their names.
#[must_use]
pub fn scripts(named: &[PathBuf]) -> Vec<Found> {
    let mut found = Vec::new();
    for path in named {
        if path.is_dir() {
            walk(path, &mut found);
        } else {
            found.push(Found::Script(path.clone()));
        }
    }
    found
}

/// Links to folders are not followed, so that the walk ends.
fn walk(folder: &Path, found: &mut Vec<Found>) {
    let mut open = vec![folder.to_owned()];
    while let Some(folder) = open.pop() {
        let listed = std::fs::read_dir(&folder).and_then(Iterator::collect::<io::Result<Vec<_>>>);
        let mut entries = match listed {
            Ok(entries) => entries,
            Err(error) => {
                found.push(Found::Unreadable(folder, error));
                continue;
            }
        };
        entries.sort_by_key(|entry| std::cmp::Reverse(entry.file_name()));
        let (folders, files): (Vec<_>, Vec<_>) = entries
            .into_iter()
            .partition(|entry| entry.file_type().is_ok_and(|kind| kind.is_dir()));
        open.extend(folders.iter().map(|entry| entry.path()));
        let scripts = files.iter().rev().map(|entry| entry.path()).filter(|path| is_script(path));
        found.extend(scripts.map(Found::Script));
    }
}

/// By its ending. What cannot be looked at is one too, so that it is named and not passed over;
/// pipes, devices and links to folders are none.
fn is_script(path: &Path) -> bool {
    let has_ending = path.extension().is_some_and(|ending| ending == "lua" || ending == "luau");
    has_ending && path.metadata().map_or(true, |about| about.is_file())
}

/// # Errors
///
/// Where the file cannot be read, or has more bytes than offsets can count.
pub fn read(path: &Path) -> io::Result<Vec<u8>> {
    let mut source = Vec::new();
    if path.as_os_str() == STANDARD_INPUT {
        io::stdin().lock().read_to_end(&mut source)?;
    } else {
        source = std::fs::read(path)?;
    }
    if u32::try_from(source.len()).is_err() {
        return Err(io::Error::other("it has 4 GiB or more"));
    }
    Ok(source)
}

/// The dialect that the ending asks for, unless `--luau` does.
#[must_use]
pub fn dialect(path: &Path, is_luau: bool) -> Dialect {
    if is_luau || path.extension().is_some_and(|ending| ending == "luau") {
        Dialect::Luau
    } else {
        Dialect::Lua
    }
}
