//! Files in and out. A file is replaced whole or not at all.

use std::fs::{self, File, OpenOptions};
use std::io::{self, Read, Write};
use std::path::{Path, PathBuf};
use std::process;

/// All bytes of a file, or of the stream where there is no path.
pub fn read(path: Option<&Path>, stream: &mut dyn Read) -> io::Result<Vec<u8>> {
    match path {
        Some(path) => fs::read(path),
        None => {
            let mut bytes = Vec::new();
            stream.read_to_end(&mut bytes)?;
            Ok(bytes)
        }
    }
}

/// Writes a file, or to the stream where there is no path.
pub fn write(path: Option<&Path>, stream: &mut dyn Write, bytes: &[u8]) -> io::Result<()> {
    match path {
        Some(path) => write_file(path, bytes),
        None => {
            stream.write_all(bytes)?;
            stream.flush()
        }
    }
}

/// A device or a pipe is written to; any other file is made beside its place and
/// then put there, so that a write that fails leaves the old one.
fn write_file(path: &Path, bytes: &[u8]) -> io::Result<()> {
    let path = fs::canonicalize(path).unwrap_or_else(|_| path.into());
    let old = fs::metadata(&path).ok();
    if old.as_ref().is_some_and(|old| !old.is_file()) {
        return OpenOptions::new().write(true).open(&path)?.write_all(bytes);
    }
    let beside = beside(&path)?;
    let mut file = File::create_new(&beside)?;
    let replace = || {
        file.write_all(bytes)?;
        file.sync_all()?;
        if let Some(old) = old {
            fs::set_permissions(&beside, old.permissions())?;
        }
        fs::rename(&beside, &path)
    };
    let result = replace();
    if result.is_err() {
        let _ = fs::remove_file(&beside);
    }
    result
}

/// A name of its own in the same directory.
fn beside(path: &Path) -> io::Result<PathBuf> {
    let none = || io::Error::new(io::ErrorKind::InvalidInput, "no file name");
    let mut name = std::ffi::OsString::from(".");
    name.push(path.file_name().ok_or_else(none)?);
    name.push(format!(".{}.new", process::id()));
    Ok(path.with_file_name(name))
}
