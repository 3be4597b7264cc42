//! Files, and standard input where none is named.

use crate::trouble::Trouble;
use std::fs::{self, File};
use std::io::{self, Read, Write};
use std::path::Path;

/// The name of a file, or of standard input.
pub fn name(file: Option<&str>) -> &str {
    file.unwrap_or("standard input")
}

/// A file, or standard input, to be read.
pub fn open(file: Option<&str>) -> Result<Box<dyn Read + Send>, Trouble> {
    match file {
        Some(path) => File::open(path).map(|file| Box::new(file) as _).map_err(Trouble::at(path)),
        None => Ok(Box::new(io::stdin())),
    }
}

/// All bytes of a file, or of standard input.
pub fn read(file: Option<&str>) -> Result<Vec<u8>, Trouble> {
    let mut bytes = Vec::new();
    open(file)?.read_to_end(&mut bytes).map_err(Trouble::at(name(file)))?;
    Ok(bytes)
}

/// Writes a file anew. What it held stays where writing fails: the bytes go to a file beside it, which then takes its name and mode.
pub fn write(path: &str, bytes: &[u8]) -> Result<(), Trouble> {
    let written = match fs::metadata(path) {
        // A device or a pipe has no bytes to keep.
        Ok(found) if !found.is_file() => File::create(path).and_then(|mut file| file.write_all(bytes)),
        _ => replace(&fs::canonicalize(path).unwrap_or(path.into()), bytes),
    };
    written.map_err(|error| Trouble::Failed(format!("{path}: {error}")))
}

fn replace(path: &Path, bytes: &[u8]) -> io::Result<()> {
    let mut beside = path.as_os_str().to_owned();
    beside.push(".part");
    let replaced = write_as(path, Path::new(&beside), bytes).and_then(|()| fs::rename(&beside, path));
    if replaced.is_err() {
        let _ = fs::remove_file(&beside);
    }
    replaced
}

/// Writes a file with the mode of another, if that is there. One that must not be written must not be replaced either.
fn write_as(other: &Path, path: &Path, bytes: &[u8]) -> io::Result<()> {
    let mode = match File::options().write(true).open(other) {
        Ok(file) => Some(file.metadata()?.permissions()),
        Err(error) if error.kind() == io::ErrorKind::NotFound => None,
        Err(error) => return Err(error),
    };
    let mut file = File::create(path)?;
    mode.map_or(Ok(()), |mode| file.set_permissions(mode))?;
    file.write_all(bytes)?;
    file.sync_all()
}
