//! The file that a command makes: written beside its place, then renamed.

use crate::failure::Failure;
use crate::streams;
use std::ffi::OsStr;
use std::fs::{self, File, OpenOptions, Permissions};
use std::io::{self, ErrorKind, Write};
use std::path::{Path, PathBuf};
use std::process;

/// How many names are tried for the file beside.
const NAMES: u32 = 1000;

/// Where a command's bytes go.
#[derive(Debug)]
pub enum Output {
    /// Standard output.
    Standard,
    /// A file.
    File {
        /// Its name as it was given.
        name: PathBuf,
        /// Its place: where a link leads.
        place: PathBuf,
        /// The permissions of the file whose place it takes.
        permissions: Option<Permissions>,
    },
}

impl Output {
    /// Looks whether a file can be made where an option says, `-` being standard output, without making it.
    pub fn new(option: &str, name: &OsStr, inputs: &[&Path]) -> Result<Output, Failure> {
        if name == "-" {
            return Ok(Output::Standard);
        }
        let path = Path::new(name);
        if path.file_name().is_none() || name.as_encoded_bytes().ends_with(b"/") {
            return Err(Failure::Arguments(format!("{option}: '{}' names no file", path.display())));
        }
        match fs::symlink_metadata(path) {
            Ok(_) => replacing(option, path, inputs),
            Err(error) if error.kind() == ErrorKind::NotFound => in_directory(path),
            Err(error) => Err(Failure::file("write", path, error)),
        }
    }

    /// Writes the bytes: to a file all of them or none.
    pub fn write(&self, parts: &[&[u8]]) -> Result<(), Failure> {
        match self {
            Output::Standard => streams::print_bytes(parts),
            Output::File { name, place, permissions } => {
                replace(place, permissions.as_ref(), parts).map_err(|error| Failure::file("write", name, error))
            }
        }
    }

    /// Tells what was written: on standard error where the bytes went to standard output.
    pub fn tell(&self, what: &str) -> Result<(), Failure> {
        match self {
            Output::Standard => {
                streams::print_error(&format!("wrote to standard output: {what}\n"));
                Ok(())
            }
            Output::File { name, .. } => streams::print(&format!("wrote {}: {what}\n", name.display())),
        }
    }
}

/// The output in the place of a file that is there: a regular file, where a link leads, that may be written and is no
/// input.
fn replacing(option: &str, path: &Path, inputs: &[&Path]) -> Result<Output, Failure> {
    let no = |why: &str| Failure::File(format!("cannot write {}: {why}", path.display()));
    let fault = |error| Failure::file("write", path, error);
    let place = path.canonicalize().map_err(fault)?;
    let metadata = place.metadata().map_err(fault)?;
    if metadata.is_dir() {
        return Err(no("it is a directory"));
    }
    if !metadata.is_file() {
        return Err(no("it is not a regular file; for standard output write -"));
    }
    if inputs.iter().any(|input| input.canonicalize().is_ok_and(|input| input == place)) {
        return Err(Failure::Arguments(format!("{option}: {} is a file that is read", path.display())));
    }
    if metadata.permissions().readonly() {
        return Err(no("it is read-only"));
    }
    Ok(Output::File { name: path.to_owned(), place, permissions: Some(metadata.permissions()) })
}

/// The output in a directory that must be there.
fn in_directory(path: &Path) -> Result<Output, Failure> {
    let directory = directory(path);
    if !directory.is_dir() {
        let (path, directory) = (path.display(), directory.display());
        return Err(Failure::File(format!("cannot write {path}: there is no directory {directory}")));
    }
    Ok(Output::File { name: path.to_owned(), place: path.to_owned(), permissions: None })
}

/// The directory that a file stands in.
fn directory(path: &Path) -> &Path {
    path.parent().filter(|parent| !parent.as_os_str().is_empty()).unwrap_or(Path::new("."))
}

/// A file beside an output's place, which is removed again unless it was renamed.
struct Beside {
    path: PathBuf,
    renamed: bool,
}

impl Drop for Beside {
    fn drop(&mut self) {
        if !self.renamed {
            let _ = fs::remove_file(&self.path);
        }
    }
}

/// Writes a file beside its place and renames it.
fn replace(path: &Path, permissions: Option<&Permissions>, parts: &[&[u8]]) -> io::Result<()> {
    let (mut file, mut beside) = create_beside(directory(path))?;
    for part in parts {
        file.write_all(part)?;
    }
    if let Some(permissions) = permissions {
        file.set_permissions(permissions.clone())?;
    }
    file.sync_all()?;
    drop(file);
    fs::rename(&beside.path, path)?;
    beside.renamed = true;
    Ok(())
}

/// Creates a file of a name that is not taken.
fn create_beside(directory: &Path) -> io::Result<(File, Beside)> {
    let mut taken = io::Error::from(ErrorKind::AlreadyExists);
    for number in 0..NAMES {
        let path = directory.join(format!(".gezdunar-{}-{number}.part", process::id()));
        match OpenOptions::new().write(true).create_new(true).open(&path) {
            Ok(file) => return Ok((file, Beside { path, renamed: false })),
            Err(error) if error.kind() == ErrorKind::AlreadyExists => taken = error,
            Err(error) => return Err(error),
        }
    }
    Err(taken)
}
