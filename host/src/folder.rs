//! A delivery's folder: its files opened for reading, and whether it looks like another folder than
//! was meant.

use canopyrail::names;
use std::ffi::{OsStr, OsString};
use std::fmt;
use std::fs::{self, File, FileType};
use std::io;
use std::os::unix::ffi::OsStrExt;
use std::os::unix::fs::FileTypeExt;
use std::path::Path;

use crate::failure::{quoted, Unread};

/// Whether the path is a folder. Without this a mistyped name would be a delivery of no files, and
/// accepted.
pub fn check(directory: &Path) -> Result<(), Unread> {
    if kind_of(directory)?.is_dir() {
        return Ok(());
    }
    Err(Unread::NotDirectory)
}

/// Opens a file. Only a regular one is a file of a delivery: opening a pipe could wait forever.
pub fn open(path: &Path) -> Result<File, Unread> {
    let kind = kind_of(path)?;
    if !kind.is_file() {
        return Err(Unread::NotFile(kind_words(kind)));
    }
    File::open(path).map_err(Unread::System)
}

/// Opens a file if there is one of the name.
pub fn open_if_there(path: &Path) -> Result<Option<File>, Unread> {
    match open(path) {
        Ok(file) => Ok(Some(file)),
        Err(Unread::System(error)) if error.kind() == io::ErrorKind::NotFound => Ok(None),
        Err(unread) => Err(unread),
    }
}

fn kind_of(path: &Path) -> Result<FileType, Unread> {
    match fs::metadata(path) {
        Ok(found) => Ok(found.file_type()),
        Err(error) if error.kind() == io::ErrorKind::NotFound && is_link(path) => {
            Err(Unread::DeadLink)
        }
        Err(error) => Err(Unread::System(error)),
    }
}

fn is_link(path: &Path) -> bool {
    fs::symlink_metadata(path).map_or(false, |found| found.file_type().is_symlink())
}

fn kind_words(kind: FileType) -> &'static str {
    if kind.is_dir() {
        "a directory"
    } else if kind.is_fifo() {
        "a pipe"
    } else if kind.is_socket() {
        "a socket"
    } else {
        "a device"
    }
}

/// What makes a folder look like another than was meant. Its files are judged all the same: an
/// absent file is an empty one.
#[derive(Debug)]
pub enum Doubt {
    /// None of the files is there.
    NoFile,
    /// A file is not there, and names are that differ from its name in case or by an ending.
    LookAlikes { file: usize, names: Vec<OsString> },
}

impl fmt::Display for Doubt {
    fn fmt(&self, out: &mut fmt::Formatter<'_>) -> fmt::Result {
        match self {
            Doubt::NoFile => write!(
                out,
                "none of the files {} is there",
                names::FILES.join(", ")
            ),
            Doubt::LookAlikes { file, names } => {
                let names: Vec<String> = names.iter().map(|name| quoted(name)).collect();
                write!(
                    out,
                    "{} is not there; found in its place: {} (a file's name is in capitals and has \
                     no ending)",
                    names::file(*file),
                    names.join(", ")
                )
            }
        }
    }
}

/// The doubts about a folder in which the files of these numbers are not there.
pub fn doubts(directory: &Path, absent: &[usize]) -> Vec<Doubt> {
    let mut doubts = Vec::new();
    if absent.len() == names::FILES.len() {
        doubts.push(Doubt::NoFile);
    }
    let listed = if absent.is_empty() {
        Vec::new()
    } else {
        listed(directory)
    };
    for file in absent {
        let alike = |name: &&OsString| looks_like(name, names::file(*file));
        let names: Vec<OsString> = listed.iter().filter(alike).cloned().collect();
        if !names.is_empty() {
            doubts.push(Doubt::LookAlikes { file: *file, names });
        }
    }
    doubts
}

/// The names in a folder, sorted; none where they may not be listed, since a folder can be read
/// without.
fn listed(directory: &Path) -> Vec<OsString> {
    let mut names: Vec<OsString> = match fs::read_dir(directory) {
        Ok(entries) => entries
            .filter_map(|entry| Some(entry.ok()?.file_name()))
            .collect(),
        Err(_) => Vec::new(),
    };
    names.sort();
    names
}

/// Whether a name is a file's but for case and an ending: nodo, NODO.TXT, Nodo (2), NODO;1.
fn looks_like(name: &OsStr, file: &str) -> bool {
    let (name, file) = (name.as_bytes(), file.as_bytes());
    let begins = name.len() >= file.len() && name[..file.len()].eq_ignore_ascii_case(file);
    let goes_on = |byte: &u8| byte.is_ascii_alphanumeric() || *byte == b'_';
    begins && !name.get(file.len()).map_or(false, goes_on)
}
