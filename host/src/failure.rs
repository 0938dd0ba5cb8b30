//! Why the command could not do its work.

use canopyrail::{names, Refusal};
use std::error::Error;
use std::ffi::{OsStr, OsString};
use std::fmt;
use std::io;
use std::os::unix::ffi::OsStrExt;
use std::path::{Path, PathBuf};

use crate::folder::Doubt;
use crate::picture::{many, shown};

/// What a command says on standard error in place of its page; its exit status is then 2.
#[derive(Debug)]
pub enum Failure {
    /// The command was not given what it takes.
    Usage(Misuse),
    /// A delivery could not be judged.
    Judging(Trouble),
    /// A folder's grid could not be added to those of the folders before it.
    Adding(PathBuf, Refusal),
    /// A record could not be shown.
    Showing(Trouble),
    /// A page could not be written.
    Writing(Unwritten),
}

impl fmt::Display for Failure {
    fn fmt(&self, out: &mut fmt::Formatter<'_>) -> fmt::Result {
        match self {
            Failure::Usage(misuse) => write!(out, "{misuse}"),
            Failure::Judging(trouble) => write!(out, "could not judge: {trouble}"),
            Failure::Adding(path, refusal) => {
                let path = path_words(path);
                write!(out, "could not add {path} to those before it: {refusal}")
            }
            Failure::Showing(trouble) => write!(out, "could not show: {trouble}"),
            Failure::Writing(unwritten) => write!(out, "could not write: {unwritten}"),
        }
    }
}

impl Error for Failure {}

impl From<Misuse> for Failure {
    fn from(misuse: Misuse) -> Failure {
        Failure::Usage(misuse)
    }
}

/// What is wrong with the words after the command's name.
#[derive(Debug)]
pub enum Misuse {
    NoCommand,
    UnknownWord(OsString),
    UnknownOption(OsString),
    UnknownHelp(OsString),
    SeveralHelps,
    NoDirectory,
    SeveralDirectories,
    EmptyPath,
    NoFileAndRecord,
    NoRecordNumber(OsString),
    UnknownName(OsString),
    NoName,
}

impl fmt::Display for Misuse {
    fn fmt(&self, out: &mut fmt::Formatter<'_>) -> fmt::Result {
        match self {
            Misuse::NoCommand => write!(out, "a command is missing"),
            Misuse::UnknownWord(word) => write!(out, "unknown word {}", quoted(word)),
            Misuse::UnknownOption(word) => write!(out, "unknown option {}", quoted(word)),
            Misuse::UnknownHelp(word) => write!(out, "no help on {}", quoted(word)),
            Misuse::SeveralHelps => write!(out, "help takes one command at most"),
            Misuse::NoDirectory => write!(out, "a directory is missing"),
            Misuse::SeveralDirectories => write!(out, "only one directory can be judged at a time"),
            Misuse::EmptyPath => write!(out, "the path given is empty"),
            Misuse::NoFileAndRecord => write!(out, "show takes a file and a record number"),
            Misuse::NoRecordNumber(word) => write!(out, "{} is no record number", quoted(word)),
            Misuse::UnknownName(name) => {
                let files = names::FILES.join(", ");
                let name = quoted(name);
                write!(out, "{name} is none of {files}; --as NAME says which it is")
            }
            Misuse::NoName => write!(out, "--as takes a name"),
        }
    }
}

impl Error for Misuse {}

/// Why a delivery or a record is not in hand.
#[derive(Debug)]
pub enum Trouble {
    /// Something could not be read.
    Unread(PathBuf, Unread),
    /// The folder looks like another than was meant, and --strict was given.
    Doubtful(PathBuf, Vec<Doubt>),
    /// No thread could be made to judge on.
    NoThread(io::Error),
    /// A file has only so many whole records.
    NoRecord {
        file: usize,
        record: u64,
        whole: u64,
    },
}

impl fmt::Display for Trouble {
    fn fmt(&self, out: &mut fmt::Formatter<'_>) -> fmt::Result {
        match self {
            Trouble::Unread(path, unread) => write!(out, "{}: {unread}", path_words(path)),
            Trouble::Doubtful(path, doubts) => {
                let words: Vec<String> = doubts.iter().map(Doubt::to_string).collect();
                write!(out, "{}: {}", path_words(path), words.join("; "))
            }
            Trouble::NoThread(error) => {
                write!(out, "no thread to judge on: {}", system_words(error))
            }
            Trouble::NoRecord { record: 0, .. } => write!(out, "records are counted from 1"),
            Trouble::NoRecord {
                file,
                record,
                whole,
            } => write!(
                out,
                "there is no record {record}: {} has {}",
                names::file(*file),
                many(*whole as usize, "whole record")
            ),
        }
    }
}

impl Error for Trouble {}

/// Why a path can't be read.
#[derive(Debug)]
pub enum Unread {
    /// The system's own answer.
    System(io::Error),
    /// A link is there, and what it names is not.
    DeadLink,
    /// A folder was asked for.
    NotDirectory,
    /// A file was asked for, and this is there.
    NotFile(&'static str),
}

impl fmt::Display for Unread {
    fn fmt(&self, out: &mut fmt::Formatter<'_>) -> fmt::Result {
        match self {
            Unread::System(error) => write!(out, "{}", system_words(error)),
            Unread::DeadLink => write!(out, "a link to something that is not there"),
            Unread::NotDirectory => write!(out, "not a directory"),
            Unread::NotFile(what) => write!(out, "{what}, not a file"),
        }
    }
}

impl Error for Unread {}

/// Why a page is not out.
#[derive(Debug)]
pub enum Unwritten {
    /// There is no standard output.
    Closed,
    /// The system's own answer.
    System(io::Error),
}

impl fmt::Display for Unwritten {
    fn fmt(&self, out: &mut fmt::Formatter<'_>) -> fmt::Result {
        match self {
            Unwritten::Closed => write!(out, "standard output is closed"),
            Unwritten::System(error) => write!(out, "{}", system_words(error)),
        }
    }
}

impl Error for Unwritten {}

/// The system's words for an error, without its number.
fn system_words(error: &io::Error) -> String {
    let words = error.to_string();
    match words.find(" (os error ") {
        Some(end) => words[..end].to_string(),
        None => words,
    }
}

/// A path in plain ASCII: it may hold any bytes.
pub fn path_words(path: &Path) -> String {
    shown(path.as_os_str().as_bytes())
}

/// A word as it was given, in plain ASCII.
pub fn quoted(word: &OsStr) -> String {
    format!("'{}'", shown(word.as_bytes()))
}
