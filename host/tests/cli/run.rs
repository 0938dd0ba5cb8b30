//! The command run in a folder of its own, and its pages looked at.

use std::ffi::OsStr;
use std::fs;
use std::path::{Path, PathBuf};
use std::process::{Command, Stdio};
use std::sync::atomic::{AtomicUsize, Ordering};

use crate::build::{Files, NAMES};

/// A directory for one test, removed at its end.
pub struct Room {
    pub path: PathBuf,
}

impl Room {
    pub fn new() -> Room {
        Room::named(OsStr::new("delivery"))
    }

    pub fn named(name: &OsStr) -> Room {
        static NEXT: AtomicUsize = AtomicUsize::new(0);
        let number = NEXT.fetch_add(1, Ordering::Relaxed);
        let mut name = name.to_os_string();
        name.push(format!("-{}-{number}", std::process::id()));
        let path = std::env::temp_dir().join(name);
        fs::create_dir_all(&path).unwrap();
        Room { path }
    }

    /// Writes the delivery's files; those that are empty stay absent.
    pub fn holding(files: &Files) -> Room {
        let room = Room::new();
        room.put(files);
        room
    }

    /// Writes the delivery's files, those that are empty too.
    pub fn holding_all(files: &Files) -> Room {
        let room = Room::new();
        for (place, bytes) in files.bytes.iter().enumerate() {
            fs::write(room.path.join(NAMES[place]), bytes).unwrap();
        }
        room
    }

    pub fn put(&self, files: &Files) {
        for (place, bytes) in files.bytes.iter().enumerate() {
            if !bytes.is_empty() {
                fs::write(self.path.join(NAMES[place]), bytes).unwrap();
            }
        }
    }

    pub fn file(&self, file: usize) -> PathBuf {
        self.path.join(NAMES[file - 1])
    }
}

impl Drop for Room {
    fn drop(&mut self) {
        let _ = fs::remove_dir_all(&self.path);
    }
}

/// What a run of the command gave.
pub struct Run {
    pub status: i32,
    pub out: String,
    pub err: String,
}

pub fn command<T: AsRef<OsStr>>(words: &[T]) -> Command {
    let mut command = Command::new(env!("CARGO_BIN_EXE_canopyrail"));
    command.args(words).stdin(Stdio::null());
    command
}

fn ended(command: &mut Command) -> Run {
    let output = command.output().unwrap();
    Run {
        status: output.status.code().expect("ended by a signal"),
        out: String::from_utf8(output.stdout).unwrap(),
        err: String::from_utf8(output.stderr).unwrap(),
    }
}

pub fn run<T: AsRef<OsStr>>(words: &[T]) -> Run {
    ended(&mut command(words))
}

/// Runs what may wait for something; after half a minute it is ended, with a status of its own.
pub fn run_in_time<T: AsRef<OsStr>>(words: &[T]) -> Run {
    let mut command = Command::new("timeout");
    command.args(["30", env!("CARGO_BIN_EXE_canopyrail")]);
    ended(command.args(words).stdin(Stdio::null()))
}

pub fn judge(path: &Path) -> Run {
    run(&[OsStr::new("judge"), path.as_os_str()])
}

pub fn explain(path: &Path) -> Run {
    run(&[OsStr::new("explain"), path.as_os_str()])
}

pub fn grid(path: &Path) -> Run {
    run(&[OsStr::new("grid"), path.as_os_str()])
}

pub fn show(path: &Path, record: &str) -> Run {
    run(&[OsStr::new("show"), path.as_os_str(), OsStr::new(record)])
}

/// A page without its line breaks, so that sentences can be looked for.
pub fn flowing(page: &str) -> String {
    page.split_whitespace().collect::<Vec<_>>().join(" ")
}

/// What stands above each row of carets on a page.
pub fn marked(page: &str) -> Vec<String> {
    let lines: Vec<&str> = page.lines().collect();
    let mut found = Vec::new();
    for pair in lines.windows(2) {
        if pair[1].contains('^') && pair[1].chars().all(|each| each == '^' || each == ' ') {
            for part in runs(pair[1]) {
                found.push(pair[0][part].to_string());
            }
        }
    }
    found
}

/// The places of the runs of carets in a line.
fn runs(line: &str) -> Vec<std::ops::Range<usize>> {
    let mut runs = Vec::new();
    let mut start = None;
    for (place, each) in line.chars().chain(" ".chars()).enumerate() {
        match (each, start) {
            ('^', None) => start = Some(place),
            (' ', Some(first)) => {
                runs.push(first..place);
                start = None;
            }
            _ => {}
        }
    }
    runs
}
