//! The command `canopyrail`: judges a delivery, explains the verdict, counts breaks, shows a record.
#![deny(unsafe_code)]

mod arguments;
mod delivery;
mod explain;
mod failure;
mod folder;
mod help;
mod layout;
#[allow(unsafe_code)]
mod outlet;
mod picture;
mod show;
mod tally;

use canopyrail::Verdict;
use std::env;
use std::ffi::OsString;
use std::io::{self, Write};
use std::path::Path;
use std::process::ExitCode;

use arguments::{given, Takes};
use delivery::Delivery;
use failure::{path_words, Failure, Misuse, Trouble, Unwritten};
use tally::Tally;

const FINE: u8 = 0;
const REFUSED: u8 = 1;
const FAILED: u8 = 2;

const VERSION: &str = concat!("canopyrail ", env!("CARGO_PKG_VERSION"), "\n");

/// What a command has to say on standard output and besides on standard error, and its exit status.
struct Outcome {
    page: String,
    warnings: Vec<String>,
    status: u8,
}

type Ending = Result<Outcome, Failure>;

fn main() -> ExitCode {
    let words: Vec<OsString> = env::args_os().skip(1).collect();
    let status = match run(&words).and_then(print) {
        Ok(status) => status,
        Err(failure) => {
            complain(&failure);
            FAILED
        }
    };
    ExitCode::from(status)
}

fn run(words: &[OsString]) -> Ending {
    let (command, rest) = words.split_first().ok_or(Misuse::NoCommand)?;
    match command.to_str() {
        Some("judge") => judge(rest, help::JUDGE, |_, verdict| canopyrail::line(verdict)),
        Some("explain") => judge(rest, help::EXPLAIN, explain::page),
        Some("grid") => grid(rest),
        Some("show") => show(rest),
        Some("help") => help(rest),
        Some("--help" | "-h") => Ok(fine(help::GENERAL)),
        Some("--version" | "-V") => Ok(fine(VERSION)),
        _ => Err(Misuse::UnknownWord(command.clone()).into()),
    }
}

/// Judges a folder and says the verdict in the words that the command has for it.
fn judge(rest: &[OsString], help: &str, words: fn(&Delivery, &Verdict) -> String) -> Ending {
    let given = given(rest, Takes::Strict)?;
    if given.help {
        return Ok(fine(help));
    }
    let directory = given.directory()?;
    let delivery = opened(directory, given.strict).map_err(Failure::Judging)?;
    let verdict = delivery.judge().map_err(Failure::Judging)?;
    Ok(Outcome {
        page: words(&delivery, &verdict),
        warnings: warnings(directory, &delivery),
        status: status(&verdict),
    })
}

/// Counts the breaks of folders, all of them together.
fn grid(rest: &[OsString]) -> Ending {
    let given = given(rest, Takes::StrictAndWords)?;
    if given.help {
        return Ok(fine(help::GRID));
    }
    let mut tally = Tally::default();
    let mut warned = Vec::new();
    for directory in given.directories()? {
        let delivery = opened(directory, given.strict).map_err(Failure::Judging)?;
        let grid = delivery.grid().map_err(Failure::Judging)?;
        tally.add(directory, &grid)?;
        warned.extend(warnings(directory, &delivery));
    }
    Ok(Outcome {
        page: if given.in_words {
            tally.page()
        } else {
            canopyrail::rows(&tally.grid)
        },
        warnings: warned,
        status: if tally.refused == 0 { FINE } else { REFUSED },
    })
}

fn opened(directory: &Path, strict: bool) -> Result<Delivery, Trouble> {
    let delivery = Delivery::open(directory)?;
    if strict && !delivery.doubts.is_empty() {
        return Err(Trouble::Doubtful(directory.into(), delivery.doubts));
    }
    Ok(delivery)
}

fn warnings(directory: &Path, delivery: &Delivery) -> Vec<String> {
    let path = path_words(directory);
    let doubts = delivery.doubts.iter();
    doubts.map(|doubt| format!("{path}: {doubt}")).collect()
}

fn show(rest: &[OsString]) -> Ending {
    let given = given(rest, Takes::Name)?;
    if given.help {
        return Ok(fine(help::SHOW));
    }
    let (path, file, record) = given.file_and_record()?;
    let (page, lawful) = show::page(file, path, record).map_err(Failure::Showing)?;
    Ok(Outcome {
        page,
        warnings: Vec::new(),
        status: if lawful { FINE } else { REFUSED },
    })
}

fn help(rest: &[OsString]) -> Ending {
    match rest {
        [] => Ok(fine(help::GENERAL)),
        [command] => match command.to_str().and_then(help::page) {
            Some(page) => Ok(fine(page)),
            None => Err(Misuse::UnknownHelp(command.clone()).into()),
        },
        _ => Err(Misuse::SeveralHelps.into()),
    }
}

fn status(verdict: &Verdict) -> u8 {
    match verdict {
        Verdict::Accepted(_) => FINE,
        Verdict::Broken(_) => REFUSED,
    }
}

fn fine(page: &str) -> Outcome {
    Outcome {
        page: page.to_string(),
        warnings: Vec::new(),
        status: FINE,
    }
}

/// Prints warnings and a page and answers the exit status. A reader that went away has seen what it
/// wanted, so the status stands; any other trouble means that the page isn't out.
fn print(outcome: Outcome) -> Result<u8, Failure> {
    for warning in &outcome.warnings {
        tell(&format!("canopyrail: warning: {warning}\n"));
    }
    if outlet::was_closed() {
        return Err(Failure::Writing(Unwritten::Closed));
    }
    let mut output = io::stdout();
    match output
        .write_all(outcome.page.as_bytes())
        .and_then(|()| output.flush())
    {
        Err(error) if error.kind() != io::ErrorKind::BrokenPipe => {
            Err(Failure::Writing(Unwritten::System(error)))
        }
        _ => Ok(outcome.status),
    }
}

fn complain(failure: &Failure) {
    let usage = match failure {
        Failure::Usage(_) => help::USAGE,
        _ => "",
    };
    tell(&format!("canopyrail: {failure}\n{usage}"));
}

/// Writes to standard error; where that is closed there is nobody left to tell.
fn tell(page: &str) {
    let _ = io::stderr().write_all(page.as_bytes());
}
