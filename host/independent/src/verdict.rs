//! The verdict on a delivery, and the line the program prints of it.

use crate::breaks::{Break, First};
use crate::layout::{FILES, LENGTHS};
use crate::rules;

/// The file bytes past which the program says BIG.
const BIG: usize = 8_192;

/// What is said of a delivery.
#[derive(Clone, Debug, PartialEq, Eq)]
pub enum Verdict {
    /// No rule is broken; the whole records of each file.
    Accepted([usize; FILES]),
    /// The first break.
    Broken(Break),
}

/// The whole records in each file's bytes.
pub fn counts(files: [&[u8]; FILES]) -> [usize; FILES] {
    let mut counts = [0; FILES];
    for (i, count) in counts.iter_mut().enumerate() {
        *count = files[i].len() / LENGTHS[i];
    }
    counts
}

/// Judges a delivery of files of any size.
pub fn judge(files: [&[u8]; FILES]) -> Verdict {
    match rules::check(files, &mut First) {
        Ok(()) => Verdict::Accepted(counts(files)),
        Err(broken) => Verdict::Broken(broken),
    }
}

/// The program's line for a verdict, with its line feed.
pub fn line(verdict: &Verdict) -> String {
    match verdict {
        Verdict::Accepted(counts) => {
            let counts: String = counts.iter().map(|n| format!(" {n:05}")).collect();
            format!("OK{counts}\n")
        }
        Verdict::Broken(b) => format!(
            "NO {:02} {} {:05} {:02}\n",
            b.reason, b.file, b.record, b.field
        ),
    }
}

/// The program's line for a delivery, BIG included.
pub fn program_line(files: [&[u8]; FILES]) -> String {
    match files.iter().position(|bytes| bytes.len() > BIG) {
        Some(i) => format!("BIG {}\n", i + 1),
        None => line(&judge(files)),
    }
}
