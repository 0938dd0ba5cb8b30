//! The verdict on a delivery.

use std::error::Error;
use std::fmt;
use std::io;

use crate::{calls, count, names, Reason, FILES};

/// The first break of a delivery: a reason and its place.
#[derive(Clone, Copy, Debug, PartialEq, Eq, Hash)]
pub struct Break {
    /// The reason, of number 10 to 59, or 70.
    pub reason: Reason,
    /// The file, 1 to 8.
    pub file: usize,
    /// The record, from 1; 0 is the file as a whole.
    pub record: usize,
    /// The field, from 1; 0 is the record as a whole.
    pub field: usize,
    /// What else the reason tells: of 30 and 54 the earlier record, of 41 the letter (as a byte)
    /// that the code is catalogued under; else 0.
    pub other: u64,
}

/// As `TRAMO record 1, field 7 ID_NODOF: reason 53: the line ends elsewhere than its end node`.
impl fmt::Display for Break {
    fn fmt(&self, out: &mut fmt::Formatter<'_>) -> fmt::Result {
        write!(out, "{}", names::file(self.file))?;
        if self.record > 0 {
            write!(out, " record {}", self.record)?;
        }
        if self.field > 0 {
            let name = names::field(self.file, self.field);
            write!(out, ", field {} {name}", self.field)?;
        }
        write!(out, ": {}", self.reason)
    }
}

impl Error for Break {}

/// What a delivery is found to be.
#[must_use = "a delivery that is refused may not be used"]
#[derive(Clone, Copy, Debug, PartialEq, Eq, Hash)]
pub enum Verdict {
    /// No rule is broken; the records of each file.
    Accepted([usize; FILES]),
    /// The first break in the fixed order.
    Broken(Break),
}

impl Verdict {
    /// The records of each file, or the break as an error.
    pub const fn into_result(self) -> Result<[usize; FILES], Break> {
        match self {
            Verdict::Accepted(counts) => Ok(counts),
            Verdict::Broken(found) => Err(found),
        }
    }
}

/// The verdict program's line, without the line feed.
impl fmt::Display for Verdict {
    fn fmt(&self, out: &mut fmt::Formatter<'_>) -> fmt::Result {
        match self {
            Verdict::Accepted(counts) => {
                write!(out, "OK")?;
                counts
                    .iter()
                    .try_for_each(|count| write!(out, " {count:05}"))
            }
            Verdict::Broken(b) => write!(
                out,
                "NO {:02} {} {:05} {:02}",
                b.reason.number(),
                b.file,
                b.record,
                b.field
            ),
        }
    }
}

/// The verdict program's line, with the line feed: `OK` and eight counts, or `NO`, reason, file,
/// record and field.
#[must_use]
pub fn line(verdict: &Verdict) -> String {
    format!("{verdict}\n")
}

/// Judges a delivery by the bytes of its eight files, in any state; an absent file is an empty one.
///
/// The judging runs on a thread of its own, which has the stack that it takes: so it may be called
/// on any thread, however little stack is left there.
///
/// # Panics
///
/// Where no thread can be made, as [`std::thread::spawn`] does. [`try_judge`] gives an error then.
pub fn judge(files: [&[u8]; FILES]) -> Verdict {
    try_judge(files).expect("a thread to judge on")
}

/// As [`judge`]; where no thread can be made it gives the system's error.
///
/// # Errors
///
/// Only where no thread can be made. A delivery that is refused is a verdict and no error.
pub fn try_judge(files: [&[u8]; FILES]) -> io::Result<Verdict> {
    calls::judge(&files).map(|answer| verdict(answer, files))
}

/// As [`judge`], on the caller's own stack: for a thread that was made with stack enough and judges
/// many small deliveries, of which a thread each would take more time than the judging.
///
/// # Safety
///
/// The thread must have [`STACK`](crate::STACK) bytes of stack left. One made by
/// [`std::thread::spawn`] has 2 MiB unless told otherwise, which is not enough.
#[allow(unsafe_code)]
pub unsafe fn judge_here(files: [&[u8]; FILES]) -> Verdict {
    // SAFETY: the caller's promise is the one that the call asks for.
    verdict(unsafe { calls::judge_here(&files) }, files)
}

fn verdict(answer: u64, files: [&[u8]; FILES]) -> Verdict {
    match calls::told(answer) {
        None => Verdict::Accepted(counts(files)),
        Some(told) => Verdict::Broken(Break {
            reason: told.reason,
            file: told.file,
            record: told.record,
            field: told.field,
            other: told.other,
        }),
    }
}

fn counts(files: [&[u8]; FILES]) -> [usize; FILES] {
    let mut counts = [0; FILES];
    for (place, bytes) in files.iter().enumerate() {
        counts[place] = count(place + 1, bytes);
    }
    counts
}
