//! Canopyrail for hosts: a checker and codec for MIGRA v1 map deliveries (chain-node profile, eight
//! files), as safe functions over the proved library `libcanopyrail.a`.
//!
//! Files are numbered 1 CATALOGO, 2 OB_PUN, 3 OB_TEX, 4 OB_LIN, 5 TRAMO, 6 VERTICE, 7 NODO, 8
//! OB_COMP; records and fields are counted from 1. Record 0 is the file as a whole, field 0 the
//! record as a whole.
//! [`Reason`] has every reason by name and number, [`words`] in plain words, [`names`] MIGRA's own
//! names.
//!
//! [`judge`] tells a delivery's first break, [`grid()`] counts them all. Nothing is kept between
//! calls, so several threads may call at once.
//!
//! ```
//! # fn main() -> Result<(), canopyrail::Break> {
//! let mut files: [&[u8]; canopyrail::FILES] = [&[]; canopyrail::FILES];
//! files[7 - 1] = b""; // NODO's bytes
//! let counts = canopyrail::judge(files).into_result()?;
//! assert_eq!(counts, [0; 8]);
//! # Ok(())
//! # }
//! ```
//!
//! A verdict that nobody looks at is a mistake:
//!
//! ```compile_fail
//! #![deny(unused_must_use)]
//! canopyrail::judge([&[]; canopyrail::FILES]);
//! ```
#![deny(unsafe_code, unsafe_op_in_unsafe_fn)]
#![warn(missing_docs)]

#[allow(unsafe_code)]
mod calls;
mod grid;
pub mod names;
mod reason;
mod record;
mod verdict;
pub mod words;

pub use grid::{grid, grid_here, rows, try_grid, Grid};
pub use reason::Reason;
pub use record::{read, write, Refusal, Value};
pub use verdict::{judge, judge_here, line, try_judge, Break, Verdict};

/// How many files a delivery has.
pub const FILES: usize = calls::FILES;
/// How many groups of reasons there are, by their tens: 10 to 11, 20 to 25, 30, 40 to 41, 50 to 59,
/// 70.
pub const GROUPS: usize = calls::GROUPS;
/// At most so many records a file; a longer file is refused with reason 10.
pub const RECORDS: usize = 16_384;
/// The most fields a record has.
pub const FIELDS: usize = calls::FIELDS;
/// The bytes of the longest text.
pub const TEXT: usize = calls::TEXT;
/// The bytes of the longest record.
pub const LONGEST: usize = 149;
/// A judging, and a counting of breaks, takes at most so many bytes of stack, whatever the files' sizes.
pub const STACK: usize = calls::STACK;

/// The version of the library that is linked: major * 10000 + minor * 100 + patch.
#[must_use]
pub fn version() -> u64 {
    calls::version()
}

/// The number of whole records in a file's bytes; 0 where there is no file of the number.
#[must_use]
pub fn count(file: usize, bytes: &[u8]) -> usize {
    calls::count(file, bytes)
}

/// How many fields a record of the file has; 0 where there is no file of the number.
#[must_use]
pub fn fields(file: usize) -> usize {
    calls::fields(file)
}

/// How many bytes a record of the file has; 0 where there is no file of the number.
#[must_use]
pub fn length(file: usize) -> usize {
    calls::length(file)
}

/// Where a field begins in its record, from 0; 0 of no file and of no field.
#[must_use]
pub fn offset(file: usize, field: usize) -> usize {
    calls::offset(file, field)
}

/// How many bytes a field has; 0 of no file and of no field.
#[must_use]
pub fn width(file: usize, field: usize) -> usize {
    calls::width(file, field)
}
