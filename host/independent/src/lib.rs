//! A second checker and codec for MIGRA v1 map deliveries.
//!
//! It is written from document 01, requests W-201 to W-204 and W-206 of
//! document 02 and the notes of source 000 that these name, alone, and exists
//! to be compared byte for byte with the proved library: the same files,
//! records and values go to both, and both must say the same. So it shares no
//! code with that library and is built in another way, over the hash maps of
//! the standard library and with no proofs. It is also the baseline of the
//! benchmark.
//!
//! Files, records and fields are counted from 1 everywhere, as in the
//! document. No call panics, whatever its bytes or numbers are.

#![forbid(unsafe_code)]
#![warn(missing_docs)]

mod breaks;
mod codec;
mod composites;
mod delivery;
mod grid;
mod keys;
mod layout;
mod metadata;
mod record;
mod references;
mod rules;
mod topology;
mod verdict;

pub use breaks::Break;
pub use codec::{read, write, Refusal, Value};
pub use grid::{add, grid, Grid, TENS};
pub use layout::{field_name, fields, form, width, Form, FILES, LENGTHS, NAMES};
pub use metadata::{metadata_fault, MetadataFault};
pub use verdict::{counts, judge, line, program_line, Verdict};
