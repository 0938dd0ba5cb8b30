//! One record's values, a field a line.

use canopyrail::names::{self, Form};
use canopyrail::{Refusal, Value};
use std::io::{self, Read};
use std::path::Path;

use crate::delivery::value_words;
use crate::explain::bytes::{field_here, field_marks};
use crate::failure::{Trouble, Unread};
use crate::folder;
use crate::layout::{place_words, Part};
use crate::picture::{self, shown};

/// A record's page, and whether the record is lawful.
pub fn page(file: usize, path: &Path, record: u64) -> Result<(String, bool), Trouble> {
    let unread = |unread| Trouble::Unread(path.into(), unread);
    let bytes = match fetch(file, path, record).map_err(unread)? {
        Fetched::Record(bytes) => bytes,
        Fetched::Short(whole) => {
            return Err(Trouble::NoRecord {
                file,
                record,
                whole,
            })
        }
    };
    match canopyrail::read(file, &bytes, 1) {
        Ok(values) => Ok((lawful(file, &bytes, &values), true)),
        Err(refusal) => Ok((unlawful(file, &bytes, record, refusal), false)),
    }
}

enum Fetched {
    Record(Vec<u8>),
    /// The file has only so many whole records.
    Short(u64),
}

/// One record's bytes, from a file of any size.
fn fetch(file: usize, path: &Path, record: u64) -> Result<Fetched, Unread> {
    let source = folder::open(path)?;
    pick(file, source, record).map_err(Unread::System)
}

/// What comes before the record is passed over and not kept.
fn pick(file: usize, mut source: impl Read, record: u64) -> io::Result<Fetched> {
    let length = canopyrail::length(file) as u64;
    let before = record.saturating_sub(1).saturating_mul(length);
    let passed = io::copy(&mut source.by_ref().take(before), &mut io::sink())?;
    let mut bytes = Vec::new();
    source.take(length).read_to_end(&mut bytes)?;
    if record == 0 || bytes.len() as u64 != length {
        return Ok(Fetched::Short((passed + bytes.len() as u64) / length));
    }
    Ok(Fetched::Record(bytes))
}

fn lawful(file: usize, bytes: &[u8], values: &[Value]) -> String {
    let mut text = String::new();
    for (place, value) in values.iter().enumerate() {
        let field = place + 1;
        let said = sign(file, field, bytes).unwrap_or_else(|| value_words(value));
        text.push_str(&format!(
            "{field:2} {:8} {said}\n",
            names::field(file, field)
        ));
    }
    text
}

/// A coordinate's sign, if the field is one and filled: it has no value of its own, but people look
/// for it there.
fn sign(file: usize, field: usize, bytes: &[u8]) -> Option<String> {
    let said = Part::field(file, field).of(bytes);
    match names::form(file, field) {
        Some(Form::Sign) if said != b" " => Some(shown(said)),
        _ => None,
    }
}

fn unlawful(file: usize, bytes: &[u8], record: u64, refusal: Refusal) -> String {
    let Refusal { reason, field } = refusal;
    let mut text = picture::paragraph("Where", &place_words(file, record as usize, field));
    text.push_str(&picture::record(
        file,
        bytes,
        &field_marks(file, reason, field),
    ));
    let (number, wrong) = (reason.number(), reason.words().wrong);
    text.push_str(&picture::paragraph("Wrong", &format!("({number}) {wrong}")));
    let here = field_here(file, bytes, reason, field);
    if !here.is_empty() {
        text.push_str(&picture::paragraph("Here", &here));
    }
    text
}
