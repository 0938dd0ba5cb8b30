//! What is told of one file's bytes: its shape (10, 11) and its records' fields (20 to 25).

use canopyrail::names::{self, Form};
use canopyrail::{Break, Reason};

use super::{likeness, Page};
use crate::delivery::Delivery;
use crate::layout::{end_part, field_words, limit, x_field, Part};
use crate::layout::{CATALOGO, NODO, OB_COMP, OB_LIN, TRAMO};
use crate::picture::{byte_words, grouped, many, shown, NO_BREAK};

pub fn too_long(page: &mut Page, b: &Break) {
    let text = format!(
        "{} has more than {} bytes, which are {} records of {} bytes.",
        names::file(b.file),
        grouped(limit(b.file)),
        grouped(canopyrail::RECORDS),
        canopyrail::length(b.file)
    );
    page.say("Here", &text);
}

pub fn ragged(page: &mut Page, delivery: &Delivery, b: &Break) {
    let bytes = delivery.bytes(b.file);
    let length = canopyrail::length(b.file);
    let name = names::file(b.file);
    let left = delivery.record(b.file, b.record).len();
    let whole = many(delivery.count(b.file), "whole record");
    let text = format!(
        "{name} has {}: {whole} of {length}, then {}.",
        many(bytes.len(), "byte"),
        many(left, "byte")
    );
    page.say("Here", &text);
    page.more(&tail_words(delivery.record(b.file, b.record)));
    page.more(&step_words(bytes, length));
    page.more(&likeness::words(bytes));
}

/// What a file's odd bytes look like, where that is known.
fn tail_words(tail: &[u8]) -> String {
    let what = match tail {
        [0x1A] => "That is the end mark of old systems (1A).",
        [b'\r', b'\n'] | [b'\n'] | [b'\r'] => "That is a line end without a record.",
        _ if tail.iter().all(|byte| *byte == 0) => {
            "They are zero bytes, which a copy can leave behind."
        }
        _ => "",
    };
    what.to_string()
}

/// Where a file's first line ends, if elsewhere than a record does.
fn step_words(bytes: &[u8], length: usize) -> String {
    match bytes.iter().position(|byte| *byte == b'\n') {
        Some(place) if place + 1 != length => {
            let byte = grouped(place + 1);
            format!("The file's first line feed is its byte {byte}; a record has {length}.")
        }
        None if bytes.len() >= length => "The file has no line feed.".to_string(),
        _ => String::new(),
    }
}

pub fn bad_end(page: &mut Page, delivery: &Delivery, b: &Break) {
    let record = delivery.record(b.file, b.record);
    let length = canopyrail::length(b.file);
    page.say("Here", &end_words(b.file, record));
    // Records before this one end where they should, so it begins where it should and its own line
    // end tells its length.
    let start = (b.record - 1) * length;
    let rest = delivery.bytes(b.file).get(start..).unwrap_or(&[]);
    page.more(&own_step_words(rest, length));
    page.more(&likeness::words(delivery.bytes(b.file)));
}

fn own_step_words(rest: &[u8], length: usize) -> String {
    match rest.iter().position(|byte| *byte == b'\n') {
        Some(place) if place + 1 < length => format!(
            "Its line feed comes too early, as byte {} of {length}.",
            place + 1
        ),
        Some(place) if place + 1 > length => {
            format!(
                "Its line feed comes too late, as byte {} where the record has {length}.",
                place + 1
            )
        }
        Some(_) => {
            "Its line feed is in its place, and the carriage return before it is not.".to_string()
        }
        None => "No line feed follows at all.".to_string(),
    }
}

fn end_words(file: usize, record: &[u8]) -> String {
    let end = end_part(file).of(record);
    let found: Vec<String> = end.iter().map(|byte| byte_words(*byte)).collect();
    format!("In place of the end bytes stand {}.", found.join(" and "))
}

/// What a reason that reads one record marks in it.
pub fn field_marks(file: usize, reason: Reason, field: usize) -> Vec<Part> {
    let place = Part::field(file, field);
    match reason {
        Reason::BadEnd => vec![end_part(file)],
        Reason::NoBar => vec![Part {
            start: place.end,
            end: place.end + 1,
        }],
        _ => vec![place],
    }
}

/// What a reason of 20 to 25 finds in a record; nothing of other reasons.
pub fn field_here(file: usize, record: &[u8], reason: Reason, field: usize) -> String {
    let place = Part::field(file, field);
    let bytes = place.of(record);
    match reason {
        Reason::BadEnd => end_words(file, record),
        Reason::NoBar => match record.get(place.end) {
            Some(byte) => format!("After the field stands {}.", byte_words(*byte)),
            None => String::new(),
        },
        Reason::NotNumber => not_number(bytes),
        Reason::NotText => not_text(bytes),
        Reason::Missing => missing(file, record, field),
        Reason::Outside => outside(file, record, field),
        _ => String::new(),
    }
}

fn not_number(bytes: &[u8]) -> String {
    let bar = if bytes.contains(&b'|') {
        " A bar in it: is a field before it written with the wrong width?"
    } else {
        ""
    };
    match bytes.iter().position(|byte| !byte.is_ascii_digit()) {
        Some(place) => format!(
            "Byte {} of the field is {}.{bar}",
            place + 1,
            byte_words(bytes[place])
        ),
        None => String::new(),
    }
}

fn not_text(bytes: &[u8]) -> String {
    if bytes.first() == Some(&b' ') {
        return "The field begins in a blank and is not all blank.".to_string();
    }
    match bytes
        .iter()
        .position(|byte| matches!(*byte, 0x00..=0x1F | 0x7F..=0x9F))
    {
        Some(place) => format!(
            "Byte {} of the field is {}.",
            place + 1,
            byte_words(bytes[place])
        ),
        None => padded(bytes),
    }
}

/// Where a text begins or ends in no-break blanks, and what that byte is: on a screen it can't be
/// told from a blank.
fn padded(bytes: &[u8]) -> String {
    let last = bytes.iter().rposition(|byte| *byte != b' ');
    let text = &bytes[..last.map_or(0, |place| place + 1)];
    let is_padding = |byte: &&u8| **byte == NO_BREAK;
    let before = text.iter().take_while(is_padding).count();
    let after = text.iter().rev().take_while(is_padding).count();
    let mut said = String::new();
    if before > 0 {
        said.push_str(&padding_words(1, before, "begins"));
    }
    if after > 0 && before < text.len() {
        said.push_str(&padding_words(text.len() - after + 1, text.len(), "ends"));
    }
    if said.is_empty() {
        return said;
    }
    said + "That byte looks like a blank and is none: some converters fill short texts up with it, \
            and a search for the text misses it then."
}

/// That the bytes from one to another, counted from 1, are no-break blanks.
fn padding_words(first: usize, last: usize, does: &str) -> String {
    if first == last {
        let what = byte_words(NO_BREAK);
        return format!("Byte {first} of the field is {what}, and the text {does} in it. ");
    }
    format!(
        "Bytes {first} to {last} of the field are no-break blanks (A0), and the text {does} in \
         them. "
    )
}

fn is_blank(bytes: &[u8]) -> bool {
    bytes.iter().all(|byte| *byte == b' ')
}

/// The other half of a coordinate.
fn partner(file: usize, field: usize) -> Option<usize> {
    match names::form(file, field)? {
        Form::Sign => Some(field + 1),
        Form::Coordinate => Some(field - 1),
        Form::Number | Form::Text => None,
    }
}

fn missing(file: usize, record: &[u8], field: usize) -> String {
    let part = |field: usize| Part::field(file, field).of(record);
    if !is_blank(part(field)) {
        return format!(
            "The field says {}, which is no code.",
            shown(part(field)).trim_end()
        );
    }
    match partner(file, field) {
        Some(other) if !is_blank(part(other)) => {
            format!(
                "The field is blank, and its partner, {}, holds {}.",
                field_words(file, other),
                shown(part(other))
            )
        }
        Some(_) if [OB_LIN, OB_COMP].contains(&file) => centroid_words(file, record),
        _ => "The field is blank.".to_string(),
    }
}

/// Which parts of a centroid are there.
fn centroid_words(file: usize, record: &[u8]) -> String {
    let there = |field: &usize| !is_blank(Part::field(file, *field).of(record));
    let first = x_field(file) - 1;
    let filled: Vec<&str> = (first..first + 6)
        .filter(there)
        .map(|field| names::field(file, field))
        .collect();
    format!(
        "The field is blank, and of the centroid these are filled: {}.",
        filled.join(", ")
    )
}

fn outside(file: usize, record: &[u8], field: usize) -> String {
    let bytes = Part::field(file, field).of(record);
    if names::form(file, field) == Some(Form::Sign) && bytes == b"-" {
        return format!(
            "The sign is -, and {} is zero.",
            names::field(file, field + 1)
        );
    }
    let may = match (file, names::field(file, field)) {
        (CATALOGO, "TIPO") => "P (point), X (text), L (line), T (tramo) or C (composite)",
        (NODO, "TIPO") => {
            "A (isolated), C (connected), E (end), I (intermediate), H (end and intermediate) or a \
             blank"
        }
        (TRAMO, "SENTIDO") => "+, - or a blank",
        (_, "ORIENTAC") => {
            "three digits of degrees from 000 to 359 and two of minutes from 00 to 59"
        }
        (_, "JUSTIFI") => "1 to 9",
        _ => "+ or -",
    };
    format!("The field holds {}; it may hold {may}.", shown(bytes))
}
