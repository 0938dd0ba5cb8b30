//! Bytes and sentences laid out as plain ASCII lines for a terminal of some hundred columns.

use canopyrail::names::{self, Form};
use std::ops::Range;

use crate::layout::Part;

/// Lines are at most so wide.
const WIDTH: usize = 100;
/// A record's bytes stand so far to the right.
const MARGIN: usize = 4;

/// The byte that looks like a blank in most viewers and is none.
pub const NO_BREAK: u8 = 0xA0;

/// A byte as it is shown: itself, or `\xNN` if it is no printing ASCII character. The backslash is
/// escaped too, so that no two bytes look alike.
fn cell(byte: u8) -> String {
    match byte {
        b'\\' => "\\x5C".to_string(),
        0x20..=0x7E => char::from(byte).to_string(),
        _ => format!("\\x{byte:02X}"),
    }
}

/// Bytes as they are shown.
pub fn shown(bytes: &[u8]) -> String {
    bytes.iter().map(|byte| cell(*byte)).collect()
}

/// A byte in words.
pub fn byte_words(byte: u8) -> String {
    match byte {
        b' ' => "a blank".to_string(),
        0x00 => "a zero byte (00)".to_string(),
        b'\t' => "a tab (09)".to_string(),
        b'\n' => "a line feed (0A)".to_string(),
        b'\r' => "a carriage return (0D)".to_string(),
        0x1A => "an end mark (1A)".to_string(),
        NO_BREAK => "a no-break blank (A0)".to_string(),
        0x21..=0x7E => format!("'{}'", char::from(byte)),
        _ => format!("byte {byte:02X}"),
    }
}

/// A whole number with commas between thousands.
pub fn grouped(number: usize) -> String {
    let digits = number.to_string();
    let mut text = String::new();
    for (place, digit) in digits.chars().enumerate() {
        if place > 0 && (digits.len() - place) % 3 == 0 {
            text.push(',');
        }
        text.push(digit);
    }
    text
}

/// A number and a thing, as `1 record` and `2 records`.
pub fn many(number: usize, thing: &str) -> String {
    let plural = if number == 1 { "" } else { "s" };
    format!("{} {thing}{plural}", grouped(number))
}

/// A record's bytes in rows, with carets beneath the bytes of the marked parts. Where there are
/// several rows, each has the number of the field that it begins with in its margin.
pub fn record(file: usize, bytes: &[u8], marks: &[Part]) -> String {
    let mut text = String::new();
    let rows = rows(file, bytes);
    let several = rows.len() > 1;
    for row in rows {
        let first = if several {
            beginning(file, row.start)
        } else {
            None
        };
        let mut above = first.map_or(" ".repeat(MARGIN), |field| format!("{field:>2}: "));
        let mut below = " ".repeat(MARGIN);
        for place in row {
            let cell = cell(bytes[place]);
            let mark = if marks.iter().any(|part| part.has(place)) {
                "^"
            } else {
                " "
            };
            below.push_str(&mark.repeat(cell.len()));
            above.push_str(&cell);
        }
        text.push_str(&above);
        text.push('\n');
        let below = below.trim_end();
        if !below.is_empty() {
            text.push_str(below);
            text.push('\n');
        }
    }
    text
}

/// The field that begins at a place.
fn beginning(file: usize, place: usize) -> Option<usize> {
    (1..=canopyrail::fields(file)).find(|field| canopyrail::offset(file, *field) == place)
}

/// The bytes in ranges that fit a line, cut between fields where that can be.
fn rows(file: usize, bytes: &[u8]) -> Vec<Range<usize>> {
    let room = WIDTH - MARGIN;
    let mut rows = Vec::new();
    let mut start = 0;
    let mut used = 0;
    for block in blocks(file, bytes.len()) {
        let wide = shown(&bytes[block.clone()]).len();
        if used + wide > room && used > 0 {
            rows.push(start..block.start);
            start = block.start;
            used = 0;
        }
        // A block of many escaped bytes can be wider than a line by itself, and is then cut
        // anywhere.
        for place in block {
            let wide = cell(bytes[place]).len();
            if used + wide > room {
                rows.push(start..place);
                start = place;
                used = 0;
            }
            used += wide;
        }
    }
    if start < bytes.len() {
        rows.push(start..bytes.len());
    }
    rows
}

/// What should stand together on a line: a field with its bar, a sign also with its number.
fn blocks(file: usize, length: usize) -> Vec<Range<usize>> {
    let mut blocks = Vec::new();
    let mut start = 0;
    for field in 1..=canopyrail::fields(file) {
        if names::form(file, field) == Some(Form::Sign) {
            continue;
        }
        let end = if field == canopyrail::fields(file) {
            length
        } else {
            canopyrail::offset(file, field + 1).min(length)
        };
        if start < end {
            blocks.push(start..end);
        }
        start = end;
    }
    blocks
}

/// A paragraph with a label at its left and its lines set in to the right of it.
pub fn paragraph(label: &str, text: &str) -> String {
    filled(&format!("{label:8}"), &" ".repeat(8), text)
}

/// Sentences from the left edge.
pub fn sentences(text: &str) -> String {
    filled("", "", text)
}

/// Words in lines, the first after one margin and the others after another. Blanks that stand
/// together stay together, since a field's bytes may be quoted.
fn filled(first: &str, others: &str, text: &str) -> String {
    let mut lines = String::new();
    let mut line = first.to_string();
    let mut fresh = true;
    for word in text.split(' ') {
        if !fresh && line.len() + 1 + word.len() > WIDTH {
            lines.push_str(&line);
            lines.push('\n');
            line = others.to_string();
            fresh = true;
        }
        if !fresh {
            line.push(' ');
        }
        line.push_str(word);
        fresh = false;
    }
    lines.push_str(&line);
    lines.push('\n');
    lines
}
