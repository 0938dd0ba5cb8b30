//! Single records: reading one into values, writing one from values.

use crate::layout::{layout, length, Field, Form, Need};
use crate::record::{is_other_number, is_other_text, is_text, parse, Cell};

/// Why a single-record call gave nothing.
#[derive(Clone, Copy, Debug, PartialEq, Eq)]
pub struct Refusal {
    /// The reason's number in document 01.
    pub reason: u8,
    /// The field it is told of, 0 for the whole record or call.
    pub field: usize,
}

/// What one field says. A coordinate stands at its number's field; the field
/// of its sign is `Missing` on reading and not looked at on writing.
#[derive(Clone, Debug, PartialEq, Eq)]
pub enum Value {
    /// Nothing.
    Missing,
    /// A number of a field that stands alone.
    Number(u64),
    /// A coordinate, sign and number together.
    Coordinate(i64),
    /// A text without trailing blanks. An empty one is missing.
    Text(Vec<u8>),
}

/// Reads a record of the whole records in hand: one value for each field, or
/// the first of the reasons 60, 66 and 20 to 25. A ragged tail is no record.
pub fn read(file: usize, bytes: &[u8], record: usize) -> Result<Vec<Value>, Refusal> {
    let length = length(file).ok_or(Refusal {
        reason: 60,
        field: 0,
    })?;
    let record = record
        .checked_sub(1)
        .and_then(|skipped| bytes.chunks_exact(length).nth(skipped))
        .ok_or(Refusal {
            reason: 66,
            field: 0,
        })?;
    let cells = parse(file, record)?;
    let value = |(i, field): (usize, &Field)| match (field.form, cells.cell(i + 1)) {
        (Form::Size, _) => cells
            .coordinate(i + 1)
            .map_or(Value::Missing, Value::Coordinate),
        (_, Cell::Number(n)) => Value::Number(n),
        (form, Cell::Text(t)) if form.is_lone_text() => Value::Text(t.to_vec()),
        _ => Value::Missing,
    };
    Ok(layout(file).iter().enumerate().map(value).collect())
}

/// Writes a record at the start of the room and gives its length, or tells
/// the first of the reasons 60, 61 and 62 to 65 and leaves the room as it is.
///
/// A value of another variant than its field's counts as missing, and so do
/// the values that the slice is too short to hold.
pub fn write(file: usize, values: &[Value], room: &mut [u8]) -> Result<usize, Refusal> {
    let length = length(file).ok_or(Refusal {
        reason: 60,
        field: 0,
    })?;
    let room = room.get_mut(..length).ok_or(Refusal {
        reason: 61,
        field: 0,
    })?;
    let fields = layout(file);
    for i in 0..fields.len() {
        if let Some(reason) = refused(fields, values, i) {
            return Err(Refusal {
                reason,
                field: i + 1,
            });
        }
    }
    fill(fields, values, room);
    Ok(length)
}

static MISSING: Value = Value::Missing;

/// What the values say of a field, with every way of saying nothing made one.
fn said<'a>(fields: &[Field], values: &'a [Value], i: usize) -> &'a Value {
    let value = values.get(i).unwrap_or(&MISSING);
    let says_something = match (fields[i].form, value) {
        (Form::Size, Value::Coordinate(_)) => true,
        (Form::Code, Value::Text(t)) => !matches!(t.as_slice(), b"" | b"NA" | b"ND"),
        (form, Value::Number(_)) => form.is_lone_number(),
        (form, Value::Text(t)) => form.is_lone_text() && !t.is_empty(),
        _ => false,
    };
    if says_something {
        value
    } else {
        &MISSING
    }
}

/// The one reason of 62 to 65 that a field's value breaks, if any.
fn refused(fields: &[Field], values: &[Value], i: usize) -> Option<u8> {
    let Field {
        form, width, need, ..
    } = fields[i];
    // A coordinate that lacks is told at its sign, one too wide at its number.
    let told_of = if form == Form::Sign { i + 1 } else { i };
    match said(fields, values, told_of) {
        Value::Missing if form != Form::Size && is_demanded(fields, values, need) => Some(64),
        Value::Number(n) if *n > greatest(width) => Some(62),
        Value::Number(n) if is_other_number(form, *n) => Some(65),
        Value::Coordinate(c) if form == Form::Size && c.unsigned_abs() > greatest(width) => {
            Some(62)
        }
        Value::Text(t) if t.len() > width || !is_text(t) => Some(63),
        Value::Text(t) if is_other_text(form, t) => Some(65),
        _ => None,
    }
}

fn is_demanded(fields: &[Field], values: &[Value], need: Need) -> bool {
    match need {
        Need::Never => false,
        Need::Always => true,
        Need::WithCentroid => {
            (0..fields.len()).any(|i| matches!(said(fields, values, i), Value::Coordinate(_)))
        }
    }
}

/// The greatest number of so many digits.
fn greatest(width: usize) -> u64 {
    (0..width).fold(0, |n, _| 10 * n + 9)
}

/// Only for values that were not refused, so that all of them fit.
fn fill(fields: &[Field], values: &[Value], room: &mut [u8]) {
    room.fill(b' ');
    let mut start = 0;
    for (i, field) in fields.iter().enumerate() {
        let end = start + field.width;
        match said(fields, values, i) {
            Value::Missing => {}
            Value::Number(n) => put_digits(&mut room[start..end], *n),
            Value::Coordinate(c) => {
                // The sign's byte stands before the bar before the number.
                room[start - 2] = if *c < 0 { b'-' } else { b'+' };
                put_digits(&mut room[start..end], c.unsigned_abs());
            }
            Value::Text(t) => room[start..start + t.len()].copy_from_slice(t),
        }
        if i + 1 < fields.len() {
            room[end] = b'|';
        } else {
            room[end..].copy_from_slice(b"\r\n");
        }
        start = end + 1;
    }
}

fn put_digits(slot: &mut [u8], number: u64) {
    let mut rest = number;
    for digit in slot.iter_mut().rev() {
        *digit = b'0' + (rest % 10) as u8;
        rest /= 10;
    }
}
