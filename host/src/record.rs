//! One record read and written.

use std::error::Error;
use std::fmt;

use crate::names::{Form, Forms};
use crate::{calls, fields, length, Reason, FIELDS, TEXT};

/// Why a call refused: a reason (60 to 67, of reading also 20 to 25) and the field, 0 for the record
/// as a whole.
#[derive(Clone, Copy, Debug, PartialEq, Eq, Hash)]
pub struct Refusal {
    /// The reason.
    pub reason: Reason,
    /// The field, from 1; 0 is the record as a whole, and what a call on grids tells.
    pub field: usize,
}

/// As `field 4: reason 62: the value is too large for its digits`.
impl fmt::Display for Refusal {
    fn fmt(&self, out: &mut fmt::Formatter<'_>) -> fmt::Result {
        if self.field > 0 {
            write!(out, "field {}: ", self.field)?;
        }
        write!(out, "{}", self.reason)
    }
}

impl Error for Refusal {}

/// The value of one field.
#[derive(Clone, Debug, PartialEq, Eq, Hash)]
pub enum Value {
    /// A blank field. A coordinate's sign has no value of its own and is always this: its
    /// coordinate has it.
    Missing,
    /// An N field's value.
    Number(u64),
    /// A coordinate's value, at the field of its digits.
    Coordinate(i64),
    /// An A field's text without the blanks that follow it, in ISO 8859-1. An empty one counts as
    /// missing in writing.
    Text(Vec<u8>),
}

/// Reads one record (from 1) of a file's bytes: as many values as the file has fields, the value of
/// field f at index f - 1.
///
/// # Errors
///
/// 60, 66, or the record's first break of 20 to 25. It does not ask about 10 and 11.
pub fn read(file: usize, bytes: &[u8], record: usize) -> Result<Vec<Value>, Refusal> {
    let mut lent = calls::Lent::missing();
    refused(calls::read(file, bytes, record, &mut lent))?;
    let forms = Forms::of(file);
    Ok((1..=fields(file))
        .map(|field| value(&lent, forms, field))
        .collect())
}

/// Writes one record of a file at the start of the room and answers its length. The value of field
/// f is at index f - 1; past the end of the values every one is missing, and what stands at a
/// coordinate's sign is not looked at.
///
/// # Errors
///
/// 60, 61, or the first by field and reason of 62 to 65; the room is then as it was. A value of
/// another form than its field's fits nowhere: it is refused with 62 at a number or a coordinate,
/// with 63 at a text.
pub fn write(file: usize, values: &[Value], room: &mut [u8]) -> Result<usize, Refusal> {
    let mut lent = calls::Lent::missing();
    let forms = Forms::of(file);
    for (place, value) in values.iter().enumerate().take(FIELDS) {
        if let Some(form) = forms.at(place + 1) {
            lend(&mut lent, place, form, value);
        }
    }
    refused(calls::write(file, &lent, room))?;
    Ok(length(file))
}

/// What an answer of a call on a record or on grids comes to.
pub(crate) fn refused(answer: u64) -> Result<(), Refusal> {
    match calls::told(answer) {
        None => Ok(()),
        Some(told) => Err(Refusal {
            reason: told.reason,
            field: told.field,
        }),
    }
}

/// A field's value as the library has read it.
fn value(lent: &calls::Lent, forms: Forms, field: usize) -> Value {
    let place = field - 1;
    let length = lent.lengths[place];
    match forms.at(field) {
        Some(Form::Number) if length > 0 => Value::Number(lent.numbers[place]),
        Some(Form::Coordinate) if length > 0 => Value::Coordinate(lent.coordinates[place]),
        Some(Form::Text) if length > 0 => {
            Value::Text(lent.texts[place * TEXT..][..length.min(TEXT)].to_vec())
        }
        _ => Value::Missing,
    }
}

/// Puts a value where the library looks for it. What has another form than the field becomes a
/// value that no field can hold, so that the library refuses it in its own order.
fn lend(lent: &mut calls::Lent, place: usize, form: Form, value: &Value) {
    lent.lengths[place] = match (form, value) {
        (Form::Sign, _) | (_, Value::Missing) => 0,
        (Form::Text, Value::Text(text)) => text.len(),
        (Form::Text, _) => usize::MAX,
        (Form::Number, _) | (Form::Coordinate, _) => 1,
    };
    match (form, value) {
        (Form::Number, Value::Number(number)) => lent.numbers[place] = *number,
        (Form::Number, _) => lent.numbers[place] = u64::MAX,
        (Form::Coordinate, Value::Coordinate(number)) => lent.coordinates[place] = *number,
        (Form::Coordinate, _) => lent.coordinates[place] = i64::MIN,
        (Form::Text, Value::Text(text)) => {
            let held = text.len().min(TEXT);
            lent.texts[place * TEXT..][..held].copy_from_slice(&text[..held]);
        }
        (Form::Text, _) | (Form::Sign, _) => {}
    }
}
