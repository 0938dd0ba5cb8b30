//! One record: its fields taken apart, and the reasons 20 to 25.

use crate::codec::Refusal;
use crate::layout::{layout, Field, Form, Need, MOST_FIELDS};

/// What a field's bytes hold.
#[derive(Clone, Copy)]
pub(crate) enum Cell<'a> {
    /// Every byte blank; in CODIGO also NA and ND.
    Missing,
    /// Breaks reason 22 or 23. It has no value, yet it isn't missing.
    Damaged,
    Number(u64),
    /// The text without its trailing blanks.
    Text(&'a [u8]),
}

impl Cell<'_> {
    fn is_missing(&self) -> bool {
        matches!(self, Cell::Missing)
    }
}

/// A CODIGO with its trailing blanks.
pub(crate) type Code = [u8; 7];

/// The fields of one record. The functions take the document's field numbers.
pub(crate) struct Cells<'a>([Cell<'a>; MOST_FIELDS]);

impl<'a> Cells<'a> {
    pub fn cell(&self, field: usize) -> Cell<'a> {
        self.0[field - 1]
    }

    /// A number that may be missing.
    pub fn number(&self, field: usize) -> Option<u64> {
        match self.cell(field) {
            Cell::Number(n) => Some(n),
            _ => None,
        }
    }

    /// A number that a lawful record never lacks.
    pub fn id(&self, field: usize) -> u64 {
        self.number(field)
            .unwrap_or_else(|| unreachable!("reason 24 was read before"))
    }

    pub fn text(&self, field: usize) -> Option<&'a [u8]> {
        match self.cell(field) {
            Cell::Text(t) => Some(t),
            _ => None,
        }
    }

    pub fn code(&self, field: usize) -> Code {
        let mut code = [b' '; 7];
        if let Some(text) = self.text(field) {
            code[..text.len()].copy_from_slice(text);
        }
        code
    }

    /// The coordinate whose number is this field and whose sign stands before.
    pub fn coordinate(&self, field: usize) -> Option<i64> {
        // At most ten digits, so it always fits.
        let size = self.number(field)? as i64;
        match self.text(field - 1)? {
            b"-" => Some(-size),
            _ => Some(size),
        }
    }

    /// A coordinate that a lawful record never lacks.
    pub fn place(&self, field: usize) -> i64 {
        self.coordinate(field)
            .unwrap_or_else(|| unreachable!("reason 24 was read before"))
    }
}

/// Takes one record apart, or tells its first break by field and reason.
/// `record` has exactly the file's record length.
pub(crate) fn parse(file: usize, record: &[u8]) -> Result<Cells<'_>, Refusal> {
    check(file, record, Err)
}

/// Takes one record apart and tells its breaks by field and reason, until
/// `tell` stops it.
pub(crate) fn check<S>(
    file: usize,
    record: &[u8],
    mut tell: impl FnMut(Refusal) -> Result<(), S>,
) -> Result<Cells<'_>, S> {
    let mut refuse = |reason, field| tell(Refusal { reason, field });
    if !record.ends_with(b"\r\n") {
        refuse(20, 0)?;
    }
    let fields = layout(file);
    let cells = split(fields, record);
    let mut end = 0;
    for (i, field) in fields.iter().enumerate() {
        end += field.width;
        let field = i + 1;
        if field < fields.len() && record[end] != b'|' {
            refuse(21, field)?;
        }
        if let Some(reason) = broken(fields, &cells, i) {
            refuse(reason, field)?;
        }
        end += 1;
    }
    Ok(Cells(cells))
}

/// All fields are taken before any is judged: a sign's partner follows it.
fn split<'a>(fields: &[Field], record: &'a [u8]) -> [Cell<'a>; MOST_FIELDS] {
    let mut cells = [Cell::Missing; MOST_FIELDS];
    let mut start = 0;
    for (cell, field) in cells.iter_mut().zip(fields) {
        let end = start + field.width;
        *cell = take(field.form, &record[start..end]);
        start = end + 1;
    }
    cells
}

fn take(form: Form, bytes: &[u8]) -> Cell<'_> {
    match form {
        Form::Code => match take_text(bytes) {
            Cell::Text(b"NA") | Cell::Text(b"ND") => Cell::Missing,
            cell => cell,
        },
        _ if is_digits(form) => take_number(bytes),
        _ => take_text(bytes),
    }
}

/// Whether an N field is of this form; the others are A fields.
fn is_digits(form: Form) -> bool {
    form.is_lone_number() || form == Form::Size
}

fn take_number(bytes: &[u8]) -> Cell<'_> {
    if bytes.iter().all(u8::is_ascii_digit) {
        Cell::Number(
            bytes
                .iter()
                .fold(0, |n, digit| 10 * n + u64::from(digit - b'0')),
        )
    } else if bytes.iter().all(|&b| b == b' ') {
        Cell::Missing
    } else {
        Cell::Damaged
    }
}

fn take_text(bytes: &[u8]) -> Cell<'_> {
    let last = match bytes.iter().rposition(|&b| b != b' ') {
        None => return Cell::Missing,
        Some(last) => last,
    };
    let text = &bytes[..=last];
    if is_text(text) {
        Cell::Text(text)
    } else {
        Cell::Damaged
    }
}

/// Whether a value may stand in an A field: some bytes, all of the A set, and
/// neither a blank nor a no-break blank at either end.
pub(crate) fn is_text(text: &[u8]) -> bool {
    is_visible(text.first())
        && is_visible(text.last())
        && text.iter().all(|b| matches!(b, 0x20..=0x7E | 0xA0..=0xFF))
}

/// Whether there is a byte and it shows: converters pad texts with either of
/// the two that don't (W-202).
fn is_visible(end: Option<&u8>) -> bool {
    end.map_or(false, |b| !matches!(b, b' ' | 0xA0))
}

/// Whether a text is outside the domain of its form, - before zero apart.
pub(crate) fn is_other_text(form: Form, text: &[u8]) -> bool {
    match form {
        Form::Tipo => !matches!(text, b"P" | b"X" | b"L" | b"T" | b"C"),
        Form::NodeType => !matches!(text, b"A" | b"C" | b"E" | b"I" | b"H"),
        Form::Sense | Form::Sign => !matches!(text, b"+" | b"-"),
        _ => false,
    }
}

/// Whether a number is outside the domain of its form (W-203). The last two
/// digits of an angle are its minutes.
pub(crate) fn is_other_number(form: Form, number: u64) -> bool {
    match form {
        Form::Orientation => number / 100 > 359 || number % 100 > 59,
        Form::Justification => !(1..=9).contains(&number),
        _ => false,
    }
}

/// The one reason of 22 to 25 that a field breaks, if any.
fn broken(fields: &[Field], cells: &[Cell; MOST_FIELDS], i: usize) -> Option<u8> {
    let form = fields[i].form;
    match cells[i] {
        Cell::Damaged if is_digits(form) => Some(22),
        Cell::Damaged => Some(23),
        Cell::Missing if is_demanded(fields, cells, i) => Some(24),
        Cell::Number(number) if is_other_number(form, number) => Some(25),
        Cell::Text(text) if is_other_text(form, text) => Some(25),
        Cell::Text(b"-") if form == Form::Sign && matches!(cells[i + 1], Cell::Number(0)) => {
            Some(25)
        }
        _ => None,
    }
}

fn is_demanded(fields: &[Field], cells: &[Cell; MOST_FIELDS], i: usize) -> bool {
    let by_partner = match fields[i].form {
        Form::Sign => !cells[i + 1].is_missing(),
        Form::Size => !cells[i - 1].is_missing(),
        _ => false,
    };
    by_partner
        || match fields[i].need {
            Need::Never => false,
            Need::Always => true,
            Need::WithCentroid => has_centroid(fields, cells),
        }
}

fn has_centroid(fields: &[Field], cells: &[Cell; MOST_FIELDS]) -> bool {
    fields
        .iter()
        .zip(cells)
        .any(|(f, c)| matches!(f.form, Form::Sign | Form::Size) && !c.is_missing())
}
