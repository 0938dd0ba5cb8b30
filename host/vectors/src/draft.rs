//! A delivery made by hand: records from rows of cells, and ways to damage
//! them. Records and fields are counted from 1, as a verdict's line does.

use deliveries::{fields, Files, Form, FILES};

/// Rows of a delivery: a file and the cells of a record.
pub(crate) type Rows = [(usize, &'static str)];

/// A list of records for each file.
#[derive(Clone, Default)]
pub(crate) struct Draft {
    pub records: [Vec<Vec<u8>>; FILES],
}

impl Draft {
    pub fn new(rows: &Rows) -> Draft {
        let mut draft = Draft::default();
        for &(file, row) in rows {
            draft.add(file, row);
        }
        draft
    }

    pub fn files(&self) -> Files {
        self.records.clone().map(|records| records.concat())
    }

    /// One record more.
    pub fn add(&mut self, file: usize, row: &str) {
        self.records[file].push(record(file, row));
    }

    /// Bytes that are no record, behind the last one.
    pub fn after(&mut self, file: usize, bytes: &[u8]) {
        self.records[file].push(bytes.to_vec());
    }

    /// Bytes before a record.
    pub fn before(&mut self, file: usize, record: usize, bytes: &[u8]) {
        self.at(file, record).splice(..0, bytes.iter().copied());
    }

    /// Only the first bytes of a record.
    pub fn cut(&mut self, file: usize, record: usize, length: usize) {
        self.at(file, record).truncate(length);
    }

    pub fn lose(&mut self, file: usize, records: &[usize]) {
        let mut number = 0;
        self.records[file].retain(|_| {
            number += 1;
            !records.contains(&number)
        });
    }

    /// The bytes of a field.
    pub fn get(&self, file: usize, record: usize, field: usize) -> Vec<u8> {
        let start = start(file, field);
        self.records[file][record - 1][start..start + width(file, field)].to_vec()
    }

    /// Other bytes in a field, as many as it has.
    pub fn put(&mut self, file: usize, record: usize, field: usize, bytes: &[u8]) {
        let start = start(file, field);
        assert_eq!(bytes.len(), width(file, field), "the field's width");
        self.at(file, record)[start..start + bytes.len()].copy_from_slice(bytes);
    }

    /// A number in a field, zero-filled.
    pub fn num(&mut self, file: usize, record: usize, field: usize, value: u64) {
        let digits = number(&value.to_string(), width(file, field));
        self.put(file, record, field, &digits);
    }

    /// A text in a field, filled with blanks.
    pub fn text(&mut self, file: usize, record: usize, field: usize, value: &[u8]) {
        self.put(file, record, field, &text(value, width(file, field)));
    }

    pub fn blank(&mut self, file: usize, record: usize, fields: &[usize]) {
        for &field in fields {
            self.text(file, record, field, b"");
        }
    }

    /// Another place in a record's six fields of position or centroid.
    pub fn place(&mut self, file: usize, record: usize, x: i64, y: i64, z: Option<i64>) {
        let first = 1 + fields(file).iter().position(|f| f.is_sign()).unwrap();
        let cells = [
            x.to_string(),
            y.to_string(),
            z.map_or(String::new(), |z| z.to_string()),
        ];
        for (pair, cell) in cells.iter().enumerate() {
            let field = first + 2 * pair;
            self.put(file, record, field, &sign(cell));
            self.put(file, record, field + 1, &size(cell, width(file, field + 1)));
        }
    }

    /// Another byte for the bar behind a field.
    pub fn bar(&mut self, file: usize, record: usize, field: usize, byte: u8) {
        self.at(file, record)[start(file, field) + width(file, field)] = byte;
    }

    /// Other bytes for 0D 0A.
    pub fn end(&mut self, file: usize, record: usize, two: &[u8; 2]) {
        let bytes = self.at(file, record);
        let end = bytes.len() - 2;
        bytes[end..].copy_from_slice(two);
    }

    fn at(&mut self, file: usize, record: usize) -> &mut Vec<u8> {
        &mut self.records[file][record - 1]
    }
}

/// A record from its cells, with a semicolon between: a number without leading
/// zeros, a text, or nothing where it is missing. A coordinate is one cell for
/// its sign and its number.
pub(crate) fn record(file: usize, row: &str) -> Vec<u8> {
    let mut cells = row.split(';');
    let mut cell = "";
    let mut after_sign = false;
    let mut record = Vec::new();
    for field in fields(file) {
        if !after_sign {
            cell = cells.next().expect("a cell for each field");
        }
        record.extend(match field.form {
            _ if field.is_sign() => sign(cell),
            Form::N => size(cell, field.width),
            Form::A => text(&latin(cell), field.width),
        });
        record.push(b'|');
        after_sign = field.is_sign();
    }
    assert!(cells.next().is_none(), "a field for each cell: {row}");
    record.pop();
    record.extend_from_slice(b"\r\n");
    record
}

fn sign(cell: &str) -> Vec<u8> {
    match cell.as_bytes().first() {
        None => b" ".to_vec(),
        Some(b'-') => b"-".to_vec(),
        Some(_) => b"+".to_vec(),
    }
}

fn size(cell: &str, width: usize) -> Vec<u8> {
    match cell.trim_start_matches('-') {
        "" => text(b"", width),
        digits => number(digits, width),
    }
}

fn number(digits: &str, width: usize) -> Vec<u8> {
    let number = format!("{digits:0>width$}").into_bytes();
    assert_eq!(number.len(), width, "a number too wide for its field");
    number
}

fn text(value: &[u8], width: usize) -> Vec<u8> {
    assert!(value.len() <= width, "a text too wide for its field");
    let mut text = value.to_vec();
    text.resize(width, b' ');
    text
}

/// MIGRA's texts have a byte for each letter.
fn latin(cell: &str) -> Vec<u8> {
    cell.chars().map(|c| u8::try_from(c).unwrap()).collect()
}

fn width(file: usize, field: usize) -> usize {
    fields(file)[field - 1].width
}

/// Where a field begins within its record: a bar stands behind every field
/// before it.
fn start(file: usize, field: usize) -> usize {
    let before = &fields(file)[..field - 1];
    before.iter().map(|f| f.width + 1).sum()
}
