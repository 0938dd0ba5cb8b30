//! Deliveries in which every file breaks one rule of 10 and 11, or every record one of 20 to 25 in each field that can. A file that is
//! empty stays so.

use super::Case;
use deliveries::{field_start, fields, Field, Files, Form, RECORD};

pub const ILL_FORMED: [Case<Files>; 10] = [
    ("10, a record too many", "NO 10 1 00000 00", |files| {
        for (bytes, length) in files.iter_mut().zip(RECORD) {
            bytes.extend_from_within(..length.min(bytes.len()));
        }
    }),
    ("10 and 11, a byte too many", "NO 10 1 00000 00", |files| {
        for bytes in files.iter_mut().filter(|bytes| !bytes.is_empty()) {
            bytes.push(b'\n');
        }
    }),
    ("11, the last byte lost", "NO 11 1 16384 00", |files| {
        for bytes in files {
            bytes.pop();
        }
    }),
    ("20, line feed before return", "NO 20 1 00001 00", |files| {
        each_record(files, |_, record| {
            let end = record.len() - 2;
            record[end..].copy_from_slice(b"\n\r");
        });
    }),
    ("21, commas for bars", "NO 21 1 00001 01", |files| {
        each_record(files, |file, record| {
            for place in 1..fields(file).len() {
                record[field_start(file, place) - 1] = b',';
            }
        });
    }),
    ("22, all numbers", "NO 22 2 00001 01", |files| {
        each_field(
            files,
            |field| field.form == Form::N,
            |field| spoil(field, b'.'),
        );
    }),
    ("23, all texts", "NO 23 1 00001 01", |files| {
        each_field(
            files,
            |field| field.form == Form::A,
            |field| spoil(field, b'\t'),
        );
    }),
    ("24, all that must be there", "NO 24 1 00001 01", |files| {
        each_field(files, |field| field.must, |field| field.fill(b' '));
    }),
    ("25, all that have a domain", "NO 25 1 00001 02", |files| {
        let text = |field: &Field| field.has_domain() && field.form == Form::A;
        let number = |field: &Field| field.has_domain() && field.form == Form::N;
        each_field(files, text, |field| spoil(field, b'?'));
        each_field(files, number, outgrow);
    }),
    (
        "20 to 24, all bytes are zero",
        "NO 20 1 00001 00",
        |files| {
            for bytes in files {
                bytes.fill(0);
            }
        },
    ),
];

fn each_record(files: &mut Files, change: impl Fn(usize, &mut [u8])) {
    for (file, bytes) in files.iter_mut().enumerate() {
        let records = bytes.chunks_exact_mut(RECORD[file]);
        records.for_each(|record| change(file, record));
    }
}

fn each_field(files: &mut Files, wanted: fn(&Field) -> bool, change: fn(&mut [u8])) {
    each_record(files, |file, record| {
        let places = fields(file).iter().enumerate();
        for (place, field) in places.filter(|(_, field)| wanted(field)) {
            let start = field_start(file, place);
            change(&mut record[start..start + field.width]);
        }
    });
}

/// A field that is blank stays so, since it is missing and breaks nothing.
fn spoil(field: &mut [u8], byte: u8) {
    if field.iter().any(|each| *each != b' ') {
        field[0] = byte;
    }
}

/// An orientation past all degrees, a justification of 0. A number that is blank stays so.
fn outgrow(field: &mut [u8]) {
    match field {
        [digit] => *digit = b'0',
        _ => spoil(field, b'9'),
    }
}
