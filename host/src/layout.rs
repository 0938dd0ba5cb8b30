//! The files by number, and where things stand in their records.

use canopyrail::names;

pub const CATALOGO: usize = 1;
pub const OB_PUN: usize = 2;
pub const OB_TEX: usize = 3;
pub const OB_LIN: usize = 4;
pub const TRAMO: usize = 5;
pub const VERTICE: usize = 6;
pub const NODO: usize = 7;
pub const OB_COMP: usize = 8;

/// A part of some bytes, most often of a record's, from its first place up to the one before its
/// end.
#[derive(Clone, Copy)]
pub struct Part {
    pub start: usize,
    pub end: usize,
}

impl Part {
    /// Where a field stands in its record.
    pub fn field(file: usize, field: usize) -> Part {
        let start = canopyrail::offset(file, field);
        Part {
            start,
            end: start + canopyrail::width(file, field),
        }
    }

    /// The bytes in this part, as many of them as there are.
    pub fn of(self, bytes: &[u8]) -> &[u8] {
        &bytes[self.start.min(bytes.len())..self.end.min(bytes.len())]
    }

    pub fn has(self, place: usize) -> bool {
        self.start <= place && place < self.end
    }
}

/// The bytes that as many records take as a file may have.
pub fn limit(file: usize) -> usize {
    canopyrail::RECORDS * canopyrail::length(file)
}

/// Where the end bytes of a record stand.
pub fn end_part(file: usize) -> Part {
    let end = canopyrail::length(file);
    Part {
        start: end.saturating_sub(2),
        end,
    }
}

/// Where a file's key stands.
pub fn key_parts(file: usize) -> Vec<Part> {
    let last = if file == VERTICE { 2 } else { 1 };
    (1..=last).map(|field| Part::field(file, field)).collect()
}

/// The field of X's digits: a position and a centroid are a file's last six fields.
pub fn x_field(file: usize) -> usize {
    canopyrail::fields(file).saturating_sub(4)
}

pub fn y_field(file: usize) -> usize {
    x_field(file) + 2
}

fn z_field(file: usize) -> usize {
    x_field(file) + 4
}

/// A coordinate with its sign.
fn signed_part(file: usize, field: usize) -> Part {
    Part {
        start: Part::field(file, field - 1).start,
        end: Part::field(file, field).end,
    }
}

/// Where X stands with its sign.
pub fn x_part(file: usize) -> Part {
    signed_part(file, x_field(file))
}

/// Where Y stands with its sign.
pub fn y_part(file: usize) -> Part {
    signed_part(file, y_field(file))
}

/// Where X, Y and Z stand with their signs.
pub fn whole_place(file: usize) -> Part {
    Part {
        start: x_part(file).start,
        end: signed_part(file, z_field(file)).end,
    }
}

/// File, record and field by their names.
pub fn place_words(file: usize, record: usize, field: usize) -> String {
    let name = names::file(file);
    match (record, field) {
        (0, _) => format!("{name}, the file as a whole"),
        (_, 0) => format!("{name} record {record}"),
        _ => format!("{name} record {record}, {}", field_words(file, field)),
    }
}

/// A field's number, name and meaning.
pub fn field_words(file: usize, field: usize) -> String {
    format!(
        "field {field} {} ({})",
        names::field(file, field),
        names::meaning(file, field)
    )
}
