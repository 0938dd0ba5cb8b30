//! The names of MIGRA v1 (section 5.5) for the eight files and their fields, and the form that a
//! field has; and names for the groups of reasons.
//!
//! Files are numbered 1 to 8, groups 1 to 6 in the order of their tens, and fields from 1, as
//! everywhere in this library.

use std::sync::atomic::{AtomicU64, Ordering};

use crate::calls;

/// The eight files by name; file n is `FILES[n - 1]`.
pub const FILES: [&str; calls::FILES] = [
    "CATALOGO", "OB_PUN", "OB_TEX", "OB_LIN", "TRAMO", "VERTICE", "NODO", "OB_COMP",
];

/// The groups of reasons by name; group n is `GROUPS[n - 1]`.
pub const GROUPS: [&str; calls::GROUPS] = [
    "shape",
    "fields",
    "keys",
    "references",
    "lines and nodes",
    "composites",
];

/// The tens of each group's reasons. The sixties are of calls on one record and on grids, and have
/// no group.
pub const TENS: [u8; calls::GROUPS] = [1, 2, 3, 4, 5, 7];

/// What a field holds, under the header's number.
#[derive(Clone, Copy, Debug, PartialEq, Eq)]
pub enum Form {
    /// An A field that is no coordinate's sign.
    Text = 1,
    /// The sign of the coordinate whose digits are the next field.
    Sign = 2,
    /// An N field: digits, or all blanks.
    Number = 3,
    /// The digits of a coordinate whose sign is the field before.
    Coordinate = 4,
}

struct Field {
    name: &'static str,
    meaning: &'static str,
}

const fn called(name: &'static str, meaning: &'static str) -> Field {
    Field { name, meaning }
}

/// A file's fields: its own, then six of a position or a centroid, or none.
struct Table {
    own: &'static [Field],
    place: &'static [Field],
}

const TABLES: [Table; calls::FILES] = [
    Table {
        own: CATALOGO,
        place: &[],
    },
    Table {
        own: OB_PUN,
        place: POSITION,
    },
    Table {
        own: OB_TEX,
        place: POSITION,
    },
    Table {
        own: OB_LIN,
        place: CENTROID,
    },
    Table {
        own: TRAMO,
        place: &[],
    },
    Table {
        own: VERTICE,
        place: POSITION,
    },
    Table {
        own: NODO,
        place: POSITION,
    },
    Table {
        own: OB_COMP,
        place: CENTROID,
    },
];

const CATALOGO: &[Field] = &[
    called("CODIGO", "the code"),
    called("TIPO", "the kind of object"),
    called("NOMBRE_C", "the class's name"),
    called("DEFINICI", "the definition"),
];

const OB_PUN: &[Field] = &[
    called("ID_OPUN", "the point object's id"),
    called("ID_OCOMP", "the composite object"),
    called("ID_NODO", "the node it stands at"),
    called("CODIGO", "the code"),
    called("NOMBRE_I", "the name"),
    called("ORIENTAC", "the orientation"),
    called("MAGNIFIC", "the magnification"),
];

const OB_TEX: &[Field] = &[
    called("ID_OTEX", "the text object's id"),
    called("ID_OCOMP", "the composite object"),
    called("CODIGO", "the code"),
    called("LITERAL", "the words"),
    called("ALTURA", "the height"),
    called("ANCHURA", "the width"),
    called("ORIENTAC", "the orientation"),
    called("JUSTIFI", "the justification"),
];

const OB_LIN: &[Field] = &[
    called("ID_OLIN", "the linear object's id"),
    called("ID_OCOMP", "the composite object"),
    called("CODIGO", "the code"),
    called("NOMBRE_I", "the name"),
];

const TRAMO: &[Field] = &[
    called("ID_TRAMO", "the tramo's id"),
    called("ID_OLIN", "the linear object"),
    called("ID_PERIM", "the perimeter"),
    called("ID_LINEA", "the line"),
    called("CODIGO", "the code"),
    called("ID_NODOI", "the start node"),
    called("ID_NODOF", "the end node"),
    called("SENTIDO", "the sense"),
];

const VERTICE: &[Field] = &[
    called("ID_LINEA", "the line"),
    called("NO_ORDEN", "the order on the line"),
];

const NODO: &[Field] = &[
    called("ID_NODO", "the node's id"),
    called("TIPO", "the node's type"),
];

const OB_COMP: &[Field] = &[
    called("ID_OCOMP", "the composite object's id"),
    called("CODIGO", "the code"),
    called("NOMBRE_I", "the name"),
];

const POSITION: &[Field] = &[
    called("SIGNO_X", "the sign of X"),
    called("POS_X", "X"),
    called("SIGNO_Y", "the sign of Y"),
    called("POS_Y", "Y"),
    called("SIGNO_Z", "the sign of Z"),
    called("POS_Z", "Z"),
];

const CENTROID: &[Field] = &[
    called("SIGNO_X", "the sign of the centroid's X"),
    called("CEN_X", "the centroid's X"),
    called("SIGNO_Y", "the sign of the centroid's Y"),
    called("CEN_Y", "the centroid's Y"),
    called("SIGNO_Z", "the sign of the centroid's Z"),
    called("CEN_Z", "the centroid's Z"),
];

fn at(file: usize, field: usize) -> Option<&'static Field> {
    let table = TABLES.get(file.checked_sub(1)?)?;
    let place = field.checked_sub(1)?;
    table
        .own
        .get(place)
        .or_else(|| table.place.get(place - table.own.len()))
}

/// A file's name; empty where there is no file of the number.
#[must_use]
pub fn file(file: usize) -> &'static str {
    file.checked_sub(1)
        .and_then(|place| FILES.get(place))
        .copied()
        .unwrap_or("")
}

/// The number of the file with this name.
#[must_use]
pub fn number_of(name: &str) -> Option<usize> {
    FILES
        .iter()
        .position(|each| *each == name)
        .map(|place| place + 1)
}

/// MIGRA's short name of a field; empty where there is no such field.
#[must_use]
pub fn field(file: usize, field: usize) -> &'static str {
    at(file, field).map_or("", |found| found.name)
}

/// What a field says, in a few words; empty where there is no such field.
#[must_use]
pub fn meaning(file: usize, field: usize) -> &'static str {
    at(file, field).map_or("", |found| found.meaning)
}

/// The forms of a file's fields: four bits for each field by its number, in which the form's number stands.
#[derive(Clone, Copy)]
pub(crate) struct Forms(u64);

/// What the library says of each file's fields, which is asked of it once, and that it was asked.
static ASKED: [AtomicU64; calls::FILES] = [UNASKED; calls::FILES];
#[allow(clippy::declare_interior_mutable_const)]
const UNASKED: AtomicU64 = AtomicU64::new(0);
const IS_ASKED: u64 = 1 << 63;

impl Forms {
    pub fn of(file: usize) -> Forms {
        let asked = match file.checked_sub(1).and_then(|at| ASKED.get(at)) {
            Some(asked) => asked,
            None => return Forms(0),
        };
        let mut forms = asked.load(Ordering::Relaxed);
        if forms == 0 {
            forms = (1..=calls::FIELDS).fold(IS_ASKED, |forms, field| {
                forms | (calls::form(file, field) as u64) << (4 * field)
            });
            asked.store(forms, Ordering::Relaxed);
        }
        Forms(forms)
    }

    pub fn at(self, field: usize) -> Option<Form> {
        if field > calls::FIELDS {
            return None;
        }
        match self.0 >> (4 * field) & 15 {
            1 => Some(Form::Text),
            2 => Some(Form::Sign),
            3 => Some(Form::Number),
            4 => Some(Form::Coordinate),
            _ => None,
        }
    }
}

/// The form of a field, if there is such a field.
#[must_use]
pub fn form(file: usize, field: usize) -> Option<Form> {
    Forms::of(file).at(field)
}
