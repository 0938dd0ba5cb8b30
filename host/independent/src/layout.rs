//! What the files are made of: the table at the head of document 01, and
//! OB_COMP by section 5.5.2 of source 000.

use Form::{Code, Justification, NodeType, Number, Orientation, Sense, Sign, Size, Text, Tipo};
use Need::{Always, Never, WithCentroid};

/// The number of files of a delivery.
pub const FILES: usize = 8;

/// The files' names, in the order of their numbers.
pub const NAMES: [&str; FILES] = [
    "CATALOGO", "OB_PUN", "OB_TEX", "OB_LIN", "TRAMO", "VERTICE", "NODO", "OB_COMP",
];

/// The bytes of one record of each file, bars and line end included.
pub const LENGTHS: [usize; FILES] = [133, 149, 144, 128, 77, 54, 50, 117];

/// The most records a file may hold.
pub(crate) const MOST_RECORDS: usize = 16_384;

/// The most fields a record has: those of OB_TEX.
pub(crate) const MOST_FIELDS: usize = 14;

/// What a field holds and which rules are read of it.
#[derive(Clone, Copy, Debug, PartialEq, Eq)]
pub enum Form {
    /// A text without a domain: the free words.
    Text,
    /// CODIGO, where NA and ND count as missing.
    Code,
    /// The catalogue's TIPO: P, X, L, T or C.
    Tipo,
    /// A node's TIPO: A, C, E, I or H.
    NodeType,
    /// A tramo's sense: + or -.
    Sense,
    /// The sign before a coordinate's number: + or -.
    Sign,
    /// A number that stands alone and has no domain.
    Number,
    /// An angle: three digits of degrees to 359, two of minutes to 59.
    Orientation,
    /// A text's justification: 1 to 9.
    Justification,
    /// The number of a coordinate; its sign is the field before it.
    Size,
}

impl Form {
    /// Whether the field holds a number by itself, which no sign belongs to.
    pub(crate) fn is_lone_number(self) -> bool {
        matches!(self, Number | Orientation | Justification)
    }

    /// Whether the field holds a text that is a value by itself, unlike a sign.
    pub(crate) fn is_lone_text(self) -> bool {
        matches!(self, Text | Code | Tipo | NodeType | Sense)
    }
}

/// When a field may not be missing, besides the rule that a sign and its
/// number stand together.
#[derive(Clone, Copy, PartialEq, Eq)]
pub(crate) enum Need {
    Never,
    Always,
    /// As soon as any of the six centroid fields is present.
    WithCentroid,
}

pub(crate) struct Field {
    pub name: &'static str,
    pub form: Form,
    pub width: usize,
    pub need: Need,
}

const fn field(name: &'static str, form: Form, width: usize, need: Need) -> Field {
    Field {
        name,
        form,
        width,
        need,
    }
}

static CATALOGO: [Field; 4] = [
    field("CODIGO", Code, 7, Always),
    field("TIPO", Tipo, 1, Always),
    field("NOMBRE_C", Text, 60, Never),
    field("DEFINICI", Text, 60, Never),
];

static OB_PUN: [Field; 13] = [
    field("ID_OPUN", Number, 10, Always),
    field("ID_OCOMP", Number, 10, Never),
    field("ID_NODO", Number, 10, Never),
    field("CODIGO", Code, 7, Always),
    field("NOMBRE_I", Text, 60, Never),
    field("ORIENTAC", Orientation, 5, Never),
    field("MAGNIFIC", Number, 3, Never),
    field("SIGNO_X", Sign, 1, Always),
    field("POS_X", Size, 9, Always),
    field("SIGNO_Y", Sign, 1, Always),
    field("POS_Y", Size, 10, Always),
    field("SIGNO_Z", Sign, 1, Never),
    field("POS_Z", Size, 8, Never),
];

static OB_TEX: [Field; 14] = [
    field("ID_OTEX", Number, 10, Always),
    field("ID_OCOMP", Number, 10, Never),
    field("CODIGO", Code, 7, Always),
    field("LITERAL", Text, 60, Never),
    field("ALTURA", Number, 3, Always),
    field("ANCHURA", Number, 3, Never),
    field("ORIENTAC", Orientation, 5, Never),
    field("JUSTIFI", Justification, 1, Always),
    field("SIGNO_X", Sign, 1, Always),
    field("POS_X", Size, 9, Always),
    field("SIGNO_Y", Sign, 1, Always),
    field("POS_Y", Size, 10, Always),
    field("SIGNO_Z", Sign, 1, Never),
    field("POS_Z", Size, 8, Never),
];

static OB_LIN: [Field; 10] = [
    field("ID_OLIN", Number, 10, Always),
    field("ID_OCOMP", Number, 10, Never),
    field("CODIGO", Code, 7, Always),
    field("NOMBRE_I", Text, 60, Never),
    field("SIGNO_X", Sign, 1, WithCentroid),
    field("CEN_X", Size, 9, WithCentroid),
    field("SIGNO_Y", Sign, 1, WithCentroid),
    field("CEN_Y", Size, 10, WithCentroid),
    field("SIGNO_Z", Sign, 1, Never),
    field("CEN_Z", Size, 8, Never),
];

static TRAMO: [Field; 8] = [
    field("ID_TRAMO", Number, 10, Always),
    field("ID_OLIN", Number, 10, Always),
    field("ID_PERIM", Number, 10, Never),
    field("ID_LINEA", Number, 10, Never),
    field("CODIGO", Code, 7, Always),
    field("ID_NODOI", Number, 10, Always),
    field("ID_NODOF", Number, 10, Always),
    field("SENTIDO", Sense, 1, Never),
];

static VERTICE: [Field; 8] = [
    field("ID_LINEA", Number, 10, Always),
    field("NO_ORDEN", Number, 5, Always),
    field("SIGNO_X", Sign, 1, Always),
    field("POS_X", Size, 9, Always),
    field("SIGNO_Y", Sign, 1, Always),
    field("POS_Y", Size, 10, Always),
    field("SIGNO_Z", Sign, 1, Never),
    field("POS_Z", Size, 8, Never),
];

static NODO: [Field; 8] = [
    field("ID_NODO", Number, 10, Always),
    field("TIPO", NodeType, 1, Never),
    field("SIGNO_X", Sign, 1, Always),
    field("POS_X", Size, 9, Always),
    field("SIGNO_Y", Sign, 1, Always),
    field("POS_Y", Size, 10, Always),
    field("SIGNO_Z", Sign, 1, Never),
    field("POS_Z", Size, 8, Never),
];

static OB_COMP: [Field; 9] = [
    field("ID_OCOMP", Number, 10, Always),
    field("CODIGO", Code, 7, Always),
    field("NOMBRE_I", Text, 60, Never),
    field("SIGNO_X", Sign, 1, WithCentroid),
    field("CEN_X", Size, 9, WithCentroid),
    field("SIGNO_Y", Sign, 1, WithCentroid),
    field("CEN_Y", Size, 10, WithCentroid),
    field("SIGNO_Z", Sign, 1, Never),
    field("CEN_Z", Size, 8, Never),
];

/// The fields of a file, none for a number that names no file.
pub(crate) fn layout(file: usize) -> &'static [Field] {
    match file {
        1 => &CATALOGO,
        2 => &OB_PUN,
        3 => &OB_TEX,
        4 => &OB_LIN,
        5 => &TRAMO,
        6 => &VERTICE,
        7 => &NODO,
        8 => &OB_COMP,
        _ => &[],
    }
}

/// The record length of a file, or nothing for a number that names no file.
pub(crate) fn length(file: usize) -> Option<usize> {
    LENGTHS.get(file.checked_sub(1)?).copied()
}

fn find(file: usize, field: usize) -> Option<&'static Field> {
    layout(file).get(field.checked_sub(1)?)
}

/// The number of fields of a file, 0 where there is no such file.
pub fn fields(file: usize) -> usize {
    layout(file).len()
}

/// The bytes of a field, 0 where there is no such field.
pub fn width(file: usize, field: usize) -> usize {
    find(file, field).map_or(0, |f| f.width)
}

/// What a field holds. Where there is no such field it is a text, of width 0.
pub fn form(file: usize, field: usize) -> Form {
    find(file, field).map_or(Form::Text, |f| f.form)
}

/// A field's short name in MIGRA, empty where there is no such field.
pub fn field_name(file: usize, field: usize) -> &'static str {
    find(file, field).map_or("", |f| f.name)
}

#[cfg(test)]
mod tests {
    use super::*;

    #[test]
    fn lengths_are_widths_and_bars_and_line_end() {
        for (i, length) in LENGTHS.iter().enumerate() {
            let fields = layout(i + 1);
            let widths: usize = fields.iter().map(|f| f.width).sum();
            assert_eq!(widths + fields.len() + 1, *length, "{}", NAMES[i]);
            assert!(fields.len() <= MOST_FIELDS);
        }
    }

    #[test]
    fn signs_and_sizes_stand_in_pairs_of_one_need() {
        for file in 1..=FILES {
            let fields = layout(file);
            for (i, f) in fields.iter().enumerate() {
                if f.form == Sign {
                    assert!(fields[i + 1].form == Size && fields[i + 1].need == f.need);
                }
                if f.form == Size {
                    assert!(i > 0 && fields[i - 1].form == Sign);
                }
            }
        }
    }

    #[test]
    fn no_such_field_is_told_without_panic() {
        for (file, field) in [
            (0, 1),
            (FILES + 1, 1),
            (1, 0),
            (1, 5),
            (usize::MAX, 1),
            (7, usize::MAX),
        ] {
            assert_eq!(width(file, field), 0);
            assert_eq!(field_name(file, field), "");
            assert_eq!(form(file, field), Form::Text);
        }
        assert_eq!((fields(0), fields(FILES + 1)), (0, 0));
        assert_eq!((length(0), length(FILES + 1)), (None, None));
    }

    #[test]
    fn some_fields_by_name() {
        assert_eq!(
            (field_name(6, 2), width(6, 2), form(6, 2)),
            ("NO_ORDEN", 5, Number)
        );
        assert_eq!(
            (field_name(4, 6), width(4, 6), form(4, 6)),
            ("CEN_X", 9, Size)
        );
        assert_eq!(
            (field_name(5, 8), width(5, 8), form(5, 8)),
            ("SENTIDO", 1, Sense)
        );
        assert_eq!(
            (field_name(8, 9), width(8, 9), form(8, 9)),
            ("CEN_Z", 8, Size)
        );
        assert_eq!((form(2, 6), form(3, 7)), (Orientation, Orientation));
        assert_eq!((form(3, 8), form(7, 2)), (Justification, NodeType));
    }
}
