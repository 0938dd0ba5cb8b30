//! The files and their fields by place. The widths are those of source 000,
//! section 5.5.

/// N: digits. A: text.
#[derive(Clone, Copy, Debug, PartialEq, Eq)]
pub enum Form {
    N,
    A,
}

/// What a field may hold when it isn't missing.
#[derive(Clone, Copy, Debug, PartialEq, Eq)]
pub enum Domain {
    /// Anything its form allows.
    Any,
    /// One of these bytes; the field has no more.
    OneOf(&'static [u8]),
    /// Three digits of degrees up to 359 and two of minutes up to 59.
    Angle,
}

#[derive(Clone, Copy, Debug)]
pub struct Field {
    pub name: &'static str,
    pub form: Form,
    pub width: usize,
    /// The field may not be missing.
    pub must: bool,
    pub domain: Domain,
}

impl Field {
    /// A sign stands right before its number.
    pub fn is_sign(&self) -> bool {
        self.name.starts_with("SIGNO")
    }

    pub fn has_domain(&self) -> bool {
        self.domain != Domain::Any
    }

    pub fn is_code(&self) -> bool {
        self.name == "CODIGO"
    }
}

pub const CATALOGO: usize = 0;
pub const OB_PUN: usize = 1;
pub const OB_TEX: usize = 2;
pub const OB_LIN: usize = 3;
pub const TRAMO: usize = 4;
pub const VERTICE: usize = 5;
pub const NODO: usize = 6;
pub const OB_COMP: usize = 7;

/// The number of files.
pub const FILES: usize = 8;

pub const NAMES: [&str; FILES] = [
    "CATALOGO", "OB_PUN", "OB_TEX", "OB_LIN", "TRAMO", "VERTICE", "NODO", "OB_COMP",
];

/// Bytes of a record, by file.
pub const RECORD: [usize; FILES] = [133, 149, 144, 128, 77, 54, 50, 117];

/// The catalogue's letters for OB_PUN, OB_TEX, OB_LIN, TRAMO and OB_COMP.
pub const TYPES: &[u8] = b"PXLTC";
/// Those of a delivery without composites, as it was before there were any.
pub const PLAIN_TYPES: &[u8] = b"PXLT";
const SIGNS: &[u8] = b"+-";
const NODE_TYPES: &[u8] = b"ACEIH";
const JUSTIFICATIONS: &[u8] = b"123456789";

const fn n(name: &'static str, width: usize) -> Field {
    Field {
        name,
        form: Form::N,
        width,
        must: false,
        domain: Domain::Any,
    }
}

const fn a(name: &'static str, width: usize) -> Field {
    Field {
        name,
        form: Form::A,
        width,
        must: false,
        domain: Domain::Any,
    }
}

const fn of(bytes: &'static [u8], field: Field) -> Field {
    Field {
        domain: Domain::OneOf(bytes),
        ..field
    }
}

const fn angle(field: Field) -> Field {
    Field {
        domain: Domain::Angle,
        ..field
    }
}

const fn must(field: Field) -> Field {
    Field {
        must: true,
        ..field
    }
}

const CODIGO: Field = must(a("CODIGO", 7));
const SIGNO_X: Field = of(SIGNS, a("SIGNO_X", 1));
const SIGNO_Y: Field = of(SIGNS, a("SIGNO_Y", 1));
const SIGNO_Z: Field = of(SIGNS, a("SIGNO_Z", 1));
const POS_X: Field = must(n("POS_X", 9));
const POS_Y: Field = must(n("POS_Y", 10));
const POS_Z: Field = n("POS_Z", 8);

const CATALOGO_FIELDS: &[Field] = &[
    CODIGO,
    must(of(TYPES, a("TIPO", 1))),
    a("NOMBRE_C", 60),
    a("DEFINICI", 60),
];

const OB_PUN_FIELDS: &[Field] = &[
    must(n("ID_OPUN", 10)),
    n("ID_OCOMP", 10),
    n("ID_NODO", 10),
    CODIGO,
    a("NOMBRE_I", 60),
    angle(n("ORIENTAC", 5)),
    n("MAGNIFIC", 3),
    must(SIGNO_X),
    POS_X,
    must(SIGNO_Y),
    POS_Y,
    SIGNO_Z,
    POS_Z,
];

const OB_TEX_FIELDS: &[Field] = &[
    must(n("ID_OTEX", 10)),
    n("ID_OCOMP", 10),
    CODIGO,
    a("LITERAL", 60),
    must(n("ALTURA", 3)),
    n("ANCHURA", 3),
    angle(n("ORIENTAC", 5)),
    must(of(JUSTIFICATIONS, n("JUSTIFI", 1))),
    must(SIGNO_X),
    POS_X,
    must(SIGNO_Y),
    POS_Y,
    SIGNO_Z,
    POS_Z,
];

const OB_LIN_FIELDS: &[Field] = &[
    must(n("ID_OLIN", 10)),
    n("ID_OCOMP", 10),
    CODIGO,
    a("NOMBRE_I", 60),
    SIGNO_X,
    n("CEN_X", 9),
    SIGNO_Y,
    n("CEN_Y", 10),
    SIGNO_Z,
    n("CEN_Z", 8),
];

const TRAMO_FIELDS: &[Field] = &[
    must(n("ID_TRAMO", 10)),
    must(n("ID_OLIN", 10)),
    n("ID_PERIM", 10),
    n("ID_LINEA", 10),
    CODIGO,
    must(n("ID_NODOI", 10)),
    must(n("ID_NODOF", 10)),
    of(SIGNS, a("SENTIDO", 1)),
];

const VERTICE_FIELDS: &[Field] = &[
    must(n("ID_LINEA", 10)),
    must(n("NO_ORDEN", 5)),
    must(SIGNO_X),
    POS_X,
    must(SIGNO_Y),
    POS_Y,
    SIGNO_Z,
    POS_Z,
];

const NODO_FIELDS: &[Field] = &[
    must(n("ID_NODO", 10)),
    of(NODE_TYPES, a("TIPO", 1)),
    must(SIGNO_X),
    POS_X,
    must(SIGNO_Y),
    POS_Y,
    SIGNO_Z,
    POS_Z,
];

const OB_COMP_FIELDS: &[Field] = &[
    must(n("ID_OCOMP", 10)),
    CODIGO,
    a("NOMBRE_I", 60),
    SIGNO_X,
    n("CEN_X", 9),
    SIGNO_Y,
    n("CEN_Y", 10),
    SIGNO_Z,
    n("CEN_Z", 8),
];

/// The fields of a file, in their order.
pub fn fields(file: usize) -> &'static [Field] {
    match file {
        CATALOGO => CATALOGO_FIELDS,
        OB_PUN => OB_PUN_FIELDS,
        OB_TEX => OB_TEX_FIELDS,
        OB_LIN => OB_LIN_FIELDS,
        TRAMO => TRAMO_FIELDS,
        VERTICE => VERTICE_FIELDS,
        NODO => NODO_FIELDS,
        OB_COMP => OB_COMP_FIELDS,
        _ => panic!("there are {FILES} files"),
    }
}

/// Where a field (counted from 0) begins within its record. A bar follows
/// every field before it.
pub fn field_start(file: usize, field: usize) -> usize {
    fields(file)[..field]
        .iter()
        .map(|before| before.width + 1)
        .sum()
}
