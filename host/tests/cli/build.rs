//! Deliveries put together by hand, from document 01 and not from the library's tables.

pub const CATALOGO: usize = 1;
pub const OB_PUN: usize = 2;
pub const OB_TEX: usize = 3;
pub const OB_LIN: usize = 4;
pub const TRAMO: usize = 5;
pub const VERTICE: usize = 6;
pub const NODO: usize = 7;
pub const OB_COMP: usize = 8;

pub const FILES: usize = 8;

pub const NAMES: [&str; FILES] = [
    "CATALOGO", "OB_PUN", "OB_TEX", "OB_LIN", "TRAMO", "VERTICE", "NODO", "OB_COMP",
];

/// Document 01's widths, and those of OB_COMP.
pub const WIDTHS: [&[usize]; FILES] = [
    &[7, 1, 60, 60],
    &[10, 10, 10, 7, 60, 5, 3, 1, 9, 1, 10, 1, 8],
    &[10, 10, 7, 60, 3, 3, 5, 1, 1, 9, 1, 10, 1, 8],
    &[10, 10, 7, 60, 1, 9, 1, 10, 1, 8],
    &[10, 10, 10, 10, 7, 10, 10, 1],
    &[10, 5, 1, 9, 1, 10, 1, 8],
    &[10, 1, 1, 9, 1, 10, 1, 8],
    &[10, 7, 60, 1, 9, 1, 10, 1, 8],
];

/// The record lengths.
pub const LENGTHS: [usize; FILES] = [133, 149, 144, 128, 77, 54, 50, 117];

pub fn length(file: usize) -> usize {
    LENGTHS[file - 1]
}

pub fn offset(file: usize, field: usize) -> usize {
    WIDTHS[file - 1][..field - 1]
        .iter()
        .map(|width| width + 1)
        .sum()
}

/// A delivery that a test puts together.
#[derive(Clone, Default)]
pub struct Files {
    pub bytes: [Vec<u8>; FILES],
}

impl Files {
    /// Adds a blank record and fills some of its fields.
    pub fn with(mut self, file: usize, fields: &[(usize, &str)]) -> Files {
        let blank: Vec<String> = WIDTHS[file - 1]
            .iter()
            .map(|width| " ".repeat(*width))
            .collect();
        let bytes = &mut self.bytes[file - 1];
        bytes.extend_from_slice(blank.join("|").as_bytes());
        bytes.extend_from_slice(b"\r\n");
        let record = bytes.len() / length(file);
        fields.iter().fold(self, |files, (field, text)| {
            files.set(file, record, *field, text)
        })
    }

    /// Fills a field, with blanks after the text.
    pub fn set(self, file: usize, record: usize, field: usize, text: &str) -> Files {
        let width = WIDTHS[file - 1][field - 1];
        assert!(text.len() <= width);
        self.poke(
            file,
            record,
            offset(file, field),
            format!("{text:width$}").as_bytes(),
        )
    }

    /// Overwrites bytes of a record.
    pub fn poke(mut self, file: usize, record: usize, place: usize, bytes: &[u8]) -> Files {
        let start = (record - 1) * length(file) + place;
        self.bytes[file - 1][start..start + bytes.len()].copy_from_slice(bytes);
        self
    }

    /// Takes a file away.
    pub fn absent(mut self, file: usize) -> Files {
        self.bytes[file - 1].clear();
        self
    }

    /// Adds bytes at a file's end.
    pub fn append(mut self, file: usize, bytes: &[u8]) -> Files {
        self.bytes[file - 1].extend_from_slice(bytes);
        self
    }

    pub fn code(self, code: &str, kind: &str) -> Files {
        self.with(CATALOGO, &[(1, code), (2, kind)])
    }

    pub fn vertex(self, line: &str, order: &str, x: &str, y: &str) -> Files {
        self.with(
            VERTICE,
            &[(1, line), (2, order), (3, "+"), (4, x), (5, "+"), (6, y)],
        )
    }

    pub fn node(self, id: &str, x: &str, y: &str) -> Files {
        self.with(NODO, &[(1, id), (3, "+"), (4, x), (5, "+"), (6, y)])
    }

    pub fn point(self, node: &str, x: &str, y: &str) -> Files {
        let files = self.code("0200000", "P");
        let fields = [
            (1, "0000000001"),
            (3, node),
            (4, "0200000"),
            (8, "+"),
            (9, x),
            (10, "+"),
            (11, y),
        ];
        files.with(OB_PUN, &fields)
    }

    /// A composite object, with a code of its type if none is there.
    pub fn composite(self, id: &str) -> Files {
        let files = if self.bytes[OB_COMP - 1].is_empty() {
            self.code("0500000", "C")
        } else {
            self
        };
        files.with(OB_COMP, &[(1, id), (2, "0500000")])
    }

    pub fn slices(&self) -> [&[u8]; FILES] {
        std::array::from_fn(|file| self.bytes[file].as_slice())
    }
}

/// Document 01's small delivery S.
pub fn s() -> Files {
    let tramo = [
        (1, "0000000001"),
        (2, "0000000001"),
        (5, "0100001"),
        (6, "0000000001"),
        (7, "0000000002"),
    ];
    Files::default()
        .code("0100000", "L")
        .code("0100001", "T")
        .with(OB_LIN, &[(1, "0000000001"), (3, "0100000")])
        .with(TRAMO, &tramo)
        .vertex("0000000001", "00001", "000000100", "0000000200")
        .vertex("0000000001", "00002", "000000140", "0000000200")
        .node("0000000001", "000000100", "0000000200")
        .node("0000000002", "000000140", "0000000200")
}
