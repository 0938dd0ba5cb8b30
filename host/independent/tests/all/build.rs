//! Deliveries built field by field.

use independent::program_line;

pub const FILES: usize = 8;

pub type Files = [Vec<u8>; FILES];

/// The widths of document 01's table, and those of OB_COMP.
pub const WIDTHS: [&[usize]; FILES] = [
    &[7, 1, 60, 60],
    &[10, 10, 10, 7, 60, 5, 3, 1, 9, 1, 10, 1, 8],
    &[10, 10, 7, 60, 3, 3, 5, 1, 1, 9, 1, 10, 1, 8],
    &[10, 10, 7, 60, 1, 9, 1, 10, 1, 8],
    &[10, 10, 10, 10, 7, 10, 10, 1],
    &[10, 5, 1, 9, 1, 10, 1, 8],
    &[10, 1, 1, 9, 1, 10, 1, 8],
    &[10, 7, 60, 1, 9, 1, 10, 1, 8],
];

pub fn lent(files: &Files) -> [&[u8]; FILES] {
    let mut slices: [&[u8]; FILES] = [&[]; FILES];
    for (slice, file) in slices.iter_mut().zip(files) {
        *slice = file;
    }
    slices
}

/// The program's line without its line feed.
pub fn said(files: &Files) -> String {
    let line = program_line(lent(files));
    assert!(line.ends_with('\n'));
    line.trim_end_matches('\n').to_string()
}

pub fn record_length(file: usize) -> usize {
    WIDTHS[file - 1].iter().sum::<usize>() + WIDTHS[file - 1].len() + 1
}

/// Where a field begins in its file.
pub fn start(file: usize, record: usize, field: usize) -> usize {
    let before = &WIDTHS[file - 1][..field - 1];
    (record - 1) * record_length(file) + before.iter().sum::<usize>() + before.len()
}

/// Where the byte after a field stands: its bar, or the carriage return.
pub fn after(file: usize, record: usize, field: usize) -> usize {
    start(file, record, field) + WIDTHS[file - 1][field - 1]
}

/// Overwrites a field, filling up with blanks.
pub fn set(files: &mut Files, file: usize, record: usize, field: usize, bytes: &[u8]) {
    let at = start(file, record, field);
    let slot = &mut files[file - 1][at..after(file, record, field)];
    assert!(bytes.len() <= slot.len());
    slot.fill(b' ');
    slot[..bytes.len()].copy_from_slice(bytes);
}

/// Adds a record that is blank but for the fields named.
pub fn add(files: &mut Files, file: usize, fields: &[(usize, &[u8])]) {
    let mut record = Vec::new();
    for &width in WIDTHS[file - 1] {
        record.resize(record.len() + width, b' ');
        record.push(b'|');
    }
    record.pop();
    record.extend_from_slice(b"\r\n");
    files[file - 1].extend_from_slice(&record);
    let number = files[file - 1].len() / record_length(file);
    for &(field, bytes) in fields {
        set(files, file, number, field, bytes);
    }
}

pub fn node(files: &mut Files, id: u64, x: i64, y: i64, z: Option<i64>) {
    let id = format!("{id:010}");
    add(files, 7, &[(1, id.as_bytes())]);
    let record = files[6].len() / 50;
    place(files, 7, record, 3, x, y, z);
}

pub fn vertex(files: &mut Files, line: u64, order: u64, x: i64, y: i64, z: Option<i64>) {
    let line = format!("{line:010}");
    let order = format!("{order:05}");
    add(files, 6, &[(1, line.as_bytes()), (2, order.as_bytes())]);
    let record = files[5].len() / 54;
    place(files, 6, record, 3, x, y, z);
}

/// Sets the six fields of a position, from the field of its first sign on.
pub fn place(
    files: &mut Files,
    file: usize,
    record: usize,
    field: usize,
    x: i64,
    y: i64,
    z: Option<i64>,
) {
    let sign = |c: i64| if c < 0 { b"-" } else { b"+" };
    let digits = |c: i64, width: usize| format!("{:0width$}", c.unsigned_abs());
    set(files, file, record, field, sign(x));
    set(files, file, record, field + 1, digits(x, 9).as_bytes());
    set(files, file, record, field + 2, sign(y));
    set(files, file, record, field + 3, digits(y, 10).as_bytes());
    if let Some(z) = z {
        set(files, file, record, field + 4, sign(z));
        set(files, file, record, field + 5, digits(z, 8).as_bytes());
    }
}

/// The small delivery S of document 01.
pub fn small() -> Files {
    let mut files = Files::default();
    add(&mut files, 1, &[(1, b"0100000"), (2, b"L")]);
    add(&mut files, 1, &[(1, b"0100001"), (2, b"T")]);
    add(&mut files, 4, &[(1, b"0000000001"), (3, b"0100000")]);
    add(
        &mut files,
        5,
        &[
            (1, b"0000000001"),
            (2, b"0000000001"),
            (5, b"0100001"),
            (6, b"0000000001"),
            (7, b"0000000002"),
        ],
    );
    vertex(&mut files, 1, 1, 100, 200, None);
    vertex(&mut files, 1, 2, 140, 200, None);
    node(&mut files, 1, 100, 200, None);
    node(&mut files, 2, 140, 200, None);
    files
}

/// A lawful delivery with something in each file: a line shared by two
/// tramos, two nodes one above the other, one that stands alone, codes of
/// nodes, signs both ways, words and texts, and a composite of a point, a text
/// and a line besides one of a line alone.
pub fn rich() -> Files {
    let mut files = small();
    add(&mut files, 1, &[(1, b"0200000"), (2, b"P"), (3, b"POZO")]);
    add(
        &mut files,
        1,
        &[(1, b"0300000"), (2, b"X"), (4, b"a|b \xF1 NA")],
    );
    add(&mut files, 1, &[(1, b"9"), (2, b"P")]);
    add(
        &mut files,
        2,
        &[
            (1, b"0000000000"),
            (3, b"0000000003"),
            (4, b"0200000"),
            (5, b"Pozo viejo"),
            (6, b"35959"),
            (7, b"001"),
        ],
    );
    place(&mut files, 2, 1, 8, -7, 0, Some(-3));
    add(&mut files, 2, &[(1, b"0000000007"), (4, b"9")]);
    place(&mut files, 2, 2, 8, 999_999_999, -9_999_999_999, None);
    // The first point's node stands alone, so that two have to name it.
    add(
        &mut files,
        2,
        &[(1, b"0000000008"), (3, b"0000000003"), (4, b"9")],
    );
    place(&mut files, 2, 3, 8, -7, 0, None);
    add(
        &mut files,
        3,
        &[
            (1, b"0000000001"),
            (3, b"0300000"),
            (4, b"MADRID"),
            (5, b"012"),
            (8, b"5"),
        ],
    );
    place(&mut files, 3, 1, 9, 1, 1, Some(99_999_999));
    add(
        &mut files,
        4,
        &[(1, b"0000000002"), (3, b"0100000"), (4, b"NA")],
    );
    place(&mut files, 4, 2, 5, 120, 200, None);
    add(
        &mut files,
        5,
        &[
            (1, b"0000000002"),
            (2, b"0000000002"),
            (4, b"0000000001"),
            (5, b"0100001"),
            (6, b"0000000001"),
            (7, b"0000000002"),
            (8, b"-"),
        ],
    );
    add(
        &mut files,
        5,
        &[
            (1, b"0000000003"),
            (2, b"0000000002"),
            (4, b"0000000000"),
            (5, b"0100001"),
            (6, b"0000000002"),
            (7, b"0000000004"),
            (8, b"+"),
        ],
    );
    vertex(&mut files, 0, 3, -7, -9, None);
    vertex(&mut files, 0, 1, 140, 200, Some(5));
    vertex(&mut files, 0, 2, 0, 0, Some(0));
    node(&mut files, 3, -7, 0, None);
    node(&mut files, 4, -7, -9, Some(1));
    node(&mut files, 5, -7, -9, Some(2));
    set(&mut files, 7, 3, 2, b"A");
    set(&mut files, 7, 4, 2, b"E");
    set(&mut files, 7, 5, 2, b"C");
    add(&mut files, 1, &[(1, b"0400000"), (2, b"C")]);
    let sewer = [(1, &b"0000000009"[..]), (2, b"0400000"), (3, b"RED 9")];
    add(&mut files, 8, &sewer);
    place(&mut files, 8, 1, 4, -1, 2, Some(3));
    add(&mut files, 8, &[(1, b"0000000000"), (2, b"0400000")]);
    set(&mut files, 2, 1, 2, b"0000000009");
    set(&mut files, 3, 1, 2, b"0000000009");
    set(&mut files, 4, 1, 2, b"0000000009");
    set(&mut files, 4, 2, 2, b"0000000000");
    files
}

/// A small random source: xorshift, from a seed that isn't 0.
pub struct Noise(pub u64);

impl Noise {
    pub fn next(&mut self) -> u64 {
        self.0 ^= self.0 << 13;
        self.0 ^= self.0 >> 7;
        self.0 ^= self.0 << 17;
        self.0
    }

    pub fn below(&mut self, bound: usize) -> usize {
        (self.next() >> 11) as usize % bound
    }

    pub fn byte(&mut self) -> u8 {
        (self.next() >> 24) as u8
    }
}
