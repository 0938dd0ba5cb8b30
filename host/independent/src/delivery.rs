//! A whole delivery taken apart, with what the later rules need of it.
//! Every lawful record is parsed once, here.

use crate::breaks::{broken, Listener};
use crate::codec::Refusal;
use crate::layout::{FILES, LENGTHS};
use crate::record::{check, parse, Cells, Code};

pub(crate) struct Entry {
    pub code: Code,
    pub tipo: u8,
}

pub(crate) struct Point {
    pub id: u64,
    pub composite: Option<u64>,
    pub node: Option<u64>,
    pub code: Code,
    pub x: i64,
    pub y: i64,
}

pub(crate) struct Label {
    pub id: u64,
    pub composite: Option<u64>,
    pub code: Code,
}

pub(crate) struct Linear {
    pub id: u64,
    pub composite: Option<u64>,
    pub code: Code,
}

pub(crate) struct Tramo {
    pub id: u64,
    pub linear: u64,
    pub perimeter: Option<u64>,
    /// The line it uses: the one it names, or that of its own id.
    pub line: u64,
    pub code: Code,
    pub start: u64,
    pub end: u64,
}

pub(crate) struct Vertex {
    pub line: u64,
    pub order: u64,
    pub x: i64,
    pub y: i64,
}

pub(crate) struct Node {
    pub id: u64,
    /// What it is said to be, if anything.
    pub code: Option<u8>,
    pub x: i64,
    pub y: i64,
    pub z: Option<i64>,
}

pub(crate) struct Composite {
    pub id: u64,
    pub code: Code,
}

pub(crate) struct Delivery {
    pub entries: Vec<Entry>,
    pub points: Vec<Point>,
    pub labels: Vec<Label>,
    pub linears: Vec<Linear>,
    pub tramos: Vec<Tramo>,
    pub vertices: Vec<Vertex>,
    pub nodes: Vec<Node>,
    pub composites: Vec<Composite>,
}

impl Delivery {
    /// Takes all records apart, and tells the breaks of the twenties. A record
    /// that has one is left out.
    pub fn parse<L: Listener>(
        files: [&[u8]; FILES],
        listener: &mut L,
    ) -> Result<Delivery, L::Stop> {
        Ok(Delivery {
            entries: records(1, files[0], entry, listener)?,
            points: records(2, files[1], point, listener)?,
            labels: records(3, files[2], label, listener)?,
            linears: records(4, files[3], linear, listener)?,
            tramos: records(5, files[4], tramo, listener)?,
            vertices: records(6, files[5], vertex, listener)?,
            nodes: records(7, files[6], node, listener)?,
            composites: records(8, files[7], composite, listener)?,
        })
    }
}

fn records<T, L: Listener>(
    file: usize,
    bytes: &[u8],
    make: impl Fn(&Cells) -> T,
    listener: &mut L,
) -> Result<Vec<T>, L::Stop> {
    let chunks = bytes.chunks_exact(LENGTHS[file - 1]);
    let mut made = Vec::with_capacity(chunks.len());
    for (i, record) in chunks.enumerate() {
        match parse(file, record) {
            Ok(cells) => made.push(make(&cells)),
            Err(_) => tell_all(file, i, record, listener)?,
        }
    }
    Ok(made)
}

/// Reads a broken record once more, for all of its breaks. So the many lawful
/// ones are read by a search that knows no listener.
fn tell_all<L: Listener>(
    file: usize,
    i: usize,
    record: &[u8],
    listener: &mut L,
) -> Result<(), L::Stop> {
    let tell =
        |refusal: Refusal| listener.hear(broken(refusal.reason, (file, i, refusal.field), 0));
    check(file, record, tell).map(|_| ())
}

fn entry(cells: &Cells) -> Entry {
    Entry {
        code: cells.code(1),
        tipo: cells.text(2).map_or(b' ', |t| t[0]),
    }
}

fn point(cells: &Cells) -> Point {
    Point {
        id: cells.id(1),
        composite: cells.number(2),
        node: cells.number(3),
        code: cells.code(4),
        x: cells.place(9),
        y: cells.place(11),
    }
}

fn label(cells: &Cells) -> Label {
    Label {
        id: cells.id(1),
        composite: cells.number(2),
        code: cells.code(3),
    }
}

fn linear(cells: &Cells) -> Linear {
    Linear {
        id: cells.id(1),
        composite: cells.number(2),
        code: cells.code(3),
    }
}

fn tramo(cells: &Cells) -> Tramo {
    let id = cells.id(1);
    Tramo {
        id,
        linear: cells.id(2),
        perimeter: cells.number(3),
        line: cells.number(4).unwrap_or(id),
        code: cells.code(5),
        start: cells.id(6),
        end: cells.id(7),
    }
}

fn vertex(cells: &Cells) -> Vertex {
    Vertex {
        line: cells.id(1),
        order: cells.id(2),
        x: cells.place(4),
        y: cells.place(6),
    }
}

fn node(cells: &Cells) -> Node {
    Node {
        id: cells.id(1),
        code: cells.text(2).map(|t| t[0]),
        x: cells.place(4),
        y: cells.place(6),
        z: cells.coordinate(8),
    }
}

fn composite(cells: &Cells) -> Composite {
    Composite {
        id: cells.id(1),
        code: cells.code(2),
    }
}
