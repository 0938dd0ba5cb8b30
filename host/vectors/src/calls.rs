//! What crates/writes should print: the writing call's cases of document 01,
//! "Single-record calls add", with those of W-202 to W-204, and some of the
//! reading call's, answered by the independent codec. The program states the
//! same cases in the same order.

use independent::{read, write, Refusal, Value};

/// The room that is filled before each call, and the byte it is filled with.
const ROOM: usize = 160;
const FILL: u8 = 0xAA;

type Values = Vec<Value>;

/// A call: the values of one file, and how much of the room is lent.
struct Case {
    label: &'static str,
    file: usize,
    values: Values,
    lent: usize,
    shown: bool,
}

/// In a room with bytes to spare.
fn case(label: &'static str, file: usize, values: Values) -> Case {
    let (lent, shown) = (ROOM, false);
    Case {
        label,
        file,
        values,
        lent,
        shown,
    }
}

/// The same, and the record is shown.
fn show(label: &'static str, file: usize, values: Values) -> Case {
    let shown = true;
    Case {
        shown,
        ..case(label, file, values)
    }
}

/// In a room of so many bytes.
fn within(lent: usize, case: Case) -> Case {
    Case { lent, ..case }
}

fn none() -> Values {
    vec![Value::Missing; 14]
}

fn set(mut values: Values, field: usize, value: Value) -> Values {
    values[field - 1] = value;
    values
}

fn number(values: Values, field: usize, n: u64) -> Values {
    set(values, field, Value::Number(n))
}

fn coordinate(values: Values, field: usize, z: i64) -> Values {
    set(values, field, Value::Coordinate(z))
}

fn text(values: Values, field: usize, text: &[u8]) -> Values {
    set(values, field, Value::Text(text.to_vec()))
}

fn no(values: Values, field: usize) -> Values {
    set(values, field, Value::Missing)
}

fn node(x: i64, y: i64) -> Values {
    coordinate(coordinate(number(none(), 1, 1), 4, x), 6, y)
}

fn nodes() -> Vec<Case> {
    let plain = || node(100, 200);
    vec![
        show("node X 999999999", 7, node(999_999_999, 200)),
        case("node X 1000000000", 7, node(1_000_000_000, 200)),
        case("node X least", 7, node(i64::MIN, 200)),
        show("node Y -9999999999", 7, node(100, -9_999_999_999)),
        case("node Y -10000000000", 7, node(100, -10_000_000_000)),
        show("node at zero", 7, coordinate(node(0, 0), 8, 0)),
        case("node id missing", 7, no(plain(), 1)),
        show("node id 0", 7, number(plain(), 1, 0)),
        case("node X missing", 7, no(plain(), 4)),
        case("node nothing given", 7, none()),
        case("node TIPO A0", 7, text(plain(), 2, b"\xA0")),
        case("node TIPO A1", 7, text(plain(), 2, b"\xA1")),
        show("node TIPO H", 7, text(plain(), 2, b"H")),
        case("node TIPO h", 7, text(plain(), 2, b"h")),
        case("node TIPO P", 7, text(plain(), 2, b"P")),
    ]
}

fn files() -> Vec<Case> {
    let plain = || node(100, 200);
    vec![
        case("file 0", 0, plain()),
        case("file 9", 9, plain()),
        show("file 7", 7, plain()),
        within(0, case("file 9 room of 0", 9, plain())),
        within(49, case("room of 49", 7, plain())),
        within(49, case("room of 49 id missing", 7, no(plain(), 1))),
        within(50, case("room of 50", 7, plain())),
        within(60, case("room of 60", 7, plain())),
    ]
}

fn line(code: &[u8], name: &[u8]) -> Values {
    text(text(number(none(), 1, 1), 3, code), 4, name)
}

fn named(name: &[u8]) -> Values {
    line(b"0100000", name)
}

fn names() -> Vec<Case> {
    let long = b"abcdefghijklmnopqrstuvwxyz0123456789ABCDEFGHIJKLMNOPQRSTUVWXY";
    vec![
        case("name of 61", 4, named(long)),
        show("name of 60", 4, named(&long[..60])),
        case("name blank first", 4, named(b" A")),
        case("name blank last", 4, named(b"A ")),
        case("name of blanks", 4, named(b"  ")),
        case("name with 7F", 4, named(b"A\x7FB")),
        show("name with a bar", 4, named(b"A|B")),
        case("name with A0", 4, named(b"A\xA0B")),
        show("name missing", 4, named(b"")),
        show("name NA", 4, named(b"NA")),
        case("name A0 first", 4, named(b"\xA0A")),
        case("name A0 last", 4, named(b"A\xA0")),
        case("name of A0", 4, named(b"\xA0")),
        case("name NA and A0", 4, named(b"NA\xA0")),
        case("name A1 first and last", 4, named(b"\xA1A\xA1")),
    ]
}

fn codes() -> Vec<Case> {
    vec![
        case("code missing", 4, line(b"", b"a")),
        case("code NA", 4, line(b"NA", b"a")),
        case("code ND", 4, line(b"ND", b"a")),
        show("code na", 4, line(b"na", b"a")),
        case("code NA and A0", 4, line(b"NA\xA0", b"a")),
        case("code with A0", 4, line(b"NA\xA0A", b"a")),
    ]
}

fn centroids() -> Vec<Case> {
    let x = || coordinate(named(b"a"), 6, 100);
    vec![
        case("centroid only Y", 4, coordinate(named(b"a"), 8, 200)),
        case(
            "centroid wide Y no X",
            4,
            coordinate(named(b"a"), 8, 10_000_000_000),
        ),
        case("centroid only Z", 4, coordinate(named(b"a"), 10, 5)),
        case("centroid X and Z", 4, coordinate(x(), 10, 5)),
        show("centroid X and Y", 4, coordinate(x(), 8, 200)),
    ]
}

fn catalogued(tipo: &[u8]) -> Values {
    text(text(none(), 1, b"0100001"), 2, tipo)
}

fn catalogue() -> Vec<Case> {
    vec![
        case("catalogue TIPO Q", 1, catalogued(b"Q")),
        case("catalogue TIPO missing", 1, catalogued(b"")),
        show("catalogue TIPO T", 1, catalogued(b"T")),
        case("catalogue TIPO A0", 1, catalogued(b"\xA0")),
        case("catalogue TIPO A1", 1, catalogued(b"\xA1")),
        show("catalogue TIPO C", 1, catalogued(b"C")),
        case("catalogue TIPO S", 1, catalogued(b"S")),
    ]
}

fn tramo(sense: &[u8]) -> Values {
    let values = number(number(none(), 1, 1), 2, 1);
    let values = number(number(values, 6, 1), 7, 2);
    text(text(values, 5, b"0100001"), 8, sense)
}

fn tramos() -> Vec<Case> {
    vec![
        case("tramo sense x", 5, tramo(b"x")),
        show("tramo sense blank", 5, tramo(b"")),
        show("tramo sense -", 5, tramo(b"-")),
        case("tramo sense A0", 5, tramo(b"\xA0")),
        case("tramo sense A1", 5, tramo(b"\xA1")),
    ]
}

fn vertices() -> Vec<Case> {
    vec![
        case("vertex order 100000", 6, number(node(100, 200), 2, 100_000)),
        show("vertex order 99999", 6, number(node(100, 200), 2, 99_999)),
    ]
}

fn texts() -> Vec<Case> {
    let values = text(text(number(none(), 1, 1), 3, b"0100002"), 4, b"a");
    let values = coordinate(coordinate(number(values, 8, 3), 10, 100), 12, 200);
    let whole = || number(values.clone(), 5, 12);
    vec![
        case("text height missing", 3, values.clone()),
        show("text", 3, whole()),
        case("text justification 0", 3, number(whole(), 8, 0)),
        show("text justification 9", 3, number(whole(), 8, 9)),
        case("text justification 10", 3, number(whole(), 8, 10)),
        case("text orientation 36000", 3, number(whole(), 7, 36_000)),
        show("text orientation 35959", 3, number(whole(), 7, 35_959)),
    ]
}

fn points() -> Vec<Case> {
    let values = text(text(number(none(), 1, 1), 4, b"0100003"), 5, b"a");
    let values = coordinate(coordinate(number(values, 3, 2), 9, 100), 11, 200);
    let turned = |angle| number(values.clone(), 6, angle);
    vec![
        show("point", 2, values.clone()),
        show("point orientation 0", 2, turned(0)),
        show("point orientation 59", 2, turned(59)),
        case("point orientation 60", 2, turned(60)),
        case("point orientation 35960", 2, turned(35_960)),
        case("point orientation 100000", 2, turned(100_000)),
    ]
}

fn composite(code: &[u8], name: &[u8]) -> Values {
    text(text(number(none(), 1, 1), 2, code), 3, name)
}

fn composites() -> Vec<Case> {
    let plain = || composite(b"0500000", b"a");
    let x = || coordinate(plain(), 5, 100);
    let wide = || number(plain(), 1, 10_000_000_000);
    vec![
        show("composite", 8, plain()),
        case("composite id missing", 8, no(plain(), 1)),
        case("composite id 10000000000", 8, wide()),
        case("composite code missing", 8, composite(b"", b"a")),
        case("composite code NA", 8, composite(b"NA", b"a")),
        case("composite code of 8", 8, composite(b"05000000", b"a")),
        show("composite name missing", 8, composite(b"0500000", b"")),
        case(
            "composite name blank first",
            8,
            composite(b"0500000", b" a"),
        ),
        case("composite name A0 last", 8, composite(b"0500000", b"a\xA0")),
        case("composite only X", 8, x()),
        case("composite only Y", 8, coordinate(plain(), 7, 200)),
        case("composite only Z", 8, coordinate(plain(), 9, 5)),
        case("composite X and Z", 8, coordinate(x(), 9, 5)),
        show("composite X and Y", 8, coordinate(x(), 7, -200)),
        show(
            "composite X, Y and Z",
            8,
            coordinate(coordinate(x(), 7, 200), 9, 0),
        ),
        case(
            "composite wide Y no X",
            8,
            coordinate(plain(), 7, 10_000_000_000),
        ),
        case("composite wide Y", 8, coordinate(x(), 7, 10_000_000_000)),
        within(116, case("composite room of 116", 8, plain())),
        within(117, case("composite room of 117", 8, plain())),
    ]
}

fn refusal(Refusal { reason, field }: Refusal) -> Vec<u8> {
    format!(" NO {reason:02} {field:02}").into_bytes()
}

/// Whether bytes are as they were before the call.
fn kept(bytes: &[u8]) -> &'static [u8] {
    if bytes.iter().all(|byte| *byte == FILL) {
        b" kept\n"
    } else {
        b" touched\n"
    }
}

/// A record's bytes, its end in letters.
fn record(bytes: &[u8]) -> Vec<u8> {
    match bytes.strip_suffix(b"\r\n") {
        Some(text) => [b" ", text, br"\r\n"].concat(),
        None => [b" ", bytes].concat(),
    }
}

/// A case's line: the case, the answer, and what became of the room.
fn written(case: &Case) -> Vec<u8> {
    let mut room = [FILL; ROOM];
    let label = case.label.as_bytes();
    match write(case.file, &case.values, &mut room[..case.lent]) {
        Err(refused) => [label, &refusal(refused), kept(&room)].concat(),
        Ok(length) => {
            let shown = if case.shown {
                record(&room[..length])
            } else {
                Vec::new()
            };
            [label, b" OK", &shown, b" rest", kept(&room[length..])].concat()
        }
    }
}

/// The line of a record that is read.
fn reading(label: &str, file: usize, bytes: &[u8], n: usize) -> Vec<u8> {
    let answer = read(file, bytes, n).map_or_else(refusal, |_| b" OK".to_vec());
    [label.as_bytes(), &answer, b"\n"].concat()
}

fn nodes_read() -> Vec<Vec<u8>> {
    let node = b"0000000001| |+|000000100|+|0000000200| |        \r\n";
    vec![
        reading("read record 0", 7, node, 0),
        reading("read record 2", 7, node, 2),
        reading("read record 1", 7, node, 1),
    ]
}

/// A composite's record, its first cells and its name as they are given.
fn composite_record(cells: [&str; 3], centroid: &str, end: &str) -> Vec<u8> {
    let [id, code, name] = cells;
    format!("{id}|{code}|{name:60}|{centroid}{end}").into_bytes()
}

fn composites_read() -> Vec<Vec<u8>> {
    let (id, code, name) = ("0000000001", "0500000", "a");
    let none = " |         | |          | |        ";
    let lawful = composite_record([id, code, name], none, "\r\n");
    let with = |cells, centroid| composite_record(cells, centroid, "\r\n");
    let of_composite = |label, bytes: &[u8]| reading(label, 8, bytes, 1);
    vec![
        reading("read file 9", 9, &lawful, 1),
        reading("read composite 0", 8, &lawful, 0),
        reading("read composite 2", 8, &lawful, 2),
        reading("read composite of 116", 8, &lawful[..116], 1),
        of_composite("read composite", &lawful),
        of_composite(
            "read composite end",
            &composite_record([id, code, name], none, "\n\r"),
        ),
        of_composite(
            "read composite bar",
            &with([id, code, name], " ,         | |          | |        "),
        ),
        of_composite("read composite id", &with(["         1", code, name], none)),
        of_composite("read composite name", &with([id, code, " a"], none)),
        of_composite("read composite code ND", &with([id, "ND     ", name], none)),
        of_composite(
            "read composite only Z",
            &with([id, code, name], " |         | |          |+|00000005"),
        ),
        of_composite(
            "read composite minus zero",
            &with([id, code, name], "+|000000001|-|0000000000| |        "),
        ),
        of_composite(
            "read composite X and Y",
            &with([id, code, name], "+|000000001|-|0000000002| |        "),
        ),
    ]
}

/// All lines, in the program's order.
pub fn calls() -> Vec<u8> {
    let cases = [
        nodes(),
        files(),
        names(),
        codes(),
        centroids(),
        catalogue(),
        tramos(),
        vertices(),
        texts(),
        points(),
        composites(),
    ];
    let written = cases.iter().flatten().map(written);
    let read = nodes_read().into_iter().chain(composites_read());
    written.chain(read).flatten().collect()
}
