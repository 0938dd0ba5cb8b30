//! What `explain` says of a delivery, and which bytes it marks.

use canopyrail::Reason;
use std::fs::File;

use crate::build::{
    offset, s, Files, CATALOGO, LENGTHS, NODO, OB_COMP, OB_LIN, OB_PUN, OB_TEX, TRAMO, VERTICE,
};
use crate::run::{explain, flowing, judge, marked, Room};

/// A delivery with the line it gets, what its page must say, and the bytes that must be marked on
/// it, in order.
struct Sample {
    what: &'static str,
    files: Files,
    line: &'static str,
    says: &'static [&'static str],
    marks: &'static [&'static str],
}

fn check(samples: &[Sample]) {
    for sample in samples {
        let room = Room::holding(&sample.files);
        let what = sample.what;
        let accepted = sample.line.starts_with("OK");
        let status = if accepted { 0 } else { 1 };
        let judged = judge(&room.path);
        assert_eq!(
            (judged.out.as_str(), judged.err.as_str()),
            (&*format!("{}\n", sample.line), ""),
            "{what}"
        );
        assert_eq!(judged.status, status, "{what}");
        let page = explain(&room.path);
        assert_eq!((page.status, page.err.as_str()), (status, ""), "{what}");
        assert!(page.out.starts_with(&judged.out), "{what}: {}", page.out);
        assert!(page.out.is_ascii(), "{what}");
        for line in page.out.lines() {
            assert!(line.len() <= 100, "{what}: {line}");
        }
        let text = flowing(&page.out);
        for words in sample.says {
            assert!(
                text.contains(words),
                "{what}: no '{words}' in\n{}",
                page.out
            );
        }
        assert_eq!(marked(&page.out), sample.marks, "{what}:\n{}", page.out);
        check_words(sample.line, &text);
    }
}

/// A refusal's page has the rule's words, and what to ask.
fn check_words(line: &str, text: &str) {
    if let Some(reason) = line
        .strip_prefix("NO ")
        .and_then(|rest| rest[..2].parse().ok())
    {
        let words = Reason::of(reason).unwrap().words();
        for part in [words.wrong, words.rule, words.ask] {
            assert!(
                text.contains(&flowing(part)),
                "{line}: no '{part}' in\n{text}"
            );
        }
    }
}

#[test]
fn accepted_deliveries_are_counted_by_name() {
    check(&[Sample {
        what: "S",
        files: s(),
        line: "OK 00002 00000 00000 00001 00001 00002 00002 00000",
        says: &[
            "Accepted",
            "CATALOGO 2 records",
            "OB_PUN 0 records (no such file)",
            "TRAMO 1 record VERTICE 2 records",
        ],
        marks: &[],
    }]);
}

#[test]
fn the_shape_of_a_file() {
    let mut one = s();
    one.bytes[NODO - 1].truncate(51);
    check(&[
        Sample {
            what: "a byte too many",
            files: one,
            line: "NO 11 7 00002 00",
            says: &[
                "Where NODO record 2",
                "NODO has 51 bytes: 1 whole record of 50, then 1 byte.",
            ],
            marks: &["0"],
        },
        Sample {
            what: "an end mark",
            files: s().append(NODO, b"\x1A"),
            line: "NO 11 7 00003 00",
            says: &[
                "NODO has 101 bytes: 2 whole records of 50, then 1 byte.",
                "the end mark of old systems",
            ],
            marks: &["\\x1A"],
        },
        Sample {
            what: "an empty line",
            files: s().append(CATALOGO, b"\r\n"),
            line: "NO 11 1 00003 00",
            says: &["That is a line end without a record."],
            marks: &["\\x0D\\x0A"],
        },
        Sample {
            what: "lines that end in a line feed alone",
            files: line_feeds_alone(),
            line: "NO 11 7 00002 00",
            says: &[
                "The file's first line feed is its byte 49; a record has 50.",
                "Its lines end in a line feed alone (0A): the carriage returns (0D) were never",
            ],
            marks: &["000000002| |+|000000140|+|0000000200| |        \\x0A"],
        },
        Sample {
            what: "lines that end in a carriage return alone",
            files: without(NODO, b'\n'),
            line: "NO 11 7 00002 00",
            says: &["Its lines end in a carriage return alone (0D)"],
            marks: &["000000002| |+|000000140|+|0000000200| |        \\x0D"],
        },
        Sample {
            what: "a byte-order mark",
            files: begun(b"\xEF\xBB\xBF"),
            line: "NO 11 7 00003 00",
            says: &["It begins with the bytes EF BB BF: a byte-order mark,"],
            marks: &[" \\x0D\\x0A"],
        },
        Sample {
            what: "a byte-order mark of two bytes",
            files: begun(b"\xFF\xFE"),
            line: "NO 11 7 00003 00",
            says: &["It begins with a byte-order mark of UTF-16 text"],
            marks: &["\\x0D\\x0A"],
        },
        Sample {
            what: "UTF-8",
            files: in_utf_8(),
            line: "NO 11 1 00003 00",
            says: &[
                "It looks like UTF-8: it has 3 letters that ASCII has not, which take 3 bytes \
                 more there than in ISO 8859-1.",
            ],
            marks: &[" \\x0D\\x0A"],
        },
        Sample {
            what: "line feeds alone in a file whose length does",
            files: fifty_lines(),
            line: "NO 20 7 00001 00",
            says: &[
                "Its line feed comes too early, as byte 49 of 50.",
                "Its lines end in a line feed alone (0A)",
            ],
            marks: &["\\x0A0"],
        },
    ]);
}

/// S with the carriage returns of NODO lost, as by a transfer as text.
fn line_feeds_alone() -> Files {
    without(NODO, b'\r')
}

fn without(file: usize, lost: u8) -> Files {
    let mut files = s();
    files.bytes[file - 1].retain(|byte| *byte != lost);
    files
}

/// S with some bytes before NODO's first.
fn begun(mark: &[u8]) -> Files {
    let mut files = s();
    files.bytes[NODO - 1].splice(0..0, mark.iter().copied());
    files
}

/// S with a catalogue saved as UTF-8: each letter beyond ASCII grew by a byte.
fn in_utf_8() -> Files {
    let named = s().poke(
        CATALOGO,
        1,
        offset(CATALOGO, 3),
        b"A\xF1o, concesi\xF3n, \xE1rea",
    );
    let letters = |byte: &u8| char::from(*byte).to_string().into_bytes();
    let mut files = named.clone();
    files.bytes[CATALOGO - 1] = named.bytes[CATALOGO - 1].iter().flat_map(letters).collect();
    files
}

/// Fifty nodes without carriage returns: 50 lines of 49 bytes are 49 records of 50.
fn fifty_lines() -> Files {
    let mut files = Files::default();
    for id in 1..=50 {
        files = files.node(&format!("{id:010}"), "000000100", "0000000200");
    }
    files.bytes[NODO - 1].retain(|byte| *byte != b'\r');
    files
}

#[test]
fn the_bytes_of_a_record() {
    check(&[
        Sample {
            what: "20, another end",
            files: s().poke(TRAMO, 1, 75, b"| "),
            line: "NO 20 5 00001 00",
            says: &[
                "Where TRAMO record 1 ",
                "stand '|' and a blank",
                "No line feed follows at all.",
            ],
            marks: &["| "],
        },
        Sample {
            what: "20, a field too wide",
            files: shifted(),
            line: "NO 20 7 00001 00",
            says: &[
                "stand a blank and a carriage return (0D)",
                "too late, as byte 51 where the record has 50",
            ],
            marks: &[" \\x0D"],
        },
        Sample {
            what: "20, end bytes exchanged",
            files: s().poke(NODO, 2, 48, b"\n\r"),
            line: "NO 20 7 00002 00",
            says: &[
                "stand a line feed (0A) and a carriage return (0D)",
                "too early, as byte 49 of 50",
            ],
            marks: &["\\x0A\\x0D"],
        },
        Sample {
            what: "21",
            files: s().poke(VERTICE, 2, 15 + 1, b","),
            line: "NO 21 6 00002 02",
            says: &[
                "VERTICE record 2, field 2 NO_ORDEN (the order on the line)",
                "After the field stands ','.",
            ],
            marks: &[","],
        },
        Sample {
            what: "22, blanks before the digits",
            files: s().set(NODO, 1, 4, "       11"),
            line: "NO 22 7 00001 04",
            says: &[
                "NODO record 1, field 4 POS_X (X)",
                "Byte 1 of the field is a blank.",
            ],
            marks: &["       11"],
        },
        Sample {
            what: "22, a point",
            files: s().set(VERTICE, 1, 6, "0000020.00"),
            line: "NO 22 6 00001 06",
            says: &["field 6 POS_Y (Y)", "Byte 8 of the field is '.'."],
            marks: &["0000020.00"],
        },
        Sample {
            what: "23, a control byte in a long record",
            files: s().poke(CATALOGO, 2, offset(CATALOGO, 4), b"a\tb\\"),
            line: "NO 23 1 00002 04",
            says: &[
                "CATALOGO record 2, field 4 DEFINICI",
                "Byte 2 of the field is a tab (09).",
            ],
            marks: &["a\\x09b\\x5C                                                        "],
        },
        Sample {
            what: "23, a text pushed to the right",
            files: s().set(OB_LIN, 1, 4, " Camino"),
            line: "NO 23 4 00001 04",
            says: &["field 4 NOMBRE_I (the name)", "begins in a blank"],
            marks: &[" Camino                                                     "],
        },
    ]);
}

/// What the page says of the byte A0 at a text's end.
const NO_BREAK: &str =
    "That byte looks like a blank and is none: some converters fill short texts \
                        up with it, and a search for the text misses it then.";

#[test]
fn no_break_blanks() {
    let name = offset(OB_LIN, 4);
    check(&[
        Sample {
            what: "23, a no-break blank before the text",
            files: s().poke(OB_LIN, 1, name, b"\xA0Camino"),
            line: "NO 23 4 00001 04",
            says: &[
                "OB_LIN record 1, field 4 NOMBRE_I (the name)",
                "Byte 1 of the field is a no-break blank (A0), and the text begins in it.",
                NO_BREAK,
            ],
            marks: &["\\xA0Camino                                                     "],
        },
        Sample {
            what: "23, a no-break blank after the text",
            files: s().poke(OB_LIN, 1, name, b"Camino\xA0"),
            line: "NO 23 4 00001 04",
            says: &[
                "Byte 7 of the field is a no-break blank (A0), and the text ends in it.",
                NO_BREAK,
            ],
            marks: &["Camino\\xA0                                                     "],
        },
        Sample {
            what: "23, a no-break blank before and after the text",
            files: s().poke(OB_LIN, 1, name, b"\xA0Camino\xA0"),
            line: "NO 23 4 00001 04",
            says: &[
                "Byte 1 of the field is a no-break blank (A0), and the text begins in it. Byte 8 of \
                 the field is a no-break blank (A0), and the text ends in it. That byte looks",
            ],
            marks: &["\\xA0Camino\\xA0                                                    "],
        },
        Sample {
            what: "23, a code filled up with no-break blanks",
            files: s().poke(TRAMO, 1, offset(TRAMO, 5), b"NA\xA0\xA0\xA0\xA0\xA0"),
            line: "NO 23 5 00001 05",
            says: &[
                "field 5 CODIGO (the code)",
                "Bytes 3 to 7 of the field are no-break blanks (A0), and the text ends in them.",
            ],
            marks: &["NA\\xA0\\xA0\\xA0\\xA0\\xA0"],
        },
        Sample {
            what: "23, no-break blanks alone",
            files: s().poke(TRAMO, 1, offset(TRAMO, 5), b"\xA0\xA0     "),
            line: "NO 23 5 00001 05",
            says: &[
                "Bytes 1 to 2 of the field are no-break blanks (A0), and the text begins in them. \
                 That byte looks",
            ],
            marks: &["\\xA0\\xA0     "],
        },
        Sample {
            what: "23, a no-break blank for a sense",
            files: s().poke(TRAMO, 1, offset(TRAMO, 8), b"\xA0"),
            line: "NO 23 5 00001 08",
            says: &[
                "field 8 SENTIDO (the sense)",
                "Byte 1 of the field is a no-break blank (A0), and the text begins in it.",
            ],
            marks: &["\\xA0"],
        },
        Sample {
            what: "23, a control byte within no-break blanks",
            files: s().poke(OB_LIN, 1, name, b"\xA0\x01\xA0"),
            line: "NO 23 4 00001 04",
            says: &["Byte 2 of the field is byte 01."],
            marks: &["\\xA0\\x01\\xA0                                                         "],
        },
        Sample {
            what: "a no-break blank within a text",
            files: s().poke(OB_LIN, 1, name, b"Camino\xA0Real"),
            line: "OK 00002 00000 00000 00001 00001 00002 00002 00000",
            says: &["Accepted"],
            marks: &[],
        },
        Sample {
            what: "22, no-break blanks in a number",
            files: s().poke(NODO, 1, offset(NODO, 4), b"\xA0\xA0\xA0000100"),
            line: "NO 22 7 00001 04",
            says: &["Byte 1 of the field is a no-break blank (A0)."],
            marks: &["\\xA0\\xA0\\xA0000100"],
        },
    ]);
}

/// S with one blank too many in the first node's record, and the file's last byte cut off.
fn shifted() -> Files {
    let mut files = s();
    files.bytes[NODO - 1].insert(48, b' ');
    files.bytes[NODO - 1].truncate(100);
    files
}

#[test]
fn missing_and_outside() {
    check(&[
        Sample {
            what: "24, a blank id",
            files: s().set(TRAMO, 1, 2, ""),
            line: "NO 24 5 00001 02",
            says: &[
                "TRAMO record 1, field 2 ID_OLIN (the linear object)",
                "The field is blank.",
            ],
            marks: &["          "],
        },
        Sample {
            what: "24, NA for a code",
            files: s().set(OB_LIN, 1, 3, "NA"),
            line: "NO 24 4 00001 03",
            says: &[
                "field 3 CODIGO (the code)",
                "The field says NA, which is no code.",
            ],
            marks: &["NA     "],
        },
        Sample {
            what: "24, a number without its sign",
            files: s().set(NODO, 1, 8, "00000007"),
            line: "NO 24 7 00001 07",
            says: &[
                "field 7 SIGNO_Z",
                "its partner, field 8 POS_Z (Z), holds 00000007.",
            ],
            marks: &[" "],
        },
        Sample {
            what: "24, half a centroid",
            files: s().set(OB_LIN, 1, 7, "+").set(OB_LIN, 1, 8, "0000000200"),
            line: "NO 24 4 00001 05",
            says: &[
                "field 5 SIGNO_X",
                "of the centroid these are filled: SIGNO_Y, CEN_Y.",
            ],
            marks: &[" "],
        },
        Sample {
            what: "24, half a centroid of a composite object",
            files: s().composite("0000000009").set(OB_COMP, 1, 9, "00000007"),
            line: "NO 24 8 00001 04",
            says: &[
                "field 4 SIGNO_X (the sign of the centroid's X)",
                "of the centroid these are filled: CEN_Z.",
            ],
            marks: &[" "],
        },
        Sample {
            what: "25, a surface in the catalogue",
            files: s().set(CATALOGO, 2, 2, "S"),
            line: "NO 25 1 00002 02",
            says: &[
                "CATALOGO record 2, field 2 TIPO",
                "The field holds S; it may hold P (point), X (text), L (line), T (tramo) or C \
                 (composite).",
            ],
            marks: &["S"],
        },
        Sample {
            what: "25, - before zero",
            files: s().set(NODO, 1, 3, "-").set(NODO, 1, 4, "000000000"),
            line: "NO 25 7 00001 03",
            says: &[
                "field 3 SIGNO_X (the sign of X)",
                "The sign is -, and POS_X is zero.",
            ],
            marks: &["-"],
        },
        Sample {
            what: "25, another sign",
            files: s().set(VERTICE, 2, 5, "*"),
            line: "NO 25 6 00002 05",
            says: &["field 5 SIGNO_Y", "The field holds *; it may hold + or -."],
            marks: &["*"],
        },
        Sample {
            what: "25, a small letter for a node's type",
            files: s().set(NODO, 2, 2, "e"),
            line: "NO 25 7 00002 02",
            says: &[
                "field 2 TIPO (the node's type)",
                "The field holds e; it may hold A (isolated), C (connected), E (end), I \
                 (intermediate), H (end and intermediate) or a blank.",
            ],
            marks: &["e"],
        },
        Sample {
            what: "25, an orientation of 360 degrees",
            files: s().point("", "000000001", "0000000001").set(OB_PUN, 1, 6, "36000"),
            line: "NO 25 2 00001 06",
            says: &[
                "field 6 ORIENTAC (the orientation)",
                "The field holds 36000; it may hold three digits of degrees from 000 to 359 and two \
                 of minutes from 00 to 59.",
            ],
            marks: &["36000"],
        },
        Sample {
            what: "25, a justification of 0",
            files: with_text("0"),
            line: "NO 25 3 00001 08",
            says: &[
                "field 8 JUSTIFI (the justification)",
                "The field holds 0; it may hold 1 to 9.",
            ],
            marks: &["0"],
        },
        Sample {
            what: "a justification of 9",
            files: with_text("9"),
            line: "OK 00003 00000 00001 00001 00001 00002 00002 00000",
            says: &["Accepted"],
            marks: &[],
        },
        Sample {
            what: "25, a sense that isn't one",
            files: s().set(TRAMO, 1, 8, "D"),
            line: "NO 25 5 00001 08",
            says: &[
                "field 8 SENTIDO (the sense)",
                "it may hold +, - or a blank.",
            ],
            marks: &["D"],
        },
    ]);
}

/// S with a text of this justification.
fn with_text(justification: &str) -> Files {
    let fields = [
        (1, "0000000001"),
        (3, "0300000"),
        (5, "012"),
        (7, "35959"),
        (8, justification),
        (9, "+"),
        (10, "000000001"),
        (11, "+"),
        (12, "0000000001"),
    ];
    s().code("0300000", "X").with(OB_TEX, &fields)
}

#[test]
fn keys_and_references() {
    check(&[
        Sample {
            what: "30, a node's id",
            files: s().set(NODO, 2, 1, "0000000001"),
            line: "NO 30 7 00002 01",
            says: &["ID_NODO 0000000001 stands already in NODO record 1:"],
            marks: &["0000000001", "0000000001"],
        },
        Sample {
            what: "30, a vertex",
            files: s().vertex("0000000001", "00002", "000000150", "0000000200"),
            line: "NO 30 6 00003 02",
            says: &[
                "field 2 NO_ORDEN",
                "Line 0000000001 with order 00002 stands already in VERTICE record 2:",
            ],
            marks: &["0000000001", "00002", "0000000001", "00002"],
        },
        Sample {
            what: "30, a code",
            files: s().code("0100000", "P"),
            line: "NO 30 1 00003 01",
            says: &["CODIGO 0100000 stands already in CATALOGO record 1:"],
            marks: &["0100000", "0100000"],
        },
        Sample {
            what: "40, a node",
            files: s().set(TRAMO, 1, 7, "0000000003"),
            line: "NO 40 5 00001 07",
            says: &[
                "field 7 ID_NODOF (the end node)",
                "0000000003 is sought in NODO (2 records), field 1 ID_NODO,",
            ],
            marks: &["0000000003"],
        },
        Sample {
            what: "40, a code",
            files: s().set(OB_LIN, 1, 3, "N.D."),
            line: "NO 40 4 00001 03",
            says: &["N.D. is sought in CATALOGO (2 records), field 1 CODIGO, and is not there."],
            marks: &["N.D.   "],
        },
        Sample {
            what: "40, a linear object",
            files: s().set(TRAMO, 1, 2, "0000000000"),
            line: "NO 40 5 00001 02",
            says: &[
                "0000000000 is sought in OB_LIN (1 record), field 1 ID_OLIN, and is not there.",
            ],
            marks: &["0000000000"],
        },
        Sample {
            what: "40, a perimeter",
            files: s().set(TRAMO, 1, 3, "0000000000"),
            line: "NO 40 5 00001 03",
            says: &["field 3 ID_PERIM (the perimeter)", "It must be blank."],
            marks: &["0000000000"],
        },
        Sample {
            what: "40, a composite object, and there is no file of them",
            files: s().set(OB_LIN, 1, 2, "0000000007"),
            line: "NO 40 4 00001 02",
            says: &[
                "field 2 ID_OCOMP (the composite object)",
                "0000000007 is sought in OB_COMP, and the delivery has no file OB_COMP.",
                "Ask Where the file OB_COMP is.",
            ],
            marks: &["0000000007"],
        },
        Sample {
            what: "40, a composite object",
            files: s().set(OB_LIN, 1, 2, "0000000001").composite("0000000009"),
            line: "NO 40 4 00001 02",
            says: &[
                "0000000001 is sought in OB_COMP (1 record), field 1 ID_OCOMP, and is not there.",
            ],
            marks: &["0000000001"],
        },
        Sample {
            what: "40, a composite object's code",
            files: s().composite("0000000009").set(OB_COMP, 1, 2, "7"),
            line: "NO 40 8 00001 02",
            says: &["7 is sought in CATALOGO (3 records), field 1 CODIGO, and is not there."],
            marks: &["7      "],
        },
        Sample {
            what: "40, the line of the tramo's own id",
            files: s().set(TRAMO, 1, 1, "0000000009"),
            line: "NO 40 5 00001 04",
            says: &[
                "The tramo's line is 9: its field 4 ID_LINEA is blank",
                "sought in VERTICE (2 records), field 1 ID_LINEA",
            ],
            marks: &["          "],
        },
        Sample {
            what: "40, a line that no tramo uses",
            files: second_line(),
            line: "NO 40 6 00003 01",
            says: &[
                "Line 2 is sought in TRAMO (2 records)",
                "Tramo 2 is TRAMO record 2. The tramo's line is 1, by its field 4",
            ],
            marks: &["0000000002", "0000000001"],
        },
        Sample {
            what: "40, into a file that is not there",
            files: s().absent(NODO),
            line: "NO 40 5 00001 06",
            says: &[
                "Here 0000000001 is sought in NODO, and the delivery has no file NODO.",
                "Ask Where the file NODO is. To send",
            ],
            marks: &["0000000001"],
        },
        Sample {
            what: "40, a code, and there is no catalogue",
            files: s().absent(CATALOGO),
            line: "NO 40 4 00001 03",
            says: &["0100000 is sought in CATALOGO, and the delivery has no file CATALOGO."],
            marks: &["0100000"],
        },
        Sample {
            what: "40, a line, and there are no vertices",
            files: s().absent(VERTICE),
            line: "NO 40 5 00001 04",
            says: &[
                "The tramo's line is 1",
                "It is sought in VERTICE, and the delivery has no file VERTICE.",
            ],
            marks: &["          "],
        },
        Sample {
            what: "40, a vertex, and there are no tramos",
            files: s().absent(TRAMO),
            line: "NO 40 6 00001 01",
            says: &["Line 1 is sought in TRAMO, and the delivery has no file TRAMO."],
            marks: &["0000000001"],
        },
        Sample {
            what: "41",
            files: s().set(TRAMO, 1, 5, "0100000"),
            line: "NO 41 5 00001 05",
            says: &[
                "Code 0100000 is catalogued under L (line); TRAMO takes T (tramo).",
                "CATALOGO record 1:",
            ],
            marks: &["0100000", "0100000", "L"],
        },
        Sample {
            what: "41, in a composite object",
            files: s().composite("0000000009").set(OB_COMP, 1, 2, "0100000"),
            line: "NO 41 8 00001 02",
            says: &["Code 0100000 is catalogued under L (line); OB_COMP takes C (composite)."],
            marks: &["0100000", "0100000", "L"],
        },
        Sample {
            what: "41, a composite object's code",
            files: s().composite("0000000009").set(OB_LIN, 1, 3, "0500000"),
            line: "NO 41 4 00001 03",
            says: &["Code 0500000 is catalogued under C (composite); OB_LIN takes L (line)."],
            marks: &["0500000", "0500000", "C"],
        },
    ]);
}

/// S with a second tramo on line 1 and vertices of a line 2 that neither uses.
fn second_line() -> Files {
    let tramo = [
        (1, "0000000002"),
        (2, "0000000001"),
        (4, "0000000001"),
        (5, "0100001"),
        (6, "0000000001"),
        (7, "0000000002"),
    ];
    s().with(TRAMO, &tramo)
        .vertex("0000000002", "00001", "000000100", "0000000200")
        .vertex("0000000002", "00002", "000000140", "0000000200")
}

#[test]
fn lines_and_nodes() {
    check(&[
        Sample {
            what: "50, a gap",
            files: s().vertex("0000000001", "00004", "000000140", "0000000200"),
            line: "NO 50 6 00003 02",
            says: &[
                "VERTICE record 3, field 2 NO_ORDEN",
                "Line 1 has 3 vertices, of order 1 to 2, 4. Order 3 is not there.",
            ],
            marks: &["00004"],
        },
        Sample {
            what: "50, order 0",
            files: s().vertex("0000000001", "00000", "000000140", "0000000200"),
            line: "NO 50 6 00003 02",
            says: &["Line 1 has 3 vertices, of order 0 to 2. Orders begin with 1."],
            marks: &["00000"],
        },
        Sample {
            what: "51",
            files: s().set(VERTICE, 2, 2, "00003"),
            line: "NO 51 6 00001 02",
            says: &["Line 1 has 2 vertices, of order 1, 3. Order 2 is not there."],
            marks: &["00001"],
        },
        Sample {
            what: "52, with a vertex of order 0 at the node",
            files: s().set(NODO, 1, 6, "0000000201").vertex(
                "0000000001",
                "00000",
                "000000100",
                "0000000201",
            ),
            line: "NO 52 5 00001 06",
            says: &[
                "TRAMO record 1, field 6 ID_NODOI (the start node)",
                "Its first vertex is VERTICE record 1, order 1, at X +100, Y +200:",
                "The start node 1 is NODO record 1, at X +100, Y +201:",
            ],
            marks: &["0000000001", "+|0000000200", "+|0000000201"],
        },
        Sample {
            what: "52, nodes exchanged",
            files: s()
                .set(TRAMO, 1, 6, "0000000002")
                .set(TRAMO, 1, 7, "0000000001")
                .set(TRAMO, 1, 8, "-"),
            line: "NO 52 5 00001 06",
            says: &["The line's last vertex is at that node: the tramo may run against its line."],
            marks: &["0000000002", "+|000000100", "+|000000140"],
        },
        Sample {
            what: "53",
            files: s().set(NODO, 2, 4, "000000141"),
            line: "NO 53 5 00001 07",
            says: &[
                "TRAMO record 1, field 7 ID_NODOF (the end node)",
                "Its last vertex is VERTICE record 2, order 2, at X +140, Y +200:",
                "The end node 2 is NODO record 2, at X +141, Y +200:",
            ],
            marks: &["0000000002", "+|000000140", "+|000000141"],
        },
        Sample {
            what: "54",
            files: s().node("0000000003", "000000100", "0000000200"),
            line: "NO 54 7 00003 00",
            says: &["Node 3 is where node 1 is, which is NODO record 1:"],
            marks: &[
                "+|000000100|+|0000000200| |        ",
                "+|000000100|+|0000000200| |        ",
            ],
        },
        Sample {
            what: "55",
            files: s().point("0000000002", "000000140", "0000000199"),
            line: "NO 55 2 00001 03",
            says: &[
                "OB_PUN record 1, field 3 ID_NODO",
                "The point object is at X +140, Y +199.",
                "Its node 2 is NODO record 2, at X +140, Y +200:",
            ],
            marks: &["0000000002", "+|0000000199", "+|0000000200"],
        },
        Sample {
            what: "56",
            files: s().node("0000000003", "000000000", "0000000000"),
            line: "NO 56 7 00003 00",
            says: &[
                "Node 3 is at X +0, Y +0. TRAMO (1 record) does not name it",
                "VERTICE (2 records) has no vertex there, and OB_PUN (no such file) names it never \
                 in field 3 ID_NODO, where it takes two point objects.",
            ],
            marks: &["+|000000000", "+|0000000000"],
        },
        Sample {
            what: "56, one point object",
            files: s()
                .node("0000000003", "000000007", "0000000008")
                .point("0000000003", "000000007", "0000000008"),
            line: "NO 56 7 00003 00",
            says: &[
                "OB_PUN (1 record) names it once in field 3 ID_NODO, where it takes two",
                "The one that does is OB_PUN record 1:",
            ],
            marks: &["+|000000007", "+|0000000008", "0000000003"],
        },
        Sample {
            what: "57",
            files: s().with(OB_LIN, &[(1, "0000000005"), (3, "0100000")]),
            line: "NO 57 4 00002 00",
            says: &["TRAMO (1 record) does not name object 5 in field 2 ID_OLIN."],
            marks: &["0000000005"],
        },
    ]);
}

#[test]
fn composites_that_nothing_names() {
    let named = s()
        .set(OB_LIN, 1, 2, "0000000009")
        .composite("0000000009")
        .set(OB_COMP, 1, 3, "Red del norte");
    check(&[
        Sample {
            what: "a composite object of a linear one",
            files: named.clone(),
            line: "OK 00003 00000 00000 00001 00001 00002 00002 00001",
            says: &["Accepted", "OB_COMP 1 record"],
            marks: &[],
        },
        Sample {
            what: "70",
            files: named.clone().set(OB_LIN, 1, 2, ""),
            line: "NO 70 8 00001 00",
            says: &[
                "Where OB_COMP record 1",
                "Composite 9 has the code 0500000 and the name \"Red del norte\".",
                "OB_PUN (no such file), OB_TEX (no such file) and OB_LIN (1 record) do not name it \
                 in field 2 ID_OCOMP.",
            ],
            marks: &["0000000009"],
        },
        Sample {
            what: "70, without a name",
            files: named.composite("0000000000"),
            line: "NO 70 8 00002 00",
            says: &["Composite 0 has the code 0500000 and no name."],
            marks: &["0000000000"],
        },
    ]);
}

/// S with a second line from the middle of its first one, and nodes of every kind: 1 and 2 are ends,
/// 3 is both, 4 is an end that no tramo names, 5 is intermediate, 6 is isolated.
fn every_kind() -> Files {
    let tramo = [
        (1, "0000000002"),
        (2, "0000000001"),
        (5, "0100001"),
        (6, "0000000003"),
        (7, "0000000002"),
    ];
    s().set(VERTICE, 2, 2, "00004")
        .vertex("0000000001", "00002", "000000110", "0000000200")
        .vertex("0000000001", "00003", "000000120", "0000000200")
        .with(TRAMO, &tramo)
        .vertex("0000000002", "00001", "000000120", "0000000200")
        .vertex("0000000002", "00002", "000000140", "0000000200")
        .node("0000000003", "000000120", "0000000200")
        .node("0000000004", "000000100", "0000000200")
        .set(NODO, 4, 7, "+")
        .set(NODO, 4, 8, "00000009")
        .node("0000000005", "000000110", "0000000200")
        .node("0000000006", "000000007", "0000000008")
        .point("0000000006", "000000007", "0000000008")
        .with(
            OB_PUN,
            &[
                (1, "0000000002"),
                (3, "0000000006"),
                (4, "0200000"),
                (8, "+"),
                (9, "000000007"),
                (10, "+"),
                (11, "0000000008"),
            ],
        )
}

#[test]
fn codes_that_disagree() {
    check(&[
        Sample {
            what: "nodes of every kind without codes",
            files: every_kind(),
            line: "OK 00003 00002 00000 00001 00002 00006 00006 00000",
            says: &["Accepted"],
            marks: &[],
        },
        Sample {
            what: "58, E for a node that is both",
            files: every_kind().set(NODO, 3, 2, "E"),
            line: "NO 58 7 00003 02",
            says: &[
                "Where NODO record 3, field 2 TIPO (the node's type)",
                "Node 3 is at X +120, Y +200. Its TIPO is E (end), and it is both an end and \
                 intermediate: H fits, or C, or a blank.",
                "It is an end, since it starts tramo 2, which is TRAMO record 2:",
                "It is intermediate, since line 1 has a vertex there that is neither its first nor \
                 its last, of order 3, VERTICE record 4:",
            ],
            marks: &["E", "0000000003", "+|000000120", "+|0000000200"],
        },
        Sample {
            what: "58, I for an end",
            files: every_kind().set(NODO, 2, 2, "I"),
            line: "NO 58 7 00002 02",
            says: &[
                "Its TIPO is I (intermediate), and it is an end and not intermediate: E fits, or C, \
                 or a blank.",
                "It is an end, since it ends tramo 1, which is TRAMO record 1:",
                "It is not intermediate: VERTICE (6 records) has no vertex there that is neither \
                 its line's first nor its last.",
            ],
            marks: &["I", "0000000002"],
        },
        Sample {
            what: "58, A for an end that no tramo names",
            files: every_kind().set(NODO, 4, 2, "A"),
            line: "NO 58 7 00004 02",
            says: &[
                "Its TIPO is A (isolated), and it is an end and not intermediate",
                "It is an end, since line 1 has its first vertex there, VERTICE record 1:",
            ],
            marks: &["A", "+|000000100", "+|0000000200"],
        },
        Sample {
            what: "58, H for an intermediate node",
            files: every_kind().set(NODO, 5, 2, "H"),
            line: "NO 58 7 00005 02",
            says: &[
                "Its TIPO is H (end and intermediate), and it is intermediate and no end: I fits, \
                 or C, or a blank.",
                "It is no end: TRAMO (2 records) does not name it in field 6 ID_NODOI or field 7 \
                 ID_NODOF, and VERTICE (6 records) has no line's first or last vertex there.",
                "of order 2, VERTICE record 3:",
            ],
            marks: &["H", "+|000000110", "+|0000000200"],
        },
        Sample {
            what: "58, C for an isolated node",
            files: every_kind().set(NODO, 6, 2, "C"),
            line: "NO 58 7 00006 02",
            says: &[
                "Its TIPO is C (connected), and it is isolated: A fits, or a blank.",
                "It is no end",
                "It is not intermediate",
            ],
            marks: &["C"],
        },
    ]);
}

#[test]
fn marks_stand_below_their_field() {
    let room = Room::holding(&s().set(NODO, 1, 4, "       11"));
    let page = explain(&room.path).out;
    let lines: Vec<&str> = page.lines().collect();
    assert_eq!(
        lines[3],
        "    0000000001| |+|       11|+|0000000200| |        \\x0D\\x0A"
    );
    assert_eq!(lines[4], "                   ^^^^^^^^^");
    // A byte before the field that takes four columns shifts the marks with it.
    let code = offset(TRAMO, 5);
    let room = Room::holding(
        &s().poke(TRAMO, 1, code, b"\xE9")
            .set(TRAMO, 1, 6, "         1"),
    );
    let page = explain(&room.path).out;
    let lines: Vec<&str> = page.lines().collect();
    assert_eq!(
        lines[3],
        "    0000000001|0000000001|          |          |\\xE9100001|         1|0000000002| \\x0D\\x0A"
    );
    assert_eq!(lines[4], format!("{}^^^^^^^^^^", " ".repeat(59)));
}

#[test]
fn a_record_of_unprinting_bytes_is_wrapped() {
    let room = Room::holding(&Files::default().append(CATALOGO, &[0; 133]));
    let page = explain(&room.path);
    assert!(page.out.starts_with("NO 20 1 00001 00\n"));
    assert_eq!(page.out.matches("\\x00").count(), 133);
    assert!(
        page.out.lines().all(|line| line.len() <= 100),
        "{}",
        page.out
    );
    assert_eq!(marked(&page.out), ["\\x00\\x00"]);
}

#[test]
fn a_file_that_is_too_long() {
    for (file, length) in LENGTHS.iter().enumerate() {
        let room = Room::holding(&s());
        let limit = 16_384 * *length as u64;
        let long = File::create(room.file(file + 1)).unwrap();
        long.set_len(limit).unwrap();
        assert!(judge(&room.path).out.starts_with("NO 20 "));
        long.set_len(limit + 1).unwrap();
        assert_eq!(
            judge(&room.path).out,
            format!("NO 10 {} 00000 00\n", file + 1)
        );
    }
}

#[test]
fn a_huge_file_is_not_read_whole() {
    let room = Room::holding(&s());
    File::create(room.file(OB_TEX))
        .unwrap()
        .set_len(1 << 36)
        .unwrap();
    let page = explain(&room.path);
    assert_eq!(page.status, 1);
    assert!(page.out.starts_with("NO 10 3 00000 00\n"));
    let text = flowing(&page.out);
    assert!(text.contains("Where OB_TEX, the file as a whole"), "{text}");
    assert!(
        text.contains(
            "OB_TEX has more than 2,359,296 bytes, which are 16,384 records of 144 bytes."
        ),
        "{text}"
    );
}

#[test]
fn many_records() {
    let mut files = Files::default().code("0100000", "L");
    for id in 0..16_384 {
        files = files.with(OB_LIN, &[(1, &format!("{id:010}")), (3, "0100000")]);
    }
    let room = Room::holding(&files);
    assert_eq!(judge(&room.path).out, "NO 57 4 00001 00\n");
    let room = Room::holding(&files.set(OB_LIN, 16_384, 1, "0000000001"));
    let page = explain(&room.path);
    assert!(page.out.starts_with("NO 30 4 16384 01\n"));
    assert_eq!(marked(&page.out), ["0000000001", "0000000001"]);
}
