//! The safe functions.

use canopyrail::{names, Break, Reason, Refusal, Value, Verdict};
use std::error::Error;

use crate::build::{
    length, offset, s, Files, CATALOGO, FILES, NAMES, NODO, OB_COMP, OB_TEX, TRAMO, VERTICE, WIDTHS,
};

#[test]
fn the_tables_agree() {
    for file in 1..=FILES {
        assert_eq!(names::file(file), NAMES[file - 1]);
        assert_eq!(names::number_of(NAMES[file - 1]), Some(file));
        assert_eq!(canopyrail::length(file), length(file));
        assert_eq!(canopyrail::fields(file), WIDTHS[file - 1].len());
        for field in 1..=canopyrail::fields(file) {
            assert_eq!(canopyrail::offset(file, field), offset(file, field));
            assert_eq!(canopyrail::width(file, field), WIDTHS[file - 1][field - 1]);
            assert!(!names::field(file, field).is_empty() && names::field(file, field).len() <= 8);
            assert!(!names::meaning(file, field).is_empty());
            assert!(names::form(file, field).is_some());
        }
        for field in [0, canopyrail::fields(file) + 1, usize::MAX] {
            assert_eq!(
                (
                    canopyrail::offset(file, field),
                    canopyrail::width(file, field)
                ),
                (0, 0)
            );
            assert_eq!(
                (names::field(file, field), names::form(file, field)),
                ("", None)
            );
        }
    }
    for file in [0, FILES + 1, usize::MAX] {
        assert_eq!(
            (
                canopyrail::fields(file),
                canopyrail::length(file),
                names::file(file)
            ),
            (0, 0, "")
        );
        assert_eq!(
            (canopyrail::count(file, &[0; 500]), names::form(file, 1)),
            (0, None)
        );
    }
}

/// Document 01's reasons.
fn numbers() -> Vec<u8> {
    let reasons = (10..=11).chain(20..=25).chain([30, 40, 41]);
    reasons.chain(50..=59).chain(60..=67).chain([70]).collect()
}

#[test]
fn every_reason_has_its_number_and_words() {
    let listed: Vec<u8> = Reason::ALL.iter().map(|reason| reason.number()).collect();
    assert_eq!(listed, numbers());
    for number in 0..=255 {
        let found = Reason::of(number).map(Reason::number);
        assert_eq!(found, numbers().contains(&number).then_some(number));
    }
    for reason in Reason::ALL {
        let words = reason.words();
        for part in [words.wrong, words.rule, words.look, words.ask] {
            assert!(
                part.ends_with(['.', '?']) && part.is_ascii() && !part.contains("  "),
                "{part}"
            );
        }
    }
}

/// What a host does with an error: it hands it on with `?` and prints it.
fn told(work: impl FnOnce() -> Result<(), Box<dyn Error>>) -> String {
    work().map_or_else(|error| error.to_string(), |()| "nothing".to_string())
}

#[test]
fn breaks_and_refusals_are_errors_in_words() {
    let judged = |files: Files| {
        told(|| {
            canopyrail::judge(files.slices()).into_result()?;
            Ok(())
        })
    };
    assert_eq!(judged(s()), "nothing");
    assert_eq!(
        judged(s().set(NODO, 2, 4, "000000141")),
        "TRAMO record 1, field 7 ID_NODOF: reason 53: the line ends elsewhere than its end node"
    );
    assert_eq!(
        judged(s().node("0000000003", "000000100", "0000000200")),
        "NODO record 3: reason 54: two nodes are at one place, with the same X, Y and Z"
    );
    let long = Break {
        reason: Reason::LongFile,
        file: NODO,
        record: 0,
        field: 0,
        other: 0,
    };
    assert_eq!(
        long.to_string(),
        "NODO: reason 10: the file has more than 16,384 records"
    );
    let wrote = |values: &[Value]| {
        told(|| {
            canopyrail::write(NODO, values, &mut [0; 50])?;
            Ok(())
        })
    };
    assert_eq!(
        wrote(&[Value::Number(10_000_000_000)]),
        "field 1: reason 62: the value is too large for its digits"
    );
    let read = told(|| {
        canopyrail::read(FILES + 1, &[], 1)?;
        Ok(())
    });
    assert_eq!(read, "reason 60: there is no file of this number");
}

#[test]
fn a_verdict_is_its_line() {
    let accepted = canopyrail::judge(s().slices());
    assert_eq!(
        accepted.to_string(),
        "OK 00002 00000 00000 00001 00001 00002 00002 00000"
    );
    assert_eq!(canopyrail::line(&accepted), format!("{accepted}\n"));
    let broken = canopyrail::judge(s().set(NODO, 2, 4, "000000141").slices());
    assert_eq!(broken.to_string(), "NO 53 5 00001 07");
}

#[test]
fn a_break_tells_what_else_it_knows() {
    let found = |files: Files| match canopyrail::judge(files.slices()) {
        Verdict::Broken(found) => found,
        Verdict::Accepted(counts) => panic!("accepted: {counts:?}"),
    };
    let same = found(s().set(NODO, 2, 1, "0000000001"));
    assert_eq!(
        same,
        Break {
            reason: Reason::SameKey,
            file: 7,
            record: 2,
            field: 1,
            other: 1
        }
    );
    let other = found(s().set(TRAMO, 1, 5, "0100000"));
    assert_eq!(
        other,
        Break {
            reason: Reason::OtherType,
            file: 5,
            record: 1,
            field: 5,
            other: u64::from(b'L')
        }
    );
    let place = found(s().node("0000000003", "000000140", "0000000200"));
    assert_eq!(
        place,
        Break {
            reason: Reason::SamePlace,
            file: 7,
            record: 3,
            field: 0,
            other: 2
        }
    );
    let idle = found(s().composite("0000000009"));
    assert_eq!(
        idle,
        Break {
            reason: Reason::IdleComposite,
            file: OB_COMP,
            record: 1,
            field: 0,
            other: 0
        }
    );
    assert_eq!(
        canopyrail::judge(s().slices()),
        Verdict::Accepted([2, 0, 0, 1, 1, 2, 2, 0])
    );
}

#[test]
fn what_is_written_is_read() {
    let text = |words: &str| Value::Text(words.as_bytes().to_vec());
    let tex = vec![
        Value::Number(9_999_999_999),
        Value::Missing,
        text("0300000"),
        Value::Text(vec![0xF1; 60]),
        Value::Number(0),
        Value::Missing,
        Value::Number(35_959),
        Value::Number(9),
        Value::Missing,
        Value::Coordinate(-999_999_999),
        Value::Missing,
        Value::Coordinate(9_999_999_999),
        Value::Missing,
        Value::Missing,
    ];
    let mut room = [b'#'; canopyrail::LONGEST];
    assert_eq!(canopyrail::write(OB_TEX, &tex, &mut room), Ok(144));
    assert_eq!(&room[144..], b"#####");
    assert_eq!(canopyrail::read(OB_TEX, &room, 1), Ok(tex.clone()));
    // Past the end every value is missing; what stands past the file's fields or at a sign isn't
    // looked at.
    let mut same = tex[..12].to_vec();
    same[8] = Value::Number(5);
    let mut other = [b'#'; canopyrail::LONGEST];
    assert_eq!(canopyrail::write(OB_TEX, &same, &mut other), Ok(144));
    assert_eq!(room, other);
    same.resize(40, Value::Missing);
    assert_eq!(canopyrail::write(OB_TEX, &same, &mut other), Ok(144));
    assert_eq!(room, other);
}

#[test]
fn refusals_of_writing() {
    let text = |length: usize| Value::Text(vec![b'a'; length]);
    let entry = |name: Value| vec![text(7), Value::Text(b"L".to_vec()), name];
    let tried = |file: usize, values: &[Value], room: usize| {
        let mut lent = vec![b'#'; room];
        let answer = canopyrail::write(file, values, &mut lent);
        assert!(answer.is_ok() || lent.iter().all(|byte| *byte == b'#'));
        answer.map_err(|refusal| (refusal.reason.number(), refusal.field))
    };
    assert_eq!(tried(CATALOGO, &entry(text(60)), 133), Ok(133));
    assert_eq!(tried(CATALOGO, &entry(text(61)), 133), Err((63, 3)));
    assert_eq!(tried(CATALOGO, &entry(text(5000)), 133), Err((63, 3)));
    assert_eq!(tried(CATALOGO, &entry(text(0)), 133), Ok(133));
    assert_eq!(
        tried(CATALOGO, &entry(Value::Text(b"a ".to_vec())), 133),
        Err((63, 3))
    );
    for (name, told) in [
        (&b"\xA0a"[..], Err((63, 3))),
        (b"a\xA0", Err((63, 3))),
        (b"\xA0", Err((63, 3))),
        (b"a\xA0a", Ok(133)),
        (b"\xA1a\xA1", Ok(133)),
    ] {
        let name = Value::Text(name.to_vec());
        assert_eq!(tried(CATALOGO, &entry(name.clone()), 133), told, "{name:?}");
    }
    assert_eq!(tried(CATALOGO, &entry(Value::Missing), 132), Err((61, 0)));
    assert_eq!(tried(CATALOGO, &entry(Value::Missing), 0), Err((61, 0)));
    assert_eq!(tried(CATALOGO, &[text(8)], 133), Err((63, 1)));
    assert_eq!(tried(CATALOGO, &[], 133), Err((64, 1)));
    assert_eq!(
        tried(CATALOGO, &[text(7), Value::Text(b"S".to_vec())], 133),
        Err((65, 2))
    );
    let coded = |code: &[u8]| vec![Value::Number(1), Value::Text(code.to_vec())];
    assert_eq!(tried(NODO, &coded(b"e"), 50), Err((65, 2)));
    assert_eq!(tried(NODO, &coded(b"E"), 50), Err((64, 3)));
    assert_eq!(tried(NODO, &[Value::Number(1)], 50), Err((64, 3)));
    assert_eq!(
        tried(NODO, &[Value::Number(10_000_000_000)], 50),
        Err((62, 1))
    );
    for file in [0, FILES + 1, usize::MAX] {
        assert_eq!(tried(file, &[], 149), Err((60, 0)));
    }
    // A value of another form than its field's.
    assert_eq!(tried(NODO, &[text(1)], 50), Err((62, 1)));
    assert_eq!(tried(NODO, &[Value::Coordinate(1)], 50), Err((62, 1)));
    assert_eq!(
        tried(NODO, &[Value::Number(1), Value::Number(1)], 50),
        Err((63, 2))
    );
    let place = [
        Value::Number(1),
        Value::Missing,
        Value::Missing,
        Value::Number(5),
        Value::Missing,
        Value::Coordinate(5),
    ];
    assert_eq!(tried(NODO, &place, 50), Err((62, 4)));
}

#[test]
fn refusals_of_reading() {
    let files = s().append(NODO, b"0000000003");
    let nodes = &files.bytes[NODO - 1];
    let refused = |file: usize, record: usize| canopyrail::read(file, nodes, record).unwrap_err();
    assert_eq!(canopyrail::count(NODO, nodes), 2);
    for record in [0, 3, usize::MAX] {
        assert_eq!(
            refused(NODO, record),
            Refusal {
                reason: Reason::NoSuchRecord,
                field: 0
            }
        );
    }
    for file in [0, FILES + 1, usize::MAX] {
        assert_eq!(
            refused(file, 1),
            Refusal {
                reason: Reason::NoFile,
                field: 0
            }
        );
    }
    assert_eq!(
        refused(VERTICE, 1),
        Refusal {
            reason: Reason::BadEnd,
            field: 0
        }
    );
    let broken = s().set(NODO, 1, 3, "-").set(NODO, 1, 4, "000000000");
    assert_eq!(
        canopyrail::read(NODO, &broken.bytes[NODO - 1], 1),
        Err(Refusal {
            reason: Reason::Outside,
            field: 3
        })
    );
    assert_eq!(
        canopyrail::read(NODO, &[], 1),
        Err(Refusal {
            reason: Reason::NoSuchRecord,
            field: 0
        })
    );
}
