//! The cases of document 01.

use canopyrail::{Reason, Refusal, Value};

use crate::build::{s, Files, NODO, OB_LIN, TRAMO, VERTICE};
use crate::run::{judge, Room};

#[test]
fn the_cases_of_document_01() {
    let third = |x, y| s().node("0000000003", x, y);
    let mut short = s();
    short.bytes[NODO - 1].truncate(51);
    let cases = [
        (
            Files::default(),
            "OK 00000 00000 00000 00000 00000 00000 00000 00000",
        ),
        (s(), "OK 00002 00000 00000 00001 00001 00002 00002 00000"),
        (s().set(NODO, 2, 4, "000000141"), "NO 53 5 00001 07"),
        (s().set(VERTICE, 2, 2, "00003"), "NO 51 6 00001 02"),
        (short, "NO 11 7 00002 00"),
        (
            s().set(NODO, 1, 3, "-").set(NODO, 1, 4, "000000000"),
            "NO 25 7 00001 03",
        ),
        (s().set(NODO, 1, 4, "       11"), "NO 22 7 00001 04"),
        (s().set(NODO, 2, 1, "0000000001"), "NO 30 7 00002 01"),
        (s().set(TRAMO, 1, 7, "0000000003"), "NO 40 5 00001 07"),
        (s().set(TRAMO, 1, 5, "0100000"), "NO 41 5 00001 05"),
        (third("000000100", "0000000200"), "NO 54 7 00003 00"),
        (third("000000000", "0000000000"), "NO 56 7 00003 00"),
        (
            s().set(OB_LIN, 1, 4, "a|b"),
            "OK 00002 00000 00000 00001 00001 00002 00002 00000",
        ),
    ];
    for (files, line) in cases {
        let room = Room::holding_all(&files);
        let judged = judge(&room.path);
        assert_eq!(judged.out, format!("{line}\n"));
        assert_eq!(judged.status, i32::from(line.starts_with("NO")), "{line}");
        assert_eq!(judged.err, "");
        assert_eq!(
            canopyrail::line(&canopyrail::judge(files.slices())),
            judged.out
        );
    }
}

#[test]
fn case_14_writing_a_node() {
    let node = |x| {
        let place = [
            Value::Missing,
            Value::Coordinate(x),
            Value::Missing,
            Value::Coordinate(200),
        ];
        let mut values = vec![Value::Number(1), Value::Missing];
        values.extend(place);
        values
    };
    let mut room = [b'#'; 52];
    assert_eq!(
        canopyrail::write(NODO, &node(999_999_999), &mut room),
        Ok(50)
    );
    assert_eq!(
        &room[..],
        &b"0000000001| |+|999999999|+|0000000200| |        \r\n##"[..]
    );
    let before = room;
    let refusal = Refusal {
        reason: Reason::TooLarge,
        field: 4,
    };
    assert_eq!(
        canopyrail::write(NODO, &node(1_000_000_000), &mut room),
        Err(refusal)
    );
    assert_eq!(
        canopyrail::write(NODO, &node(i64::MIN), &mut room),
        Err(refusal)
    );
    assert_eq!(room, before);
}
