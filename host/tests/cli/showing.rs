//! What `show` says of one record.

use std::ffi::OsStr;
use std::fs;

use crate::build::{offset, s, CATALOGO, NODO, OB_PUN};
use crate::run::{flowing, marked, run, show, Room};

#[test]
fn show_gives_a_field_a_line() {
    let files = s()
        .with(
            NODO,
            &[
                (1, "0000000003"),
                (3, "-"),
                (4, "000000030"),
                (5, "+"),
                (6, "0000000000"),
            ],
        )
        .poke(CATALOGO, 1, offset(CATALOGO, 3), b"missing")
        .poke(CATALOGO, 1, offset(CATALOGO, 4), b"concesi\xF3n");
    let room = Room::holding(&files);
    let node = show(&room.file(NODO), "3");
    let lines = [
        " 1 ID_NODO  3",
        " 2 TIPO     missing",
        " 3 SIGNO_X  -",
        " 4 POS_X    -30",
        " 5 SIGNO_Y  +",
        " 6 POS_Y    +0",
        " 7 SIGNO_Z  missing",
        " 8 POS_Z    missing",
    ];
    assert_eq!((node.status, node.err.as_str()), (0, ""));
    assert_eq!(node.out, lines.join("\n") + "\n");
    let code = show(&room.file(CATALOGO), "1");
    let lines = [
        r#" 1 CODIGO   "0100000""#,
        r#" 2 TIPO     "L""#,
        r#" 3 NOMBRE_C "missing""#,
        r#" 4 DEFINICI "concesi\xF3n""#,
    ];
    assert_eq!(code.out, lines.join("\n") + "\n");
}

#[test]
fn show_knows_a_file_by_its_name_or_as_told() {
    let room = Room::holding(&s());
    let other = room.path.join("nodo.nod");
    fs::copy(room.file(NODO), &other).unwrap();
    let unknown = show(&other, "1");
    assert_eq!((unknown.status, unknown.out.as_str()), (2, ""));
    assert!(
        unknown
            .err
            .contains("'nodo.nod' is none of CATALOGO, OB_PUN"),
        "{}",
        unknown.err
    );
    let words = ["show", "--as", "NODO"].map(OsStr::new);
    let told = run(&[
        words[0],
        words[1],
        words[2],
        other.as_os_str(),
        OsStr::new("2"),
    ]);
    assert_eq!(told.status, 0);
    assert!(told.out.contains(" 4 POS_X    +140\n"), "{}", told.out);
    let joined = run(&[
        words[0],
        OsStr::new("--as=NODO"),
        other.as_os_str(),
        OsStr::new("2"),
    ]);
    assert_eq!((joined.status, joined.out), (0, told.out));
    let bad = run(&[
        words[0],
        other.as_os_str(),
        OsStr::new("2"),
        words[1],
        OsStr::new("NOD"),
    ]);
    assert_eq!(bad.status, 2);
}

#[test]
fn show_marks_what_is_not_lawful() {
    let room = Room::holding(&s().set(NODO, 2, 4, "       11"));
    assert_eq!(show(&room.file(NODO), "1").status, 0);
    let page = show(&room.file(NODO), "2");
    assert_eq!((page.status, page.err.as_str()), (1, ""));
    let text = flowing(&page.out);
    assert!(
        text.contains("Where NODO record 2, field 4 POS_X (X)"),
        "{text}"
    );
    assert!(
        text.contains("Wrong (22) A number field is neither all digits nor all blanks."),
        "{text}"
    );
    assert_eq!(marked(&page.out), ["       11"]);
    let room = Room::holding(&s().poke(NODO, 2, 49, b" "));
    let page = show(&room.file(NODO), "2");
    assert_eq!(page.status, 1);
    assert!(
        flowing(&page.out).contains("Where NODO record 2 "),
        "{}",
        page.out
    );
    assert_eq!(marked(&page.out), ["\\x0D "]);
}

#[test]
fn show_says_what_a_no_break_blank_is() {
    let name = offset(CATALOGO, 3);
    let room = Room::holding(&s().poke(CATALOGO, 1, name, b"POZO\xA0"));
    let page = show(&room.file(CATALOGO), "1");
    assert_eq!((page.status, page.err.as_str()), (1, ""));
    let text = flowing(&page.out);
    assert!(
        text.contains("Byte 5 of the field is a no-break blank (A0), and the text ends in it."),
        "{text}"
    );
    let room = Room::holding(&s().poke(CATALOGO, 1, name, b"POZO\xA0VIEJO"));
    let page = show(&room.file(CATALOGO), "1");
    assert_eq!(page.status, 0);
    assert!(page.out.contains(r#" 3 NOMBRE_C "POZO\xA0VIEJO""#));
}

#[test]
fn show_cannot_read_what_is_not_there() {
    let room = Room::holding(&s().append(NODO, b"0000000003"));
    let node = room.file(NODO);
    for record in ["3", "4", "18446744073709551615"] {
        let page = show(&node, record);
        assert_eq!((page.status, page.out.as_str()), (2, ""));
        assert!(
            page.err.contains(&format!(
                "there is no record {record}: NODO has 2 whole records"
            )),
            "{}",
            page.err
        );
    }
    for record in ["0", "-1", "x", "", "18446744073709551616"] {
        let page = show(&node, record);
        assert_eq!((page.status, page.out.as_str()), (2, ""), "{record}");
        assert!(!page.err.is_empty());
    }
    assert_eq!(show(&room.file(OB_PUN), "1").status, 2);
    fs::create_dir(room.file(OB_PUN)).unwrap();
    let directory = show(&room.file(OB_PUN), "1");
    assert_eq!(directory.status, 2);
    assert!(
        directory
            .err
            .ends_with("/OB_PUN: a directory, not a file\n"),
        "{}",
        directory.err
    );
}
