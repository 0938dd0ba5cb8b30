//! The small delivery S and the 14 cases of document 01.

use crate::build::{add, lent, node, said, set, small, start, Files};
use independent::{counts, judge, line, write, Break, Refusal, Value, Verdict};

#[test]
fn s_is_built_as_the_document_says() {
    let files = small();
    let node: &[u8] = b"0000000001| |+|000000100|+|0000000200| |        \r\n";
    assert_eq!(&files[6][..50], node);
    let vertex: &[u8] = b"0000000001|00002|+|000000140|+|0000000200| |        \r\n";
    assert_eq!(&files[5][54..], vertex);
    let tramo: &[u8] =
        b"0000000001|0000000001|          |          |0100001|0000000001|0000000002| \r\n";
    assert_eq!(files[4], tramo);
    let linear = format!(
        "0000000001|          |0100000|{:60}| |         | |          | |        \r\n",
        ""
    );
    assert_eq!(files[3], linear.as_bytes());
    let codes = format!(
        "0100000|L|{:60}|{:60}\r\n0100001|T|{:60}|{:60}\r\n",
        "", "", "", ""
    );
    assert_eq!(files[0], codes.as_bytes());
    assert!(files[1].is_empty() && files[2].is_empty() && files[7].is_empty());
}

#[test]
fn case_1_all_files_empty() {
    assert_eq!(
        said(&Files::default()),
        "OK 00000 00000 00000 00000 00000 00000 00000 00000"
    );
}

#[test]
fn case_2_s() {
    let files = small();
    assert_eq!(
        said(&files),
        "OK 00002 00000 00000 00001 00001 00002 00002 00000"
    );
    let verdict = judge(lent(&files));
    assert_eq!(verdict, Verdict::Accepted([2, 0, 0, 1, 1, 2, 2, 0]));
    assert_eq!(counts(lent(&files)), [2, 0, 0, 1, 1, 2, 2, 0]);
    assert_eq!(
        line(&verdict),
        "OK 00002 00000 00000 00001 00001 00002 00002 00000\n"
    );
}

#[test]
fn case_3_node_2_at_x_141() {
    let mut files = small();
    set(&mut files, 7, 2, 4, b"000000141");
    assert_eq!(said(&files), "NO 53 5 00001 07");
    let found = Break {
        reason: 53,
        file: 5,
        record: 1,
        field: 7,
        other: 0,
    };
    assert_eq!(judge(lent(&files)), Verdict::Broken(found));
}

#[test]
fn case_4_orders_1_and_3() {
    let mut files = small();
    set(&mut files, 6, 2, 2, b"00003");
    assert_eq!(said(&files), "NO 51 6 00001 02");
}

#[test]
fn case_5_nodo_of_51_bytes() {
    let mut files = small();
    files[6].truncate(51);
    assert_eq!(said(&files), "NO 11 7 00002 00");
    assert_eq!(counts(lent(&files))[6], 1);
}

#[test]
fn case_6_minus_before_zeros() {
    let mut files = small();
    set(&mut files, 7, 1, 3, b"-");
    set(&mut files, 7, 1, 4, b"000000000");
    assert_eq!(said(&files), "NO 25 7 00001 03");
}

#[test]
fn case_7_seven_blanks_and_11() {
    let mut files = small();
    set(&mut files, 7, 1, 4, b"       11");
    assert_eq!(said(&files), "NO 22 7 00001 04");
}

#[test]
fn case_8_node_2_called_1() {
    let mut files = small();
    set(&mut files, 7, 2, 1, b"0000000001");
    assert_eq!(said(&files), "NO 30 7 00002 01");
}

#[test]
fn case_9_tramo_ends_at_node_3() {
    let mut files = small();
    set(&mut files, 5, 1, 7, b"0000000003");
    assert_eq!(said(&files), "NO 40 5 00001 07");
}

#[test]
fn case_10_tramo_with_a_linear_code() {
    let mut files = small();
    set(&mut files, 5, 1, 5, b"0100000");
    assert_eq!(said(&files), "NO 41 5 00001 05");
}

#[test]
fn case_11_third_node_at_node_1() {
    let mut files = small();
    node(&mut files, 3, 100, 200, None);
    assert_eq!(said(&files), "NO 54 7 00003 00");
}

#[test]
fn case_12_third_node_at_0_0() {
    let mut files = small();
    node(&mut files, 3, 0, 0, None);
    assert_eq!(said(&files), "NO 56 7 00003 00");
}

#[test]
fn case_13_a_bar_in_the_name() {
    let mut files = small();
    set(&mut files, 4, 1, 4, b"RIO | SECO");
    assert_eq!(
        said(&files),
        "OK 00002 00000 00000 00001 00001 00002 00002 00000"
    );
}

#[test]
fn case_14_writing_x_of_nine_and_ten_digits() {
    let mut values = vec![Value::Missing; 8];
    values[0] = Value::Number(1);
    values[3] = Value::Coordinate(999_999_999);
    values[5] = Value::Coordinate(200);
    let mut room = [0; 50];
    assert_eq!(write(7, &values, &mut room), Ok(50));
    let expected: &[u8] = b"0000000001| |+|999999999|+|0000000200| |        \r\n";
    assert_eq!(&room[..], expected);

    values[3] = Value::Coordinate(1_000_000_000);
    let mut room = [0; 50];
    let refusal = Refusal {
        reason: 62,
        field: 4,
    };
    assert_eq!(write(7, &values, &mut room), Err(refusal));
    assert_eq!(room, [0; 50]);
}

/// What the least place is: the tens go before the file, the file before the
/// record, the record before the field, the field before the reason.
#[test]
fn the_first_break_is_the_least_place() {
    let mut files = small();
    add(&mut files, 1, &[(1, b"0400000"), (2, b"C")]);
    add(&mut files, 8, &[(1, b"0000000001"), (2, b"0400000")]);
    assert_eq!(said(&files), "NO 70 8 00001 00");
    set(&mut files, 7, 2, 4, b"000000141");
    set(&mut files, 6, 2, 2, b"00003");
    assert_eq!(said(&files), "NO 53 5 00001 07");
    add(&mut files, 4, &[(1, b"0000000002"), (3, b"0100000")]);
    assert_eq!(said(&files), "NO 57 4 00002 00");
    set(&mut files, 5, 1, 7, b"0000000009");
    assert_eq!(said(&files), "NO 40 5 00001 07");
    set(&mut files, 5, 1, 3, b"0000000009");
    assert_eq!(said(&files), "NO 40 5 00001 03");
    set(&mut files, 7, 2, 1, b"0000000001");
    assert_eq!(said(&files), "NO 30 7 00002 01");
    set(&mut files, 7, 2, 6, b"         1");
    assert_eq!(said(&files), "NO 22 7 00002 06");
    set(&mut files, 7, 1, 8, b"00000001");
    assert_eq!(said(&files), "NO 24 7 00001 07");
    let lf = start(1, 2, 1) - 1;
    files[0][lf] = b' ';
    assert_eq!(said(&files), "NO 20 1 00001 00");
    files[2].push(0);
    assert_eq!(said(&files), "NO 11 3 00001 00");
}
