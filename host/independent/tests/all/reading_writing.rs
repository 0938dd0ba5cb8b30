//! Single records: reading, writing and both in turn.

use crate::build::{after, rich, set, small, Noise, FILES};
use independent::{
    field_name, fields, form, read, width, write, Form, Refusal, Value, LENGTHS, NAMES,
};
use Value::{Coordinate, Missing, Number, Text};

fn text(bytes: &[u8]) -> Value {
    Text(bytes.to_vec())
}

fn refusal<T>(reason: u8, field: usize) -> Result<T, Refusal> {
    Err(Refusal { reason, field })
}

/// The reason and field of a refused writing, which must leave the room be.
fn refused(file: usize, values: &[Value]) -> (u8, usize) {
    let mut room = [0x5A; 200];
    let found = write(file, values, &mut room);
    assert!(room.iter().all(|&b| b == 0x5A));
    match found {
        Err(Refusal { reason, field }) => (reason, field),
        Ok(_) => panic!("not refused"),
    }
}

fn written(file: usize, values: &[Value]) -> Vec<u8> {
    let mut room = [0x5A; 200];
    let length = write(file, values, &mut room).unwrap();
    assert_eq!(length, LENGTHS[file - 1]);
    assert!(room[length..].iter().all(|&b| b == 0x5A));
    room[..length].to_vec()
}

fn a_node() -> Vec<Value> {
    vec![
        Number(1),
        Missing,
        Missing,
        Coordinate(100),
        Missing,
        Coordinate(200),
        Missing,
        Missing,
    ]
}

fn a_linear() -> Vec<Value> {
    let mut values = vec![Missing; 10];
    values[0] = Number(1);
    values[2] = text(b"0100000");
    values
}

fn a_composite() -> Vec<Value> {
    let mut values = vec![Missing; 9];
    values[0] = Number(1);
    values[1] = text(b"0400000");
    values
}

fn a_tramo() -> Vec<Value> {
    vec![
        Number(1),
        Number(1),
        Missing,
        Missing,
        text(b"0100001"),
        Number(1),
        Number(2),
        Missing,
    ]
}

fn an_entry() -> Vec<Value> {
    vec![text(b"0100000"), text(b"L"), Missing, Missing]
}

#[test]
fn the_fields_are_those_of_the_table() {
    let counts = [4, 13, 14, 10, 8, 8, 8, 9];
    for file in 1..=FILES {
        assert_eq!(fields(file), counts[file - 1]);
        for field in 1..=fields(file) {
            assert_eq!(
                width(file, field),
                crate::build::WIDTHS[file - 1][field - 1]
            );
            assert!(!field_name(file, field).is_empty());
        }
        assert!(!NAMES[file - 1].is_empty());
    }
    assert_eq!(form(1, 1), Form::Code);
    assert_eq!(form(1, 2), Form::Tipo);
    assert_eq!(form(7, 2), Form::NodeType);
    assert_eq!(
        (form(2, 6), form(3, 8)),
        (Form::Orientation, Form::Justification)
    );
}

#[test]
fn reading_gives_a_value_for_each_field() {
    let files = rich();
    let point = vec![
        Number(0),
        Number(9),
        Number(3),
        text(b"0200000"),
        text(b"Pozo viejo"),
        Number(35_959),
        Number(1),
        Missing,
        Coordinate(-7),
        Missing,
        Coordinate(0),
        Missing,
        Coordinate(-3),
    ];
    assert_eq!(read(2, &files[1], 1), Ok(point));
    assert_eq!(read(7, &files[6], 1), Ok(a_node()));
    let composite = vec![
        Number(9),
        text(b"0400000"),
        text(b"RED 9"),
        Missing,
        Coordinate(-1),
        Missing,
        Coordinate(2),
        Missing,
        Coordinate(3),
    ];
    assert_eq!(read(8, &files[7], 1), Ok(composite));
    let far = read(2, &files[1], 2).unwrap();
    assert_eq!(far[8], Coordinate(999_999_999));
    assert_eq!(far[10], Coordinate(-9_999_999_999));
    assert_eq!(far[12], Missing);
}

#[test]
fn reading_asks_for_file_then_record_then_fields() {
    let files = small();
    for file in [0, 9, usize::MAX] {
        assert_eq!(read(file, &files[6], 0), refusal(60, 0));
    }
    for record in [0, 3, usize::MAX] {
        assert_eq!(read(7, &files[6], record), refusal(66, 0));
    }
    assert_eq!(read(7, &[], 1), refusal(66, 0));
    assert_eq!(read(7, &files[6][..49], 1), refusal(66, 0));
}

#[test]
fn a_ragged_tail_is_no_record() {
    let mut files = small();
    files[6].push(b'0');
    assert_eq!(read(7, &files[6], 1), Ok(a_node()));
    assert!(read(7, &files[6], 2).is_ok());
    assert_eq!(read(7, &files[6], 3), refusal(66, 0));
}

#[test]
fn reading_does_not_ask_for_the_most_records() {
    let one = small()[6][..50].to_vec();
    let many = one.repeat(16_386);
    assert_eq!(read(7, &many, 16_386), Ok(a_node()));
}

#[test]
fn reading_tells_the_first_by_field_and_reason() {
    let mut files = small();
    set(&mut files, 7, 1, 8, b"x");
    set(&mut files, 7, 1, 6, b"");
    assert_eq!(read(7, &files[6], 1), refusal(24, 6));
    files[6][after(7, 1, 6)] = b'!';
    assert_eq!(read(7, &files[6], 1), refusal(21, 6));
    set(&mut files, 7, 1, 3, b"x");
    assert_eq!(read(7, &files[6], 1), refusal(25, 3));
    files[6][49] = b'\r';
    assert_eq!(read(7, &files[6], 1), refusal(20, 0));
    // The other record is untouched.
    assert!(read(7, &files[6], 2).is_ok());
}

#[test]
fn every_record_is_written_back_as_it_was() {
    let files = rich();
    for file in 1..=FILES {
        for (i, record) in files[file - 1].chunks(LENGTHS[file - 1]).enumerate() {
            let values = read(file, &files[file - 1], i + 1).unwrap();
            assert_eq!(values.len(), fields(file));
            assert_eq!(written(file, &values), record, "{file} {}", i + 1);
        }
    }
}

#[test]
fn writing_asks_for_file_then_room_then_values() {
    let mut room = [7; 49];
    for file in [0, 9, usize::MAX] {
        assert_eq!(write(file, &[], &mut room), refusal(60, 0));
        assert_eq!(write(file, &[], &mut []), refusal(60, 0));
    }
    assert_eq!(write(7, &a_node(), &mut room), refusal(61, 0));
    assert_eq!(write(7, &[], &mut room), refusal(61, 0));
    assert_eq!(room, [7; 49]);
    let mut room = [7; 50];
    assert_eq!(write(7, &[], &mut room), refusal(64, 1));
    assert_eq!(room, [7; 50]);
    assert_eq!(write(7, &a_node(), &mut room), Ok(50));
}

#[test]
fn numbers_fit_their_digits() {
    let mut values = a_tramo();
    values[3] = Number(9_999_999_999);
    written(5, &values);
    values[3] = Number(10_000_000_000);
    assert_eq!(refused(5, &values), (62, 4));
    values[3] = Number(u64::MAX);
    assert_eq!(refused(5, &values), (62, 4));
    values[0] = Missing;
    assert_eq!(refused(5, &values), (64, 1));
}

#[test]
fn coordinates_fit_their_digits_at_the_number() {
    for (field, most) in [(4, 999_999_999), (6, 9_999_999_999), (8, 99_999_999)] {
        for value in [most, -most] {
            let mut values = a_node();
            values[field - 1] = Coordinate(value);
            assert_eq!(read(7, &written(7, &values), 1), Ok(values));
        }
        for value in [most + 1, -most - 1, i64::MAX, i64::MIN] {
            let mut values = a_node();
            values[field - 1] = Coordinate(value);
            assert_eq!(refused(7, &values), (62, field));
        }
    }
}

#[test]
fn a_missing_coordinate_is_told_at_its_sign() {
    for field in [4, 6] {
        let mut values = a_node();
        values[field - 1] = Missing;
        assert_eq!(refused(7, &values), (64, field - 1));
    }
    // A Y that lacks stands at field 5, after the X that is too wide.
    let mut values = a_node();
    values[3] = Coordinate(1_000_000_000);
    values[5] = Missing;
    assert_eq!(refused(7, &values), (62, 4));
}

#[test]
fn zero_is_written_with_plus() {
    let mut values = a_node();
    values[3] = Coordinate(0);
    values[7] = Coordinate(0);
    let expected: &[u8] = b"0000000001| |+|000000000|+|0000000200|+|00000000\r\n";
    assert_eq!(written(7, &values), expected);
}

/// The first sign stands at field 5 of OB_LIN and at field 4 of OB_COMP.
#[test]
fn a_centroid_has_x_and_y_or_nothing() {
    for (file, sign, values) in [(4, 5, a_linear()), (8, 4, a_composite())] {
        written(file, &values);
        let (x, y, z) = (sign + 1, sign + 3, sign + 5);
        for (present, expected) in [
            (&[x][..], Some((64, y - 1))),
            (&[y], Some((64, sign))),
            (&[z], Some((64, sign))),
            (&[x, z], Some((64, y - 1))),
            (&[y, z], Some((64, sign))),
            (&[x, y], None),
            (&[x, y, z], None),
        ] {
            let mut values = values.clone();
            for &field in present {
                values[field - 1] = Coordinate(-1);
            }
            match expected {
                Some(found) => assert_eq!(refused(file, &values), found),
                None => assert_eq!(read(file, &written(file, &values), 1), Ok(values)),
            }
        }
        // A value that is too wide isn't missing for its partners.
        let mut values = values;
        values[y - 1] = Coordinate(i64::MIN);
        assert_eq!(refused(file, &values), (64, sign));
        values[x - 1] = Coordinate(1);
        assert_eq!(refused(file, &values), (62, y));
    }
}

#[test]
fn w204_a_composite_is_written_and_refused() {
    let mut values = a_composite();
    values[2] = text(b"RED 9");
    let name = format!("{:60}", "RED 9");
    let blank = "| |         | |          | |        \r\n";
    let expected = format!("0000000001|0400000|{name}{blank}");
    assert_eq!(written(8, &values), expected.as_bytes());
    assert_eq!(expected.len(), 117);
    for (field, value, found) in [
        (1, Number(10_000_000_000), (62, 1)),
        (1, Missing, (64, 1)),
        (2, text(b"12345678"), (63, 2)),
        (2, text(b"NA"), (64, 2)),
        (2, Missing, (64, 2)),
        (3, text(b" RED"), (63, 3)),
        (3, text(&[b'x'; 61]), (63, 3)),
    ] {
        let mut values = a_composite();
        values[field - 1] = value;
        assert_eq!(refused(8, &values), found);
    }
    let mut room = [7; 116];
    assert_eq!(write(8, &a_composite(), &mut room), refusal(61, 0));
    assert_eq!(room, [7; 116]);
    // The letter of composites is a type of the catalogue now.
    let mut entry = an_entry();
    entry[1] = text(b"C");
    assert_eq!(read(1, &written(1, &entry), 1), Ok(entry));
}

#[test]
fn texts_are_63() {
    for bad in [
        &b" x"[..],
        b"x ",
        b" ",
        b"   ",
        b"x\x1Fx",
        b"\x7F",
        b"\x80",
        b"\x9F",
        b"\xA0",
        b"\xA0x",
        b"x\xA0",
        b"x \xA0",
        b"NA\xA0",
        &[0xA0; 60],
        &[b'x'; 61],
    ] {
        let mut values = a_linear();
        values[3] = text(bad);
        assert_eq!(refused(4, &values), (63, 4), "{bad:?}");
    }
    for good in [
        &b"a|b"[..],
        b"x\xA0x",
        b"x\xA0 \xA0x",
        b"\xA1",
        b"\xFF",
        b"x  x",
        b"NA",
        &[b'~'; 60],
    ] {
        let mut values = a_linear();
        values[3] = text(good);
        assert_eq!(read(4, &written(4, &values), 1), Ok(values));
    }
}

#[test]
fn codes_on_writing() {
    for missing in [&b""[..], b"NA", b"ND"] {
        let mut values = an_entry();
        values[0] = text(missing);
        assert_eq!(refused(1, &values), (64, 1));
        let mut values = a_tramo();
        values[4] = text(missing);
        assert_eq!(refused(5, &values), (64, 5));
    }
    for bad in [&b"NA "[..], b" NA", b" ", b"12345678", b"NA\xA0", b"\xA0ND"] {
        let mut values = an_entry();
        values[0] = text(bad);
        assert_eq!(refused(1, &values), (63, 1));
    }
    for good in [&b"NAD"[..], b"NA\xA0D", b"N\xA0A"] {
        let mut values = an_entry();
        values[0] = text(good);
        assert_eq!(read(1, &written(1, &values), 1), Ok(values));
    }
}

#[test]
fn domains_are_65() {
    for (bytes, found) in [
        (&b"S"[..], (65, 2)),
        (b"p", (65, 2)),
        (b"\xA0", (63, 2)),
        (b"\xA1", (65, 2)),
        (b"", (64, 2)),
        (b"PP", (63, 2)),
        (b" ", (63, 2)),
        (b"\x00", (63, 2)),
    ] {
        let mut values = an_entry();
        values[1] = text(bytes);
        assert_eq!(refused(1, &values), found);
    }
    for (bytes, found) in [
        (&b"x"[..], (65, 8)),
        (b"+-", (63, 8)),
        (b" ", (63, 8)),
        (b"\x80", (63, 8)),
        (b"\xA0", (63, 8)),
        (b"\xA1", (65, 8)),
    ] {
        let mut values = a_tramo();
        values[7] = text(bytes);
        assert_eq!(refused(5, &values), found);
    }
    for bytes in [&b"+"[..], b"-", b""] {
        let mut values = a_tramo();
        values[7] = text(bytes);
        written(5, &values);
    }
    let mut values = a_node();
    for code in *b"ACEIH" {
        values[1] = text(&[code]);
        assert_eq!(written(7, &values)[11], code);
    }
    for (bad, reason) in [
        (&b"\xA0"[..], 63),
        (b"AB", 63),
        (b"\xA1", 65),
        (b"e", 65),
        (b"P", 65),
        (b"|", 65),
    ] {
        values[1] = text(bad);
        assert_eq!(refused(7, &values), (reason, 2));
    }
}

fn a_label() -> Vec<Value> {
    let mut values = vec![Missing; 14];
    values[0] = Number(1);
    values[2] = text(b"0300000");
    values[4] = Number(12);
    values[7] = Number(5);
    values[9] = Coordinate(1);
    values[11] = Coordinate(1);
    values
}

fn a_point() -> Vec<Value> {
    let mut values = vec![Missing; 13];
    values[0] = Number(1);
    values[3] = text(b"0200000");
    values[8] = Coordinate(1);
    values[10] = Coordinate(1);
    values
}

#[test]
fn w203_numbers_outside_their_domains_are_65() {
    for (value, reason) in [
        (0, 0),
        (59, 0),
        (60, 65),
        (99, 65),
        (100, 0),
        (35_900, 0),
        (35_959, 0),
        (35_960, 65),
        (36_000, 65),
        (99_959, 65),
        (99_999, 65),
        (100_000, 62),
        (u64::MAX, 62),
    ] {
        for (file, field, mut values) in [(2, 6, a_point()), (3, 7, a_label())] {
            values[field - 1] = Number(value);
            match reason {
                0 => assert_eq!(read(file, &written(file, &values), 1), Ok(values)),
                _ => assert_eq!(refused(file, &values), (reason, field), "{value}"),
            }
        }
    }
    for value in 0..=11 {
        let mut values = a_label();
        values[7] = Number(value);
        match value {
            0 => assert_eq!(refused(3, &values), (65, 8)),
            1..=9 => assert_eq!(read(3, &written(3, &values), 1), Ok(values)),
            _ => assert_eq!(refused(3, &values), (62, 8)),
        }
    }
    let mut values = a_label();
    values[7] = Missing;
    assert_eq!(refused(3, &values), (64, 8));
}

#[test]
fn r15_what_says_the_same_is_written_alike() {
    let plain = written(7, &a_node());
    // An empty text, a wrong variant, a value that is past the end and
    // whatever stands at a sign's field all say nothing.
    let mut values = a_node();
    values[1] = text(b"");
    values[2] = text(b"-");
    values[4] = Coordinate(i64::MIN);
    values[6] = Number(u64::MAX);
    values[7] = Number(3);
    values.push(text(b"\x00"));
    assert_eq!(written(7, &values), plain);
    assert_eq!(written(7, &a_node()[..6]), plain);
    let mut values = a_node();
    values[0] = Coordinate(1);
    assert_eq!(refused(7, &values), (64, 1));
    let mut values = a_node();
    values[3] = Number(100);
    assert_eq!(refused(7, &values), (64, 3));
}

#[test]
fn a_refused_value_is_told_by_field_first() {
    let values = vec![
        Number(u64::MAX),
        text(b" "),
        Missing,
        Coordinate(i64::MIN),
        Missing,
        Missing,
    ];
    assert_eq!(refused(7, &values), (62, 1));
    let mut values = values;
    values[0] = Number(0);
    assert_eq!(refused(7, &values), (63, 2));
    values[1] = Missing;
    assert_eq!(refused(7, &values), (62, 4));
    values[3] = Missing;
    assert_eq!(refused(7, &values), (64, 3));
    values[3] = Coordinate(0);
    assert_eq!(refused(7, &values), (64, 5));
}

fn random_text(noise: &mut Noise, most: usize) -> Value {
    let length = noise.below(most + 2);
    let words: &[u8] = b"AZaz09|+- NAD\xA0\xF1\x00\x7F";
    Text(
        (0..length)
            .map(|_| words[noise.below(words.len())])
            .collect(),
    )
}

fn random_value(noise: &mut Noise, file: usize, field: usize) -> Value {
    let digits = 10_i64.pow(width(file, field).min(18) as u32);
    match (form(file, field), noise.below(12)) {
        (_, 0) => Missing,
        (_, 1) => Number(noise.next()),
        (Form::Sign, _) => Missing,
        (Form::Number | Form::Orientation | Form::Justification, 2) => Number(digits as u64),
        (Form::Orientation, 3..=8) => Number(noise.next() % 360 * 100 + noise.next() % 62),
        (Form::Number | Form::Orientation | Form::Justification, _) => {
            Number(noise.next() % digits as u64)
        }
        (Form::Size, 2) => Coordinate(-digits),
        (Form::Size, _) => Coordinate((noise.next() >> 1) as i64 % (2 * digits) - digits),
        (Form::Tipo, _) => text(&[b"PXLTCS"[noise.below(6)]]),
        (Form::Sense, _) => text(&[b"+-x"[noise.below(3)]]),
        (Form::NodeType, _) => text(&[b"ACEIHae"[noise.below(7)]]),
        (Form::Code, _) => random_text(noise, 7),
        (Form::Text, _) => random_text(noise, width(file, field)),
    }
}

/// The values with every way of saying nothing made one, where `read` gives
/// the variants that the fields have.
fn plain(file: usize, values: &[Value]) -> Vec<Value> {
    let keep = |field: usize| match (form(file, field), values.get(field - 1)) {
        (Form::Number | Form::Orientation | Form::Justification, Some(Number(n))) => Number(*n),
        (Form::Size, Some(Coordinate(c))) => Coordinate(*c),
        (Form::Sign | Form::Size, _) => Missing,
        (_, Some(Text(t))) if !t.is_empty() => Text(t.clone()),
        _ => Missing,
    };
    (1..=fields(file)).map(keep).collect()
}

#[test]
fn what_is_written_reads_back_the_same() {
    let mut noise = Noise(0x5EED);
    let mut told = [0_usize; 66];
    for _ in 0..40_000 {
        let file = 1 + noise.below(FILES);
        let given = fields(file) + 1 - noise.below(2);
        let values: Vec<Value> = (1..=given)
            .map(|field| random_value(&mut noise, file, field))
            .collect();
        let mut room = [0x5A; 160];
        match write(file, &values, &mut room) {
            Ok(length) => {
                told[0] += 1;
                assert_eq!(read(file, &room[..length], 1), Ok(plain(file, &values)));
                assert!(room[length..].iter().all(|&b| b == 0x5A));
            }
            Err(found) => {
                told[usize::from(found.reason)] += 1;
                assert!(found.field >= 1 && found.field <= fields(file));
                assert!(room.iter().all(|&b| b == 0x5A));
            }
        }
    }
    for reason in [0, 62, 63, 64, 65] {
        assert!(told[reason] > 100, "{reason}: {}", told[reason]);
    }
}
