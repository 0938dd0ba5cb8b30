//! One record read and written, held against the independent codec: the same values, the same bytes, the same refusals; what was
//! written is read back; a refused call leaves what it was lent.

use deliveries::{damaged, Random};

const ROOM: usize = canopyrail::LONGEST + 11;

fn theirs(value: &canopyrail::Value) -> independent::Value {
    match value {
        canopyrail::Value::Missing => independent::Value::Missing,
        canopyrail::Value::Number(n) => independent::Value::Number(*n),
        canopyrail::Value::Coordinate(z) => independent::Value::Coordinate(*z),
        canopyrail::Value::Text(t) => independent::Value::Text(t.clone()),
    }
}

fn same_values(ours: &[canopyrail::Value], other: &[independent::Value]) -> bool {
    ours.len() == other.len() && ours.iter().zip(other).all(|(a, b)| theirs(a) == *b)
}

/// Reads by both; the values where both read.
fn read(file: usize, bytes: &[u8], record: usize) -> Option<Vec<canopyrail::Value>> {
    let ours = canopyrail::read(file, bytes, record);
    let other = independent::read(file, bytes, record);
    match (ours, other) {
        (Ok(a), Ok(b)) => {
            assert!(
                same_values(&a, &b),
                "file {file}, record {record}: {a:?} and {b:?}"
            );
            Some(a)
        }
        (Err(a), Err(b)) => {
            assert_eq!(
                (a.reason.number(), a.field),
                (b.reason, b.field),
                "file {file}, record {record}"
            );
            None
        }
        (a, b) => panic!("file {file}, record {record}: {a:?} and {b:?}"),
    }
}

/// Writes by both into a patterned room; the record where both write.
fn write(file: usize, values: &[canopyrail::Value], room: usize) -> Option<Vec<u8>> {
    let mut ours = vec![0xEE; room];
    let mut other = vec![0xEE; room];
    let a = canopyrail::write(file, values, &mut ours);
    let converted: Vec<independent::Value> = values.iter().map(theirs).collect();
    let b = independent::write(file, &converted, &mut other);
    assert_eq!(ours, other, "file {file}: {values:?}");
    match (a, b) {
        (Ok(a), Ok(b)) => {
            assert_eq!(a, b);
            assert!(ours[a..].iter().all(|byte| *byte == 0xEE));
            Some(ours[..a].to_vec())
        }
        (Err(a), Err(b)) => {
            assert_eq!(
                (a.reason.number(), a.field),
                (b.reason, b.field),
                "file {file}: {values:?}"
            );
            assert!(ours.iter().all(|byte| *byte == 0xEE), "a refused write");
            None
        }
        (a, b) => panic!("file {file}, {values:?}: {a:?} and {b:?}"),
    }
}

/// A text with something odd about it.
fn odd_text(random: &mut Random) -> Vec<u8> {
    let length = [0, 1, 2, 7, 8, 59, 60, 61, 200][random.below(9) as usize];
    let mut text: Vec<u8> = (0..length)
        .map(|_| b"NAD P|\xA0\xFF\x7F\x1F+-"[random.below(12) as usize])
        .collect();
    if random.chance(1, 3) {
        text = [
            &b"NA"[..],
            b"ND",
            b"P",
            b"X",
            b"L",
            b"T",
            b"C",
            b"S",
            b"A",
            b"H",
            b"e",
            b"+",
            b"-",
            b"0100000",
            b"NA ",
            b" ",
            b"\xA0",
            b"NA\xA0",
            b"\xA0x",
            b"x\xA0x",
        ][random.below(20) as usize]
            .to_vec();
    }
    text
}

fn odd_number(random: &mut Random) -> u64 {
    let digits = random.below(21) as u32;
    match random.below(4) {
        0 => 10u64.checked_pow(digits).unwrap_or(u64::MAX),
        1 => 10u64.checked_pow(digits).unwrap_or(u64::MAX) - 1,
        2 => random.next(),
        _ => random.below(100),
    }
}

/// An orientation at or past the edge of degrees or minutes.
fn odd_angle(random: &mut Random) -> u64 {
    let degrees = random.pick(&[0, 1, 99, 359, 360, 999, 1_000]);
    let minutes = random.pick(&[0, 1, 59, 60, 99]);
    match random.below(4) {
        0 => odd_number(random),
        _ => 100 * degrees + minutes,
    }
}

fn odd_coordinate(random: &mut Random) -> i64 {
    match random.below(4) {
        0 => i64::MIN,
        1 => -((odd_number(random) / 2) as i64),
        2 => 0,
        _ => odd_number(random) as i64,
    }
}

/// Another value for a field, of the form that it has.
fn odd_value(random: &mut Random, file: usize, field: usize) -> canopyrail::Value {
    if random.chance(1, 4) {
        return canopyrail::Value::Missing;
    }
    match independent::form(file, field) {
        independent::Form::Number => canopyrail::Value::Number(odd_number(random)),
        independent::Form::Orientation => canopyrail::Value::Number(odd_angle(random)),
        independent::Form::Justification => canopyrail::Value::Number(random.below(12)),
        independent::Form::Size => canopyrail::Value::Coordinate(odd_coordinate(random)),
        independent::Form::Sign => canopyrail::Value::Missing,
        _ => canopyrail::Value::Text(odd_text(random)),
    }
}

#[test]
fn records_are_read_and_written_alike() {
    let mut told = [0u32; 100];
    let mut wrote = 0u32;
    for seed in 0..600 {
        let mut random = Random::new(seed);
        let (files, _) = damaged(&mut random);
        for (at, bytes) in files.iter().enumerate() {
            let file = at + 1;
            let records = canopyrail::count(file, bytes);
            for record in 0..=records + 1 {
                let values = match read(file, bytes, record) {
                    Some(values) => values,
                    None => {
                        let refusal = canopyrail::read(file, bytes, record).unwrap_err();
                        told[usize::from(refusal.reason.number())] += 1;
                        continue;
                    }
                };
                let length = canopyrail::length(file);
                let written = write(file, &values, ROOM).expect("what was read can be written");
                assert_eq!(
                    written[..],
                    bytes[(record - 1) * length..record * length],
                    "writing what was read"
                );
                assert!(
                    write(file, &values, length - 1).is_none(),
                    "room too short by one"
                );
                assert!(
                    write(file, &values, length).is_some(),
                    "room that is just enough"
                );
                let mut other = values.clone();
                for _ in 0..=random.below(3) {
                    let field = 1 + random.below(other.len() as u64) as usize;
                    other[field - 1] = odd_value(&mut random, file, field);
                }
                match write(file, &other, ROOM) {
                    Some(again) => {
                        wrote += 1;
                        let back = read(file, &again, 1).expect("what was written can be read");
                        let once_more = write(file, &back, ROOM).unwrap();
                        assert_eq!(again, once_more);
                    }
                    None => {
                        let mut room = [0u8; ROOM];
                        let refusal = canopyrail::write(file, &other, &mut room).unwrap_err();
                        told[usize::from(refusal.reason.number())] += 1;
                    }
                }
            }
        }
    }
    for (reason, times) in told.iter().enumerate().filter(|(_, times)| **times > 0) {
        println!("reason {reason:2}: {times}");
    }
    println!("changed and written: {wrote}");
    for reason in [20, 21, 22, 23, 24, 25, 62, 63, 64, 65, 66] {
        assert!(told[reason] > 0, "reason {reason} never came up");
    }
}

#[test]
fn no_such_file() {
    for file in [0, canopyrail::FILES + 1, 255, 256, usize::MAX] {
        assert!(read(file, b"anything", 1).is_none());
        assert!(write(file, &[], ROOM).is_none());
        assert_eq!(canopyrail::count(file, b"anything"), 0);
        assert_eq!(canopyrail::length(file), 0);
        assert_eq!(canopyrail::fields(file), 0);
    }
}

#[test]
fn the_tables_agree() {
    for file in 1..=canopyrail::FILES {
        assert_eq!(canopyrail::length(file), independent::LENGTHS[file - 1]);
        assert_eq!(canopyrail::fields(file), independent::fields(file));
        let mut offset = 0;
        for field in 1..=canopyrail::fields(file) {
            assert_eq!(
                canopyrail::width(file, field),
                independent::width(file, field)
            );
            assert_eq!(canopyrail::offset(file, field), offset);
            offset += canopyrail::width(file, field) + 1;
        }
    }
}

/// A value of another form than its field's is never written, and never taken for a missing one.
#[test]
fn values_of_another_form_are_refused() {
    let mut room = [0xEEu8; ROOM];
    let number = canopyrail::Value::Number(1);
    let text = canopyrail::Value::Text(b"1".to_vec());
    for (file, field, value, reason) in [
        (1, 3, number.clone(), 63),
        (2, 2, text.clone(), 62),
        (7, 4, number, 62),
        (7, 1, text, 62),
    ] {
        let mut values: Vec<canopyrail::Value> = (1..=canopyrail::fields(file))
            .map(|field| lawful_value(file, field))
            .collect();
        values[field - 1] = value;
        let refusal = canopyrail::write(file, &values, &mut room).unwrap_err();
        assert_eq!((refusal.reason.number(), refusal.field), (reason, field));
        assert!(room.iter().all(|byte| *byte == 0xEE));
    }
}

fn lawful_value(file: usize, field: usize) -> canopyrail::Value {
    match independent::form(file, field) {
        independent::Form::Number
        | independent::Form::Orientation
        | independent::Form::Justification => canopyrail::Value::Number(1),
        independent::Form::Size => canopyrail::Value::Coordinate(1),
        independent::Form::Sign => canopyrail::Value::Missing,
        independent::Form::Tipo => canopyrail::Value::Text(b"P".to_vec()),
        independent::Form::Sense => canopyrail::Value::Text(b"+".to_vec()),
        _ => canopyrail::Value::Text(b"A".to_vec()),
    }
}
