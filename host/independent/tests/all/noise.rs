//! No call panics, whatever it is given.

use crate::build::{lent, rich, small, Files, Noise, FILES};
use independent::{
    counts, field_name, fields, form, grid, judge, line, program_line, read, width, write, Break,
    Grid, Value, Verdict, LENGTHS, TENS,
};

/// The first break is counted, with none of another ten or of a file before.
fn assert_holds(grid: &Grid, first: Break) {
    let is_its_ten = |&ten: &u8| ten == first.reason / 10;
    let ten = TENS.iter().position(is_its_ten).unwrap();
    for (i, row) in grid.iter().enumerate() {
        assert!(row[ten] > 0 || i + 1 != first.file);
        assert!(row[ten] == 0 || i + 1 >= first.file);
        assert_eq!(row.iter().sum::<u64>(), row[ten]);
    }
}

/// Asks every call about these files.
fn ask_all(files: &Files) {
    let verdict = judge(lent(files));
    let line = line(&verdict);
    assert!(line.ends_with('\n'));
    let program = program_line(lent(files));
    assert!(program == line || program.starts_with("BIG "));
    let counts = counts(lent(files));
    let grid = grid(lent(files));
    match verdict {
        Verdict::Accepted(accepted) => {
            assert_eq!(accepted, counts);
            assert_eq!(grid, [[0; 6]; FILES]);
        }
        Verdict::Broken(first) => assert_holds(&grid, first),
    }
    for (i, file) in files.iter().enumerate() {
        for record in [0, 1, counts[i], counts[i] + 1, usize::MAX] {
            let found = read(i + 1, file, record);
            if record == 0 || record > counts[i] {
                assert!(found.is_err());
            }
        }
    }
}

#[test]
fn random_bytes() {
    let mut noise = Noise(0x1996);
    for _ in 0..300 {
        let mut files = Files::default();
        for file in files.iter_mut() {
            let length = noise.below(900);
            *file = (0..length).map(|_| noise.byte()).collect();
        }
        ask_all(&files);
    }
}

#[test]
fn random_bytes_of_whole_records_with_bars_and_line_ends() {
    let mut noise = Noise(0xBA5);
    let bytes = b" 0123456789+-|PXLTCNAD\xA0\x00";
    for _ in 0..2_000 {
        let mut files = rich();
        for (i, file) in files.iter_mut().enumerate() {
            let wild = noise.below(LENGTHS[i]);
            for byte in file.iter_mut() {
                if *byte != b'|' && *byte >= b' ' && noise.below(LENGTHS[i]) < wild / 8 {
                    *byte = bytes[noise.below(bytes.len())];
                }
            }
        }
        ask_all(&files);
    }
}

#[test]
fn every_byte_of_s_changed() {
    let files = small();
    for i in 0..FILES {
        for at in 0..files[i].len() {
            for byte in [
                0, b'\n', b'\r', b' ', b'+', b'-', b'0', b'1', b'9', b'|', 0x7F, 0xA0, 0xFF,
            ] {
                let mut changed = files.clone();
                changed[i][at] = byte;
                ask_all(&changed);
            }
        }
    }
}

#[test]
fn every_length_of_s() {
    let files = rich();
    for i in 0..FILES {
        for length in 0..=files[i].len() {
            let mut cut = files.clone();
            cut[i].truncate(length);
            ask_all(&cut);
        }
    }
}

#[test]
fn huge_files() {
    let mut noise = Noise(77);
    let mut files = Files::default();
    for (i, file) in files.iter_mut().enumerate() {
        *file = vec![noise.byte(); LENGTHS[i] * 16_384 + noise.below(3)];
    }
    ask_all(&files);
    let repeated: Files = {
        let mut files = rich();
        for (i, file) in files.iter_mut().enumerate() {
            let record = file[..LENGTHS[i]].to_vec();
            *file = record.repeat(16_384);
        }
        files
    };
    ask_all(&repeated);
}

#[test]
fn random_numbers_and_values() {
    let mut noise = Noise(4);
    let odd = [0, 1, 4, 7, 8, 9, 14, 15, usize::MAX - 1, usize::MAX];
    for file in odd {
        assert!(fields(file) <= 14);
        for field in odd {
            assert_eq!(width(file, field) == 0, field_name(file, field).is_empty());
            let _ = form(file, field);
            assert!(read(file, &[], field).is_err());
        }
    }
    for _ in 0..20_000 {
        let file = noise.below(FILES + 2);
        let length = noise.below(17);
        let values: Vec<Value> = (0..length)
            .map(|_| match noise.below(5) {
                0 => Value::Missing,
                1 => Value::Number(noise.next() >> noise.below(64)),
                2 => Value::Coordinate(noise.next() as i64 >> noise.below(64)),
                3 => Value::Coordinate(i64::MIN),
                _ => {
                    let bytes = noise.below(70);
                    Value::Text((0..bytes).map(|_| noise.byte()).collect())
                }
            })
            .collect();
        let mut room = vec![1; noise.below(200)];
        let before = room.clone();
        if write(file, &values, &mut room).is_err() {
            assert_eq!(room, before);
        }
    }
}
