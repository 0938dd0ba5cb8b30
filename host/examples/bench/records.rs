//! One record read and written: by the library's C calls, on memory that is lent once, by its Rust functions, and by the independent
//! checker, which like these makes a vector of values at each reading.

use crate::{black_box, once};
use canopyrail::{FIELDS, TEXT};
use deliveries::{composed, full, Files, Random, OB_COMP};

/// So many records are read by turns, so many times over, and all that so many times.
const RECORDS: usize = 64;
const ROUNDS: usize = 10;
const TURNS: usize = 100;
/// A call is to take at most so many times the time of the independent checker's.
const READING: f64 = 1.5;
const WRITING: f64 = 2.0;

#[rustfmt::skip]
extern "C" {
    fn canopyrail_read(
        file: usize, bytes: *const u8, len: usize, n: usize,
        numbers: *mut u64, numbers_len: usize,
        coordinates: *mut i64, coordinates_len: usize,
        lengths: *mut usize, lengths_len: usize,
        texts: *mut u8, texts_len: usize,
    ) -> u64;
    fn canopyrail_write(
        file: usize,
        numbers: *const u64, numbers_len: usize,
        coordinates: *const i64, coordinates_len: usize,
        lengths: *const usize, lengths_len: usize,
        texts: *const u8, texts_len: usize,
        room: *mut u8, room_len: usize,
    ) -> u64;
}

/// What a host lends to the C calls.
#[derive(Clone)]
struct Lent {
    numbers: [u64; FIELDS],
    coordinates: [i64; FIELDS],
    lengths: [usize; FIELDS],
    texts: [u8; FIELDS * TEXT],
}

const EMPTY: Lent = Lent {
    numbers: [0; FIELDS],
    coordinates: [0; FIELDS],
    lengths: [0; FIELDS],
    texts: [0; FIELDS * TEXT],
};

#[rustfmt::skip]
fn read(file: usize, bytes: &[u8], record: usize, lent: &mut Lent) -> u64 {
    // SAFETY: a slice that is only read, and four arrays apart from it and from each other, each with its own length in elements.
    unsafe {
        canopyrail_read(
            file, bytes.as_ptr(), bytes.len(), record,
            lent.numbers.as_mut_ptr(), FIELDS,
            lent.coordinates.as_mut_ptr(), FIELDS,
            lent.lengths.as_mut_ptr(), FIELDS,
            lent.texts.as_mut_ptr(), FIELDS * TEXT,
        )
    }
}

#[rustfmt::skip]
fn write(file: usize, lent: &Lent, room: &mut [u8]) -> u64 {
    // SAFETY: four arrays that are only read, each with its own length in elements, and a slice apart from them.
    unsafe {
        canopyrail_write(
            file,
            lent.numbers.as_ptr(), FIELDS,
            lent.coordinates.as_ptr(), FIELDS,
            lent.lengths.as_ptr(), FIELDS,
            lent.texts.as_ptr(), FIELDS * TEXT,
            room.as_mut_ptr(), room.len(),
        )
    }
}

/// Nanoseconds of one call, of many that take the records by turns.
fn each(mut call: impl FnMut(usize)) -> f64 {
    let work = || (0..ROUNDS).for_each(|_| (1..=RECORDS).for_each(&mut call));
    once(work) * 1e6 / (ROUNDS * RECORDS) as f64
}

/// The least times of the three ways, taken by turns so that they meet the same state of the machine.
fn least(mut turn: impl FnMut() -> [f64; 3]) -> [f64; 3] {
    let mut least = [f64::MAX; 3];
    for _ in 0..TURNS {
        for (least, time) in least.iter_mut().zip(turn()) {
            *least = least.min(time);
        }
    }
    least
}

fn reading(file: usize, bytes: &[u8]) -> [f64; 3] {
    let mut lent = EMPTY;
    least(|| {
        [
            each(|record| assert_eq!(read(file, black_box(bytes), record, &mut lent), 0)),
            each(|record| {
                black_box(canopyrail::read(file, black_box(bytes), record)).unwrap();
            }),
            each(|record| {
                black_box(independent::read(file, black_box(bytes), record)).unwrap();
            }),
        ]
    })
}

/// Of the values that were read, which give the same bytes.
fn writing(file: usize, bytes: &[u8]) -> [f64; 3] {
    let (mut lent, mut ours, mut theirs) = (Vec::new(), Vec::new(), Vec::new());
    for record in 1..=RECORDS {
        let mut one = EMPTY;
        assert_eq!(read(file, bytes, record, &mut one), 0);
        lent.push(one);
        ours.push(canopyrail::read(file, bytes, record).unwrap());
        theirs.push(independent::read(file, bytes, record).unwrap());
    }
    let mut room = vec![0; bytes.len() / RECORDS];
    for (one, written) in lent.iter().zip(bytes.chunks(room.len())) {
        assert_eq!(write(file, one, &mut room), 0);
        assert_eq!(room, written);
    }
    least(|| {
        [
            each(|record| assert_eq!(write(file, black_box(&lent[record - 1]), &mut room), 0)),
            each(|record| {
                let values = black_box(&ours[record - 1]);
                black_box(canopyrail::write(file, values, &mut room)).unwrap();
            }),
            each(|record| {
                let values = black_box(&theirs[record - 1]);
                black_box(independent::write(file, values, &mut room)).unwrap();
            }),
        ]
    })
}

fn table(name: &str, aim: f64, files: &Files, time: fn(usize, &[u8]) -> [f64; 3]) {
    println!("one record, {name}, nanoseconds\n");
    println!(
        "| file | C call | Rust function | independent | C call to it | Rust function to it |"
    );
    println!("|---|---|---|---|---|---|");
    let mut most = 0.0f64;
    for (at, bytes) in files.iter().enumerate() {
        let [call, function, there] = time(at + 1, bytes);
        let (ratio, ours) = (call / there, function / there);
        most = most.max(ratio);
        println!(
            "| {} | {call:.0} | {function:.0} | {there:.0} | {ratio:.2} | {ours:.2} |",
            independent::NAMES[at]
        );
    }
    println!("\nthe C call at most {most:.2} times; the aim is {aim}\n");
}

pub fn one_record() {
    let mut files = full(&mut Random::new(1), RECORDS);
    files[OB_COMP] = std::mem::take(&mut composed(&mut Random::new(1), RECORDS)[OB_COMP]);
    table("read", READING, &files, reading);
    table("written", WRITING, &files, writing);
}
