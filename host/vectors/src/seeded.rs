//! Deliveries that are drawn: the same ones each time.

use deliveries::{damage, damaged, lawful, write, Aim, Files, Outcome, Random, Size, AIMS, RECORD};

/// No delivery drawn for an aim is longer, so that many fit the program's room;
/// some aims find no place in a shorter one, and one wants a line of ten
/// vertices.
const MOST_AIMED: usize = 1_500;
const MOST_AS_TEXT: usize = 2_150;

/// No other delivery drawn is longer.
const MOST_OTHER: usize = 1_000;

/// Each aim by itself, those that break a rule more often; lawful deliveries;
/// several damages at once; bytes of no sense. The aims that make a file of
/// 16,384 records are left out, since the room has none for them: reason 10 is
/// stated by hand.
pub fn seeded() -> Vec<Files> {
    let mut all = Vec::new();
    for (place, &aim) in (1..).zip(&AIMS) {
        let many = match aim.outcome() {
            _ if aim.is_big() => 0,
            Outcome::Broken(_) => 2,
            Outcome::Lawful | Outcome::Open => 1,
        };
        let most = match aim {
            Aim::OrderAsText => MOST_AS_TEXT,
            _ => MOST_AIMED,
        };
        all.extend(drawn(1_000 * place, many, most, |random| {
            aimed(random, aim)
        }));
    }
    let a_lawful_one = |random: &mut Random| write(&lawful(random, Size::UpTo(8)));
    all.extend(drawn(0, 30, MOST_OTHER, a_lawful_one));
    all.extend(drawn(0, 25, MOST_OTHER, |random| damaged(random).0));
    all.extend(drawn(0, 10, MOST_OTHER, senseless));
    all
}

/// So many deliveries that are short enough, from a seed on.
fn drawn(from: u64, many: usize, most: usize, make: impl Fn(&mut Random) -> Files) -> Vec<Files> {
    (from..)
        .map(|seed| make(&mut Random::new(seed)))
        .filter(|files| files.concat().len() <= most)
        .take(many)
        .collect()
}

/// A lawful delivery with one damage.
fn aimed(random: &mut Random, aim: Aim) -> Files {
    let mut model = lawful(random, Size::UpTo(8));
    let mut files = write(&model);
    damage(random, &mut model, &mut files, aim);
    files
}

/// Any bytes; some files are empty, some as long as a record.
fn senseless(random: &mut Random) -> Files {
    let mut files = Files::default();
    for (file, bytes) in files.iter_mut().enumerate() {
        let length = match random.index(3) {
            0 => 0,
            1 => RECORD[file],
            _ => random.index(400),
        };
        *bytes = (0..length).map(|_| random.next() as u8).collect();
    }
    files
}
