//! The library held against the independent checker: the same deliveries to both, and both must say the same, byte for byte, and count
//! the same breaks.
//!
//! Seeded and bounded. `CANOPYRAIL_DELIVERIES=200000 cargo test --release --test compare` is the longer run.

mod throughout;

use canopyrail::{names, Break, Grid, Verdict, FILES, GROUPS};
use deliveries::{
    composed, damage, damaged, full, lawful, write, Aim, Files, Model, Outcome, Random, Size, AIMS,
    MOST_RECORDS, RECORD,
};

/// How many damaged deliveries are compared.
fn how_many() -> u64 {
    std::env::var("CANOPYRAIL_DELIVERIES")
        .ok()
        .and_then(|n| n.parse().ok())
        .unwrap_or(6_000)
}

fn lent(files: &Files) -> [&[u8]; FILES] {
    std::array::from_fn(|file| files[file].as_slice())
}

/// The reason that both tell, 0 where both accept; panics where they differ in anything: the line,
/// the place, what else the reason tells, the counts, the grid.
fn compare(files: &Files, what: &str) -> u8 {
    let ours = canopyrail::judge(lent(files));
    let theirs = independent::judge(lent(files));
    assert_eq!(
        canopyrail::line(&ours),
        independent::line(&theirs),
        "{what}"
    );
    let counts = independent::counts(lent(files));
    for (file, bytes) in files.iter().enumerate() {
        assert_eq!(
            canopyrail::count(file + 1, bytes),
            counts[file],
            "{what}: records of file {}",
            file + 1
        );
    }
    compare_grids(files, &ours, what);
    match (ours, theirs) {
        (Verdict::Accepted(counted), _) => {
            assert_eq!(counted, counts, "{what}");
            0
        }
        (Verdict::Broken(ours), independent::Verdict::Broken(theirs)) => {
            assert_eq!(alike(ours), theirs, "{what}");
            theirs.reason
        }
        (ours, theirs) => panic!("{what}: {ours:?} and {theirs:?}"),
    }
}

/// Counts the breaks by both. There is none exactly if the delivery is accepted; else the one that the verdict tells is among them, and
/// all are of its ten.
fn compare_grids(files: &Files, verdict: &Verdict, what: &str) {
    let ours = canopyrail::grid(lent(files));
    assert_eq!(*ours.rows(), independent::grid(lent(files)), "{what}");
    match verdict {
        Verdict::Accepted(_) => assert!(ours.is_zero(), "{what}:\n{ours}"),
        Verdict::Broken(b) => {
            let is_its_ten = |ten: &u8| *ten == b.reason.number() / 10;
            let group = 1 + names::TENS.iter().position(is_its_ten).unwrap();
            assert!(ours.cell(b.file, group) > 0, "{what}: {b}\n{ours}");
            assert_eq!(ours.of_group(group), ours.total(), "{what}: {b}\n{ours}");
        }
    }
}

fn alike(b: Break) -> independent::Break {
    independent::Break {
        reason: b.reason.number(),
        file: b.file,
        record: b.record,
        field: b.field,
        other: b.other,
    }
}

fn aims(aims: &[Aim]) -> String {
    let words: Vec<String> = aims.iter().map(|aim| aim.to_string()).collect();
    words.join("; ")
}

#[test]
fn lawful_deliveries_are_accepted() {
    for seed in 0..how_many() / 6 {
        let mut random = Random::new(seed);
        let files = write(&lawful(&mut random, Size::Small));
        assert_eq!(compare(&files, &format!("lawful, seed {seed}")), 0);
    }
}

#[test]
fn damaged_deliveries_get_the_same_line_and_every_reason_comes_up() {
    let mut told = [0u32; 100];
    for seed in 0..how_many() {
        let mut random = Random::new(seed);
        let (files, with) = damaged(&mut random);
        let what = format!("seed {seed}: {}", aims(&with));
        told[usize::from(compare(&files, &what))] += 1;
    }
    for aim in AIMS.iter().filter(|aim| aim.is_big()) {
        let mut random = Random::new(1);
        let mut model = lawful(&mut random, Size::Small);
        let mut files = write(&model);
        damage(&mut random, &mut model, &mut files, *aim);
        told[usize::from(compare(&files, &aim.to_string()))] += 1;
    }
    for (reason, times) in told.iter().enumerate().filter(|(_, times)| **times > 0) {
        println!("reason {reason:2}: {times}");
    }
    // 59 can't come first: the reference to a line without a vertex is 40
    for reason in [
        0, 10, 11, 20, 21, 22, 23, 24, 25, 30, 40, 41, 50, 51, 52, 53, 54, 55, 56, 57, 58, 70,
    ] {
        assert!(told[reason] > 0, "reason {reason} never came up");
    }
}

/// One aim at a time, so that no other damage comes first.
#[test]
fn each_aim_by_itself() {
    for aim in AIMS.iter().filter(|aim| !aim.is_big()) {
        for seed in 0..how_many() / 100 {
            let mut random = Random::new(seed);
            let mut model = lawful(&mut random, Size::UpTo(20));
            let mut files = write(&model);
            damage(&mut random, &mut model, &mut files, *aim);
            compare(&files, &format!("{aim}, seed {seed}"));
        }
    }
}

/// A lawful delivery with these damages.
fn damaged_by(seed: u64, size: Size, aims: &mut [Aim]) -> Files {
    let mut random = Random::new(seed);
    let mut model = lawful(&mut random, size);
    let mut files = write(&model);
    // Damage to the values writes all files anew.
    aims.sort_by_key(|aim| aim.layer());
    for aim in aims {
        damage(&mut random, &mut model, &mut files, *aim);
    }
    files
}

/// Each two of the aims that break a rule, and each two with a third, so that many breaks of one ten stand in one delivery.
#[test]
fn several_faults_at_once() {
    let breaking = |aim: &&Aim| !aim.is_big() && matches!(aim.outcome(), Outcome::Broken(_));
    let breaking: Vec<Aim> = AIMS.iter().filter(breaking).copied().collect();
    let (mut many, mut files_at_once) = (0, 0);
    for (place, one) in breaking.iter().enumerate() {
        for (step, other) in breaking[place..].iter().enumerate() {
            let third = breaking[(place * 7 + step * 3) % breaking.len()];
            for with in [&mut vec![*one, *other], &mut vec![*one, *other, third]] {
                let files = damaged_by(step as u64, Size::UpTo(12), with);
                let what = aims(with);
                compare(&files, &what);
                let grid = canopyrail::grid(lent(&files));
                many += u32::from(grid.total() > 1);
                files_at_once +=
                    u32::from((1..=FILES).filter(|file| grid.of_file(*file) > 0).count() > 1);
            }
        }
    }
    println!("{many} deliveries with several breaks, {files_at_once} in several files");
    assert!(many > 300 && files_at_once > 100);
}

/// Every rule broken in every record, each made of one of the two lawful deliveries.
fn all_broken<'a>(
    plain: &'a Model,
    composed: &'a Model,
) -> impl Iterator<Item = throughout::Broken> + 'a {
    throughout::all(plain).chain(throughout::all_composed(composed))
}

/// Every rule broken in every record, in files that are judged with short arrays and in some that are not.
#[test]
fn rules_broken_throughout() {
    for n in [40, 600] {
        let [plain, composed] = [Size::Exact(n as usize), Size::Composed(n as usize)]
            .map(|size| lawful(&mut Random::new(n), size));
        for (name, _, files) in all_broken(&plain, &composed) {
            compare(&files, &format!("{name}, {n} records a file"));
        }
    }
}

#[test]
fn rules_broken_throughout_at_full_size() {
    let [plain, composed] = [Size::Exact(MOST_RECORDS), Size::Composed(MOST_RECORDS)]
        .map(|size| lawful(&mut Random::new(5), size));
    for (name, due, files) in all_broken(&plain, &composed) {
        compare(&files, name);
        let told = canopyrail::judge(lent(&files));
        assert_eq!(told.to_string(), due, "{name}");
    }
}

/// The whole records of each file in another order; bytes past the last whole one stay.
fn shuffled(random: &mut Random, files: &Files) -> Files {
    let mut shuffled = Files::default();
    for (file, bytes) in files.iter().enumerate() {
        let records = bytes.chunks_exact(RECORD[file]);
        let rest = records.remainder();
        let mut records: Vec<&[u8]> = records.collect();
        random.shuffle(&mut records);
        shuffled[file] = [&records.concat(), rest].concat();
    }
    shuffled
}

#[test]
fn records_in_another_order_have_the_same_grid() {
    for seed in 0..how_many() / 3 {
        let mut random = Random::new(seed);
        let (files, with) = damaged(&mut random);
        let other = shuffled(&mut random, &files);
        let what = format!("seed {seed}, shuffled: {}", aims(&with));
        compare(&other, &what);
        let grids = [files, other].map(|files| canopyrail::grid(lent(&files)));
        assert_eq!(grids[0], grids[1], "{what}");
    }
}

#[test]
fn full_size_deliveries() {
    let mut random = Random::new(16_384);
    let files = full(&mut random, 16_384);
    assert_eq!(compare(&files, "full size"), 0);
    let files = composed(&mut random, 16_384);
    assert_eq!(compare(&files, "full size with composites"), 0);
    let mut told = Vec::new();
    for aim in AIMS.iter().filter(|aim| !aim.is_big()) {
        let mut random = Random::new(7);
        let mut model = lawful(&mut random, Size::Composed(2_048));
        let mut files = write(&model);
        damage(&mut random, &mut model, &mut files, *aim);
        told.push(compare(&files, &format!("2,048 records a file, {aim}")));
    }
    assert!(told.iter().filter(|reason| **reason > 0).count() > 10);
}

#[test]
fn bytes_of_no_sense() {
    for seed in 0..how_many() / 20 {
        let mut random = Random::new(seed);
        let mut files: Files = Default::default();
        for file in &mut files {
            let length = random.below(700) as usize;
            *file = (0..length).map(|_| random.next() as u8).collect();
        }
        compare(&files, &format!("random bytes, seed {seed}"));
    }
    assert_eq!(compare(&Files::default(), "nothing at all"), 0);
}

/// Every truncation of one file of a small delivery, each file in turn.
#[test]
fn truncated_files() {
    for seed in 0..7 {
        let mut random = Random::new(seed);
        let files = write(&lawful(&mut random, Size::UpTo(8)));
        for file in 0..FILES {
            for length in 0..files[file].len() {
                let mut cut = files.clone();
                cut[file].truncate(length);
                compare(
                    &cut,
                    &format!("seed {seed}, file {} of {length} bytes", file + 1),
                );
            }
        }
    }
}

/// A cell of a grid, often at an edge.
fn cell(random: &mut Random) -> u64 {
    let edges = [
        0,
        1,
        4_999_999_999,
        5_000_000_000,
        9_999_999_998,
        9_999_999_999,
        10_000_000_000,
        1 << 63,
        u64::MAX - 1,
        u64::MAX,
    ];
    match random.below(8) {
        0 => random.pick(&edges),
        1 => random.next(),
        _ => random.below(5_000_000_000),
    }
}

/// Rows with cells that any grid may have, but for some few in as many of them as are asked for.
fn rows(random: &mut Random, odd: usize) -> [[u64; GROUPS]; FILES] {
    let mut rows = [[0; GROUPS]; FILES];
    for count in rows.iter_mut().flatten() {
        *count = random.below(5_000_000_000);
    }
    for _ in 0..odd {
        rows[random.index(FILES)][random.index(GROUPS)] = cell(random);
    }
    rows
}

/// What both make of rows that are added to nothing, and then of others that are added to those.
#[test]
fn sums() {
    let (mut summed, mut refused) = (0, 0);
    for seed in 0..how_many() {
        let mut random = Random::new(seed);
        let (first, second) = (rows(&mut random, 1), rows(&mut random, 1));
        let mut theirs = [[0; GROUPS]; FILES];
        let (made, other) = (Grid::new(first), Grid::new(second));
        assert_eq!(
            made.is_ok(),
            independent::add(&mut theirs, &first),
            "{first:?}"
        );
        if let (Ok(mut ours), Ok(other)) = (made, other) {
            let before = ours;
            let sum = ours.add(&other);
            assert_eq!(sum.is_ok(), independent::add(&mut theirs, &second));
            assert_eq!(*ours.rows(), theirs, "{first:?} and {second:?}");
            assert_eq!(*other.rows(), second);
            match sum {
                Ok(()) => summed += 1,
                Err(refusal) => {
                    assert_eq!((refusal.reason.number(), refusal.field), (67, 0));
                    assert_eq!(ours, before);
                    refused += 1;
                }
            }
        }
    }
    assert!(
        summed > how_many() / 8 && refused > how_many() / 100,
        "{summed}, {refused}"
    );
}
