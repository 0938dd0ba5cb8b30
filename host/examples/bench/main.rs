//! How long `judge` takes beside the independent checker, on the same deliveries in the same run, both built for release.
//!
//! `cargo run --release --example bench` prints the tables of docs/BENCHMARKS.md, `bench -- NAME...` those named: lawful, composed,
//! damaged, keys, broken, grid, places, records, thread. The deliveries of `lawful` have no composites, as before there were any, those of
//! `composed` as many as records of any other file. `grid` is for the breaks counted: of the lawful delivery of 16,384 records a file, and
//! for each rule of the one made of it in which every record breaks that, beside the verdict on the lawful one, of which a count is to
//! take at most four times the time. Times are the least of several turns, taken by turns so that both meet the same state of the
//! machine; a ratio below 1 says that the library is faster.

mod broken;
mod grid;
mod hostile;
#[path = "../../tests/places/mod.rs"]
mod places;
mod records;
#[path = "../../tests/throughout/mod.rs"]
mod throughout;

use canopyrail::{Verdict, FILES};
use deliveries::{
    composed, damage, full, lawful, write, Files, Random, Size, AIMS, OB_COMP, VERTICE,
};
use std::time::Instant;

/// Keeps the compiler from seeing what becomes of a value.
#[inline(never)]
fn black_box<T>(value: T) -> T {
    value
}

fn lent(files: &Files) -> [&[u8]; FILES] {
    std::array::from_fn(|file| files[file].as_slice())
}

/// Milliseconds of one call.
fn once<T>(work: impl FnOnce() -> T) -> f64 {
    let start = Instant::now();
    black_box(work());
    start.elapsed().as_secs_f64() * 1000.0
}

/// The library's judging itself, without the thread that `canopyrail::judge` makes for it.
fn judge(files: &Files) -> Verdict {
    // SAFETY: all work here is done on the thread that main makes, with four times the stack that a judging takes.
    unsafe { canopyrail::judge_here(lent(black_box(files))) }
}

/// The least of so many turns of both, by turns.
fn both(files: &Files, turns: usize) -> (f64, f64) {
    let mut least = (f64::MAX, f64::MAX);
    for _ in 0..turns {
        least.0 = least.0.min(once(|| judge(files)));
        least.1 = least
            .1
            .min(once(|| independent::judge(lent(black_box(files)))));
    }
    least
}

/// A lawful delivery of so many records a file.
type Make = fn(&mut Random, usize) -> Files;

fn lawful_deliveries(which: &str, make: Make) {
    println!("judge, lawful deliveries of n records a file, {which}, milliseconds\n");
    println!("| n | bytes in all | canopyrail | independent | ratio | to the n before |");
    println!("|---|---|---|---|---|---|");
    let mut before = None;
    for n in [
        8usize, 64, 128, 256, 512, 1_024, 2_048, 4_096, 8_192, 16_384,
    ] {
        let files = make(&mut Random::new(n as u64), n);
        let bytes: usize = files.iter().map(Vec::len).sum();
        let turns = (160_000 / n).clamp(9, 1_000);
        let (ours, theirs) = both(&files, turns);
        let growth = match before {
            Some(time) if n > 64 => format!("{:.2}", ours / time),
            _ => String::from("-"),
        };
        println!(
            "| {n} | {bytes} | {ours:.3} | {theirs:.3} | {:.2} | {growth} |",
            ours / theirs
        );
        before = Some(ours);
    }
    println!();
}

/// Damaged deliveries are timed so many times each, as the lawful one beside them.
const TURNS: usize = 9;

/// Every aim on a delivery of n records a file: how much longer than the lawful one does a damaged one take?
fn damaged_deliveries(n: usize) {
    let files = full(&mut Random::new(n as u64), n);
    let (lawful_time, _) = both(&files, TURNS);
    println!(
        "judge, damaged deliveries of {n} records a file; the lawful one takes {lawful_time:.2} ms\n"
    );
    let mut rows = Vec::new();
    for aim in AIMS.iter().filter(|aim| !aim.is_big()) {
        let mut random = Random::new(3);
        let mut model = lawful(&mut random, Size::Exact(n));
        let mut files = write(&model);
        damage(&mut random, &mut model, &mut files, *aim);
        let (ours, theirs) = both(&files, TURNS);
        rows.push((
            ours / lawful_time,
            ours,
            theirs,
            aim.to_string(),
            judge(&files).to_string(),
        ));
    }
    rows.sort_by(|a, b| b.0.partial_cmp(&a.0).unwrap());
    println!("| damage | line | canopyrail | independent | to the lawful one |");
    println!("|---|---|---|---|---|");
    for (ratio, ours, theirs, aim, line) in rows.iter().take(12) {
        println!("| {aim} | `{line}` | {ours:.2} | {theirs:.2} | {ratio:.2} |");
    }
    println!(
        "\nthe other {} take at most {:.2} times the lawful one's time\n",
        rows.len() - 12,
        rows[12].0
    );
}

/// The worst that keys can be: all alike from the end on, so that the nested scan goes furthest.
fn repeated_keys(n: usize) {
    println!("judge, one key repeated at the far end of a file of {n} records, milliseconds\n");
    println!("| file | line | canopyrail | independent |");
    println!("|---|---|---|---|");
    for file in 0..FILES {
        let make: Make = if file == OB_COMP { composed } else { full };
        let mut files = make(&mut Random::new(n as u64), n);
        let length = files[file].len() / n;
        let key = if file == 0 {
            7
        } else if file == VERTICE {
            16
        } else {
            10
        };
        // the last record takes the key of the one before it
        let from = (n - 2) * length;
        let to = (n - 1) * length;
        let bytes = files[file][from..from + key].to_vec();
        files[file][to..to + key].copy_from_slice(&bytes);
        let (ours, theirs) = both(&files, TURNS);
        println!(
            "| {} | `{}` | {ours:.2} | {theirs:.2} |",
            independent::NAMES[file],
            judge(&files)
        );
    }
    println!();
}

/// Nodes at different places that share one number, each with its two point objects, beside the same files with plain places: what is
/// still quadratic. There are half as many nodes as a file may have records.
fn shared_places(n: usize) {
    let together = places::falling_together(n, places::WHOLE);
    let plain: Vec<(i64, i64)> = (1..=n as i64).map(|x| (x, x)).collect();
    println!("judge, {n} nodes with their point objects, milliseconds\n");
    println!("| places | line | canopyrail | independent |");
    println!("|---|---|---|---|");
    for (name, places, turns) in [
        ("plain", plain, TURNS),
        ("that share one number", together, 3),
    ] {
        let files = places::delivery(&places);
        let line = independent::line(&independent::judge(lent(&files)));
        let (ours, theirs) = both(&files, turns);
        println!(
            "| {name} | `{}` | {ours:.2} | {theirs:.2} |",
            line.trim_end()
        );
    }
    println!();
}

/// What the thread costs that `canopyrail::judge` makes, where the judging itself is short.
fn thread() {
    let files = full(&mut Random::new(8), 8);
    let (mut own, mut here) = (f64::MAX, f64::MAX);
    for _ in 0..1_000 {
        own = own.min(once(|| canopyrail::judge(lent(black_box(&files)))));
        here = here.min(once(|| judge(&files)));
    }
    println!("judge, 8 records a file: {own:.3} ms on a thread of its own, {here:.3} ms on the caller's\n");
}

type Table = (&'static str, fn());

const TABLES: [Table; 9] = [
    ("lawful", || lawful_deliveries("no composites", full)),
    ("composed", || {
        lawful_deliveries("and n composites", composed)
    }),
    ("damaged", || damaged_deliveries(4_096)),
    ("keys", || repeated_keys(16_384)),
    ("broken", broken::broken_deliveries),
    ("grid", grid::grids),
    ("places", || shared_places(8_192)),
    ("records", records::one_record),
    ("thread", thread),
];

/// The tables named; all where none is.
fn asked() -> Vec<Table> {
    let words: Vec<String> = std::env::args().skip(1).collect();
    if words.is_empty() {
        return TABLES.to_vec();
    }
    let table = |word: &String| {
        let found = TABLES.iter().find(|(name, _)| name == word);
        *found.unwrap_or_else(|| panic!("no table {word}"))
    };
    words.iter().map(table).collect()
}

fn main() {
    let work = || asked().iter().for_each(|(_, print)| print());
    std::thread::Builder::new()
        .stack_size(4 * canopyrail::STACK)
        .spawn(work)
        .unwrap()
        .join()
        .unwrap();
}
