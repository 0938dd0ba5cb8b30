//! Every rule from 30 on broken as often as it can be, and hostile keys and places, beside the lawful delivery that they are made of.

use crate::hostile::{FULL, FULL_COMPOSED, HOSTILE, HOSTILE_COMPOSED};
use crate::throughout::{Case, ASTRAY, MISTYPED, REPEATED, UNGROUPED, UNKNOWN};
use crate::{both, judge, lent, once, places};
use deliveries::{lawful, write, Files, Random, Size, MOST_RECORDS};

/// A delivery is timed so many times more, and not again where once takes longer than so many milliseconds.
const TURNS: usize = 7;
const LONG: f64 = 1_000.0;

/// The times of one turn of both checkers, which give the line that is due.
fn checked(files: &Files, name: &str, due: &str) -> (f64, f64) {
    let (mut ours, mut theirs) = (String::new(), String::new());
    let time = once(|| ours = judge(files).to_string());
    let time_there = once(|| theirs = independent::line(&independent::judge(lent(files))));
    assert_eq!(ours, due, "{name}");
    assert_eq!(theirs.trim_end(), due, "{name}, the independent checker");
    (time, time_there)
}

/// Prints a delivery's row. The lawful one is timed by turns with it, so that both meet the same state of the machine.
fn row(files: &Files, name: &str, due: &str, lawful: &Files) {
    let (mut ours, mut theirs) = checked(files, name, due);
    let is_long = ours > LONG;
    let mut beside = f64::MAX;
    for _ in 0..TURNS {
        beside = beside.min(once(|| judge(lawful)));
        if !is_long {
            let more = both(files, 1);
            ours = ours.min(more.0);
            theirs = theirs.min(more.1);
        }
    }
    let ratio = ours / beside;
    println!("| {name} | `{due}` | {ours:.2} | {theirs:.2} | {beside:.2} | {ratio:.2} |");
}

/// All rows, for as many records as a file may have.
pub fn broken_deliveries() {
    let n = MOST_RECORDS;
    println!("judge, {n} records a file, milliseconds\n");
    println!("| broken, or hostile | line | canopyrail | independent | canopyrail, the lawful one | to the lawful one |");
    println!("|---|---|---|---|---|---|");
    let groups: [&[Case]; 5] = [&REPEATED, &UNKNOWN, &MISTYPED, &ASTRAY, &HOSTILE];
    let files = rows(Size::Exact(n), FULL, &groups.concat());
    let half = n / 2;
    let together = places::delivery(&places::falling_together(half, places::WHOLE));
    let due = format!("OK 00001 {n:05} 00000 00000 00000 00000 {half:05} 00000");
    row(&together, "places that share one number", &due, &files);
    let groups: [&[Case]; 2] = [&UNGROUPED, &HOSTILE_COMPOSED];
    rows(Size::Composed(n), FULL_COMPOSED, &groups.concat());
    println!();
}

/// The rows of a lawful delivery and of those made of it, and the lawful one.
fn rows(size: Size, lawful_line: &str, cases: &[Case]) -> Files {
    let model = lawful(&mut Random::new(MOST_RECORDS as u64), size);
    let files = write(&model);
    row(&files, "nothing", lawful_line, &files);
    for (name, due, change) in cases {
        let mut changed = model.clone();
        change(&mut changed);
        row(&write(&changed), name, due, &files);
    }
    files
}
