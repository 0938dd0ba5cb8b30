//! The breaks counted, of deliveries that have as many as they can, beside the verdict on the lawful one that they are made of.

use crate::throughout::{self, Broken};
use crate::{black_box, judge, lent, once};
use canopyrail::Grid;
use deliveries::{lawful, write, Files, Model, Random, Size, MOST_RECORDS};

const TURNS: usize = 7;
/// A count is to take at most so many times the time of the verdict on the lawful delivery.
const AIM: f64 = 4.0;

fn grid(files: &Files) -> Grid {
    // SAFETY: all work here is done on the thread that main makes, with four times the stack that a judging takes.
    unsafe { canopyrail::grid_here(lent(black_box(files))) }
}

/// Prints a delivery's row and answers its ratio. All three are timed by turns, so that they meet the same state of the machine.
fn row(files: &Files, name: &str, lawful: &Files) -> f64 {
    let counted = grid(files);
    assert_eq!(*counted.rows(), independent::grid(lent(files)), "{name}");
    let (mut ours, mut theirs, mut beside) = (f64::MAX, f64::MAX, f64::MAX);
    for _ in 0..TURNS {
        ours = ours.min(once(|| grid(files)));
        theirs = theirs.min(once(|| independent::grid(lent(black_box(files)))));
        beside = beside.min(once(|| judge(lawful)));
    }
    let (breaks, ratio) = (counted.total(), ours / beside);
    println!("| {name} | {breaks} | {ours:.2} | {theirs:.2} | {beside:.2} | {ratio:.2} |");
    ratio
}

/// All rows, for as many records as a file may have.
pub fn grids() {
    let n = MOST_RECORDS;
    println!("grid, {n} records a file, milliseconds\n");
    println!("| broken | breaks | canopyrail | independent | verdict, the lawful one | to that verdict |");
    println!("|---|---|---|---|---|---|");
    let drawn = |size| lawful(&mut Random::new(n as u64), size);
    let (plain, composed) = (drawn(Size::Exact(n)), drawn(Size::Composed(n)));
    let most = rows(&plain, throughout::all(&plain));
    let most = most.max(rows(&composed, throughout::all_composed(&composed)));
    println!("\nat most {most:.2} times the verdict's time; the aim is {AIM:.0}\n");
}

/// The rows of a lawful delivery and of those made of it, and the highest ratio.
fn rows(lawful: &Model, broken: impl Iterator<Item = Broken>) -> f64 {
    let files = write(lawful);
    let mut most = row(&files, "nothing", &files);
    for (name, _, broken) in broken {
        most = most.max(row(&broken, name, &files));
    }
    most
}
