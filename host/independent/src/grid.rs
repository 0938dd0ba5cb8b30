//! All breaks of a delivery, counted: requests W-201 and W-204.

use crate::breaks::{Break, Listener};
use crate::layout::FILES;
use crate::rules;

/// The tens that reasons of a delivery have, a column each. The sixties belong
/// to single records.
pub const TENS: [u8; 6] = [1, 2, 3, 4, 5, 7];

/// Counts of breaks: a row for each file, and in it a count for each ten.
pub type Grid = [[u64; TENS.len()]; FILES];

/// The most that a cell of a sum may hold: ten digits are printed of it.
const MOST: u64 = 9_999_999_999;

/// Counts every break of the lowest ten that has any, all else zero.
pub fn grid(files: [&[u8]; FILES]) -> Grid {
    let mut count = Count {
        grid: [[0; TENS.len()]; FILES],
        any: false,
    };
    match rules::check(files, &mut count) {
        Ok(()) | Err(Counted) => count.grid,
    }
}

/// Adds a grid to another, cell by cell. Where a sum would pass ten digits it
/// is refused, reason 67, and nothing is changed.
#[must_use]
pub fn add(into: &mut Grid, from: &Grid) -> bool {
    let mut sums = *into;
    for (cell, more) in sums.iter_mut().flatten().zip(from.iter().flatten()) {
        match cell.checked_add(*more) {
            Some(sum) if sum <= MOST => *cell = sum,
            _ => return false,
        }
    }
    *into = sums;
    true
}

/// Counts the breaks of a ten to its end.
struct Count {
    grid: Grid,
    any: bool,
}

/// A ten that has breaks was counted.
struct Counted;

impl Listener for Count {
    type Stop = Counted;

    fn hear(&mut self, found: Break) -> Result<(), Counted> {
        for (cell, ten) in self.grid[found.file - 1].iter_mut().zip(TENS) {
            *cell += u64::from(ten == found.reason / 10);
        }
        self.any = true;
        Ok(())
    }

    fn end_ten(&mut self) -> Result<(), Counted> {
        if self.any {
            Err(Counted)
        } else {
            Ok(())
        }
    }
}
