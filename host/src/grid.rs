//! The breaks of deliveries, counted.

use std::fmt;
use std::io;

use crate::record::refused;
use crate::{calls, Refusal, FILES, GROUPS};

/// The breaks of a delivery, or of many together, counted: a row for each file, and in it a cell for
/// each group of reasons (10 to 11, 20 to 25, 30, 40 to 41, 50 to 59, 70).
///
/// Of one delivery only the lowest group is counted that has any break, since a rule of a higher one
/// is not read then; every break of that group is counted once. So the grid is all zeros exactly if
/// the delivery is accepted.
///
/// No cell is over 9,999,999,999, so that it has ten digits and no sum of cells overflows.
///
/// ```
/// use canopyrail::{grid, Grid, FILES};
///
/// let accepted = grid([&[]; FILES]);
/// assert!(accepted.is_zero());
/// // OB_COMP, the last file, has no whole record.
/// let broken = grid([&[], &[], &[], &[], &[], &[], &[], b"0000000001|"]);
/// assert_eq!(broken.cell(8, 1), 1);
///
/// let mut both = Grid::default();
/// both.add(&accepted)?;
/// both.add(&broken)?;
/// assert_eq!((both.of_file(8), both.of_group(1), both.total()), (1, 1, 1));
/// # Ok::<(), canopyrail::Refusal>(())
/// ```
#[must_use = "a delivery whose grid is not zero may not be used"]
#[derive(Clone, Copy, Debug, Default, PartialEq, Eq, Hash)]
pub struct Grid {
    rows: calls::Rows,
}

impl Grid {
    /// A grid of these rows, as were kept of another.
    ///
    /// # Errors
    ///
    /// 67, where a cell is over 9,999,999,999.
    pub fn new(rows: [[u64; GROUPS]; FILES]) -> Result<Grid, Refusal> {
        let mut grid = Grid::default();
        grid.add_rows(&rows)?;
        Ok(grid)
    }

    /// The row of file f at index f - 1, and in it the cell of group g at index g - 1.
    #[must_use]
    pub const fn rows(&self) -> &[[u64; GROUPS]; FILES] {
        &self.rows
    }

    /// The breaks of a file, from 1, in a group, 1 to 6 in the order of their tens; 0 where there is
    /// no such cell.
    #[must_use]
    pub fn cell(&self, file: usize, group: usize) -> u64 {
        self.row(file)
            .and_then(|row| row.get(group.checked_sub(1)?))
            .copied()
            .unwrap_or(0)
    }

    /// The breaks of a file; 0 where there is no file of the number.
    #[must_use]
    pub fn of_file(&self, file: usize) -> u64 {
        self.row(file).map_or(0, |row| row.iter().sum())
    }

    /// The breaks in a group; 0 where there is no group of the number.
    #[must_use]
    pub fn of_group(&self, group: usize) -> u64 {
        (1..=FILES).map(|file| self.cell(file, group)).sum()
    }

    /// The breaks in all.
    #[must_use]
    pub fn total(&self) -> u64 {
        self.rows.iter().flatten().sum()
    }

    /// Whether there is no break: of one delivery, whether it is accepted.
    #[must_use]
    pub fn is_zero(&self) -> bool {
        self.total() == 0
    }

    /// Adds another grid, cell by cell.
    ///
    /// # Errors
    ///
    /// 67, where a cell's sum is over 9,999,999,999; both grids are then as they were.
    pub fn add(&mut self, other: &Grid) -> Result<(), Refusal> {
        self.add_rows(&other.rows)
    }

    fn add_rows(&mut self, rows: &calls::Rows) -> Result<(), Refusal> {
        refused(calls::grid_add(&mut self.rows, rows))
    }

    fn row(&self, file: usize) -> Option<&[u64; GROUPS]> {
        self.rows.get(file.checked_sub(1)?)
    }
}

/// The grid program's eight rows, without the last one's line feed.
impl fmt::Display for Grid {
    fn fmt(&self, out: &mut fmt::Formatter<'_>) -> fmt::Result {
        let row = |cells: [u64; GROUPS]| cells.map(|count| format!("{count:010}")).join(" ");
        write!(out, "{}", self.rows.map(row).join("\n"))
    }
}

/// The grid program's eight rows, each with its line feed: six counts of ten digits, with single
/// blanks between.
#[must_use]
pub fn rows(grid: &Grid) -> String {
    format!("{grid}\n")
}

/// Counts the breaks of a delivery by the bytes of its eight files, in any state; an absent file is
/// an empty one.
///
/// As [`judge`](crate::judge) it runs on a thread of its own, and may be called on any.
///
/// # Panics
///
/// Where no thread can be made, as [`std::thread::spawn`] does. [`try_grid`] gives an error then.
pub fn grid(files: [&[u8]; FILES]) -> Grid {
    try_grid(files).expect("a thread to judge on")
}

/// As [`grid()`]; where no thread can be made it gives the system's error.
///
/// # Errors
///
/// Only where no thread can be made.
pub fn try_grid(files: [&[u8]; FILES]) -> io::Result<Grid> {
    calls::grid(&files).map(|rows| Grid { rows })
}

/// As [`grid()`], on the caller's own stack, as [`judge_here`](crate::judge_here) judges.
///
/// # Safety
///
/// The thread must have [`STACK`](crate::STACK) bytes of stack left.
#[allow(unsafe_code)]
pub unsafe fn grid_here(files: [&[u8]; FILES]) -> Grid {
    // SAFETY: the caller's promise is the one that the call asks for.
    let rows = unsafe { calls::grid_here(&files) };
    Grid { rows }
}
