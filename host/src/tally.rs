//! The breaks of folders, counted and added up.

use canopyrail::{names, Grid, Reason, FILES, GROUPS};
use std::path::Path;

use crate::failure::Failure;
use crate::picture::{grouped, many, sentences};

/// The grids of some folders together, and how many of the folders are accepted and refused.
#[derive(Default)]
pub struct Tally {
    pub grid: Grid,
    pub accepted: usize,
    pub refused: usize,
}

impl Tally {
    /// Adds a folder's grid to those before it.
    pub fn add(&mut self, directory: &Path, grid: &Grid) -> Result<(), Failure> {
        self.grid
            .add(grid)
            .map_err(|refusal| Failure::Adding(directory.into(), refusal))?;
        if grid.is_zero() {
            self.accepted += 1;
        } else {
            self.refused += 1;
        }
        Ok(())
    }

    /// The grid with its files and groups by name and with totals, and what it says.
    pub fn page(&self) -> String {
        format!("{}\n{}", table(&self.grid), sentences(&self.found()))
    }

    fn found(&self) -> String {
        let faults = many(self.grid.total() as usize, "fault");
        let found = match (self.accepted, self.refused) {
            (1, 0) => return "Accepted: no rule is broken.".to_string(),
            (_, 0) => return "All are accepted: no rule is broken.".to_string(),
            (0, 1) => format!("Refused: {faults}."),
            (accepted, refused) => {
                let folders = many(accepted + refused, "folder");
                format!("{folders}: {accepted} accepted, {refused} refused with {faults}.")
            }
        };
        format!(
            "{found} Of a delivery only the first column that has any fault is counted; there may \
             be more in those behind it."
        )
    }
}

/// A row's name, what stands in the column of each group, and what of all groups.
type Row = Vec<String>;

/// The rows and columns under their names, and their totals. A column is as wide as what it holds.
fn table(grid: &Grid) -> String {
    let mut rows = vec![
        row("", |group| names::GROUPS[group - 1].to_string(), "all"),
        row("", reasons, ""),
    ];
    for file in 1..=FILES {
        let count = |group| number(grid.cell(file, group));
        rows.push(row(names::file(file), count, &number(grid.of_file(file))));
    }
    let count = |group| number(grid.of_group(group));
    rows.push(row("all", count, &number(grid.total())));
    let width = |column: usize| rows.iter().map(|row| row[column].len()).max().unwrap_or(0);
    let widths: Vec<usize> = (0..GROUPS + 2).map(width).collect();
    rows.iter().map(|row| line(row, &widths)).collect()
}

fn row(name: &str, of_group: impl Fn(usize) -> String, of_all: &str) -> Row {
    let mut row = vec![name.to_string()];
    row.extend((1..=GROUPS).map(of_group));
    row.push(of_all.to_string());
    row
}

/// The name from the left edge, all else to the right of its column.
fn line(row: &Row, widths: &[usize]) -> String {
    let mut line = format!("{:width$}", row[0], width = widths[0]);
    for (text, width) in row.iter().zip(widths).skip(1) {
        line.push_str(&format!("  {text:>width$}"));
    }
    format!("{}\n", line.trim_end())
}

/// The reasons of a group, from the first to the last.
fn reasons(group: usize) -> String {
    let numbers = Reason::ALL.iter().map(|reason| reason.number());
    let numbers: Vec<u8> = numbers
        .filter(|number| number / 10 == names::TENS[group - 1])
        .collect();
    match numbers.as_slice() {
        [first, .., last] => format!("{first}-{last}"),
        [only] => only.to_string(),
        [] => String::new(),
    }
}

fn number(count: u64) -> String {
    grouped(count as usize)
}

#[cfg(test)]
mod tests {
    use super::*;

    /// A grid with breaks in one cell alone.
    fn of_one(file: usize, group: usize, count: u64) -> Grid {
        let mut rows = [[0; GROUPS]; FILES];
        rows[file - 1][group - 1] = count;
        Grid::new(rows).unwrap()
    }

    #[test]
    fn a_sum_of_more_than_ten_digits_is_told_with_its_folder() {
        let mut tally = Tally::default();
        tally
            .add(Path::new("north"), &of_one(5, 4, 9_999_999_998))
            .unwrap();
        tally.add(Path::new("south"), &of_one(5, 4, 1)).unwrap();
        let before = tally.grid;
        let failure = tally.add(Path::new("west"), &of_one(5, 4, 1)).unwrap_err();
        assert_eq!(
            failure.to_string(),
            "could not add west to those before it: reason 67: a cell of the two grids' sum \
             is over 9,999,999,999"
        );
        assert_eq!((tally.grid, tally.refused), (before, 2));
    }

    #[test]
    fn the_widest_table_fits_its_columns() {
        let mut tally = Tally::default();
        let most = Grid::new([[9_999_999_999; GROUPS]; FILES]).unwrap();
        tally.add(Path::new("all"), &most).unwrap();
        let page = tally.page();
        assert!(page.contains("  479,999,999,952\n"), "{page}");
        let rows: Vec<&str> = page.lines().take(3).collect();
        assert!(rows[2].starts_with("CATALOGO   9,999,999,999   9,999,999,999 "));
        assert_eq!(rows[0].len(), rows[2].len());
        // Counts that a terminal's width is not meant for; those of a test's page fit it.
        assert!(page.lines().all(|line| line.len() <= 125), "{page}");
    }
}
