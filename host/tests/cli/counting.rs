//! Breaks counted: what `grid` prints, and the safe functions behind it.

use canopyrail::{Grid, Reason, Refusal, FILES, GROUPS};
use std::ffi::OsStr;
use std::fs;

use crate::build::{s, Files, NODO, OB_COMP, OB_LIN, OB_PUN, TRAMO, VERTICE};
use crate::run::{flowing, grid, judge, run, Room, Run};

/// The rows that have these counts, each with its file and group, and zeros elsewhere.
fn rows(counts: &[(usize, usize, u64)]) -> String {
    let mut rows = [["0000000000"; 6]; 8].map(|row| row.map(String::from));
    for (file, group, count) in counts {
        rows[file - 1][group - 1] = format!("{count:010}");
    }
    rows.map(|row| row.join(" ") + "\n").concat()
}

/// S with a second name for each of its nodes' places, and with its tramo's ends exchanged: 54 twice, 52 and 53.
fn astray() -> Files {
    s().node("0000000003", "000000100", "0000000200")
        .node("0000000004", "000000140", "0000000200")
        .set(TRAMO, 1, 6, "0000000002")
        .set(TRAMO, 1, 7, "0000000001")
}

/// S without its nodes: neither end of its tramo is there.
fn no_nodes() -> Files {
    s().absent(NODO)
}

/// S with its object in one composite, and two more that nothing names.
fn ungrouped() -> Files {
    s().set(OB_LIN, 1, 2, "0000000009")
        .composite("0000000008")
        .composite("0000000009")
        .composite("0000000000")
}

#[test]
fn every_break_of_the_lowest_ten_is_counted() {
    let mut ragged = s().append(OB_PUN, b"0").append(NODO, b"00");
    ragged.bytes[VERTICE - 1][53] = b' ';
    let cases = [
        (Files::default(), vec![]),
        (s(), vec![]),
        // 11 twice; that a vertex has no end is of the twenties
        (ragged, vec![(OB_PUN, 1, 1), (NODO, 1, 1)]),
        // 21 and 22 at one field, 24 at the sign of Z beside a Z
        (
            s().poke(NODO, 1, 10, b";")
                .set(NODO, 1, 1, "         1")
                .set(NODO, 2, 8, "00000007")
                .set(OB_LIN, 1, 4, " name"),
            vec![(NODO, 2, 3), (OB_LIN, 2, 1)],
        ),
        // one for each later record that has an equal earlier one, and not for each pair
        (
            s().node("0000000001", "000000000", "0000000000")
                .node("0000000001", "000000000", "0000000000")
                .set(NODO, 2, 1, "0000000001"),
            vec![(NODO, 3, 3)],
        ),
        (no_nodes(), vec![(TRAMO, 4, 2)]),
        (astray(), vec![(TRAMO, 5, 2), (NODO, 5, 2)]),
        // the seventies are the sixth group
        (ungrouped(), vec![(OB_COMP, 6, 2)]),
    ];
    for (files, counts) in cases {
        let room = Room::holding_all(&files);
        let counted = grid(&room.path);
        assert_eq!(counted.out, rows(&counts), "{counts:?}");
        assert_eq!(counted.err, "");
        assert_eq!(counted.status, judge(&room.path).status);
        let grid = canopyrail::grid(files.slices());
        assert_eq!(canopyrail::rows(&grid), counted.out);
        assert_eq!(grid.is_zero(), counts.is_empty());
        let total: u64 = counts.iter().map(|(_, _, count)| count).sum();
        assert_eq!(grid.total(), total);
        for (file, group, count) in counts {
            assert_eq!(grid.cell(file, group), count);
            assert_eq!(grid.of_file(file), count);
            assert_eq!(grid.of_group(group), total);
        }
    }
}

#[test]
fn cells_that_are_not_there() {
    let grid = Grid::new([[1; GROUPS]; FILES]).unwrap();
    assert_eq!(
        (grid.of_file(1), grid.of_group(6), grid.total()),
        (6, 8, 48)
    );
    for none in [0, 9, usize::MAX] {
        assert_eq!((grid.of_file(none), grid.of_group(none)), (0, 0));
        assert_eq!((grid.cell(none, 1), grid.cell(1, none)), (0, 0));
    }
}

fn of_one(count: u64) -> Result<Grid, Refusal> {
    let mut rows = [[0; GROUPS]; FILES];
    rows[7][5] = count;
    Grid::new(rows)
}

#[test]
fn sums_have_ten_digits_at_most() {
    let most = 9_999_999_999;
    let refusal = Refusal {
        reason: Reason::SumTooLarge,
        field: 0,
    };
    for over in [most + 1, 1 << 63, u64::MAX] {
        assert_eq!(of_one(over), Err(refusal));
    }
    let mut sum = of_one(most - 1).unwrap();
    let one = of_one(1).unwrap();
    assert_eq!(sum.add(&one), Ok(()));
    assert_eq!(sum.cell(8, 6), most);
    assert!(canopyrail::rows(&sum).ends_with(" 0000000000 9999999999\n"));
    let before = sum;
    assert_eq!(sum.add(&one), Err(refusal));
    assert_eq!((sum, one), (before, of_one(1).unwrap()));
    let copy = sum;
    assert_eq!(sum.add(&copy), Err(refusal));
    assert_eq!(
        refusal.to_string(),
        "reason 67: a cell of the two grids' sum is over 9,999,999,999"
    );
}

fn counted(options: &[&str], rooms: &[&Room]) -> Run {
    let words = ["grid"].iter().chain(options).map(OsStr::new);
    let paths = rooms.iter().map(|room| room.path.as_os_str());
    run(&words.chain(paths).collect::<Vec<_>>())
}

#[test]
fn several_folders_are_added_up() {
    let fine = Room::holding(&s());
    let (first, second) = (Room::holding(&astray()), Room::holding(&no_nodes()));
    let all = counted(&[], &[&first, &fine, &second, &first]);
    assert_eq!((all.status, all.err.as_str()), (1, ""));
    let sum = [(TRAMO, 4, 2), (TRAMO, 5, 4), (NODO, 5, 4)];
    assert_eq!(all.out, rows(&sum));
    let both = counted(&[], &[&fine, &fine]);
    assert_eq!((both.status, both.out), (0, rows(&[])));
    // Where one can't be judged there is no sum.
    let bad = Room::holding(&s());
    fs::create_dir(bad.file(OB_PUN)).unwrap();
    for rooms in [[&bad, &first], [&first, &bad]] {
        let none = counted(&[], &rooms);
        assert_eq!((none.status, none.out.as_str()), (2, ""));
        assert!(none.err.ends_with("/OB_PUN: a directory, not a file\n"));
    }
}

#[test]
fn each_folder_is_warned_of() {
    let (fine, bare, empty) = (Room::holding(&s()), Room::new(), Room::new());
    let warned = counted(&[], &[&bare, &fine, &empty]);
    assert_eq!((warned.status, warned.out), (0, rows(&[])));
    let folders = [&bare, &empty].map(|room| room.path.display().to_string());
    let lines: Vec<&str> = warned.err.lines().collect();
    assert_eq!(lines.len(), 2);
    for (line, folder) in lines.iter().zip(&folders) {
        assert!(line.starts_with(&format!("canopyrail: warning: {folder}: none of the files")));
    }
    let strict = counted(&["--strict"], &[&fine, &empty]);
    assert_eq!((strict.status, strict.out.as_str()), (2, ""));
    assert!(strict.err.contains(&folders[1]));
}

#[test]
fn in_words_files_and_groups_have_names_and_totals() {
    let (first, second) = (Room::holding(&astray()), Room::holding(&no_nodes()));
    let third = Room::holding(&ungrouped());
    let page = counted(&["--words"], &[&first, &second, &third]);
    assert_eq!((page.status, page.err.as_str()), (1, ""));
    assert!(page.out.is_ascii() && page.out.lines().all(|line| line.len() <= 100));
    let text = flowing(&page.out);
    for words in [
        "shape fields keys references lines and nodes composites all 10-11 20-25 30 40-41 50-59 70 CATALOGO 0 0",
        "OB_LIN 0 0 0 0 0 0 0 TRAMO 0 0 0 2 2 0 4 VERTICE 0 0 0 0 0 0 0 NODO 0 0 0 0 2 0 2",
        "OB_COMP 0 0 0 0 0 2 2 all 0 0 0 2 4 2 8",
        "3 folders: 0 accepted, 3 refused with 8 faults.",
        "there may be more in those behind it.",
    ] {
        assert!(text.contains(words), "no '{words}' in\n{}", page.out);
    }
    let one = flowing(&counted(&["--words"], &[&second]).out);
    assert!(one.contains("Refused: 2 faults."), "{one}");
    let fine = Room::holding(&s());
    for (rooms, words) in [
        (vec![&fine], "Accepted: no rule is broken."),
        (vec![&fine, &fine], "All are accepted: no rule is broken."),
    ] {
        let page = counted(&["--words"], &rooms);
        assert_eq!(page.status, 0);
        assert!(
            page.out.ends_with(&format!("\n\n{words}\n")),
            "{}",
            page.out
        );
    }
}
