//! What is stored is what the program makes, and covers what it should.

use std::collections::{BTreeMap, BTreeSet};
use std::fs;
use std::path::{Path, PathBuf};
use vectors::{folder, judged, line, stated, vectors, Stated, Stored, ROOM};

const MAKE: &str = "cargo run -p vectors --manifest-path host/Cargo.toml writes it";

fn root() -> PathBuf {
    Path::new(env!("CARGO_MANIFEST_DIR")).join("../..")
}

/// The bytes themselves are too many to print.
fn is_stored((path, bytes): Stored) {
    let stored = fs::read(root().join(&path)).unwrap_or_default();
    assert!(stored == bytes, "{} is another: {MAKE}", path.display());
}

#[test]
fn the_programs_vectors_are_stored() {
    vectors().into_iter().for_each(is_stored);
}

#[test]
fn each_folder_of_samples_is_stored() {
    let by_name: BTreeMap<_, _> = stated().into_iter().map(|s| (s.name, s)).collect();
    let mut files = 0;
    for entry in fs::read_dir(root().join("samples")).unwrap() {
        let path = entry.unwrap().path();
        let name = path.file_name().unwrap().to_str().unwrap();
        let sample = by_name
            .get(name)
            .unwrap_or_else(|| panic!("{name} isn't stated"));
        let made = folder(sample);
        assert_eq!(
            made.len(),
            fs::read_dir(&path).unwrap().count(),
            "{name}: {MAKE}"
        );
        files += made.len();
        made.into_iter().for_each(is_stored);
    }
    assert!(files > 0, "there are no samples");
}

/// How a sample's name says that its line begins.
fn promised(name: &str) -> String {
    let first = name.split('-').next().unwrap_or("");
    match first.strip_prefix('r').map(str::parse::<u8>) {
        Some(Ok(reason)) => format!("NO {reason}"),
        _ if first == "ok" => "OK".to_string(),
        _ => String::new(),
    }
}

#[test]
fn the_independent_checker_says_what_was_stated_by_hand() {
    let mut names = BTreeSet::new();
    for Stated { name, line, files } in stated() {
        assert!(names.insert(name), "{name} is stated twice");
        assert_eq!(vectors::line(&files), format!("{line}\n"), "{name}");
        assert!(line.starts_with(&promised(name)), "{name}: {line}");
    }
}

/// Counts of breaks, each with its file and group from 1.
type Counts = [(usize, usize, u64)];

/// Zeros but for these counts.
fn rows(counts: &Counts) -> String {
    let mut rows = [["0000000000"; 6]; 8].map(|row| row.map(String::from));
    for (file, group, count) in counts {
        rows[file - 1][group - 1] = format!("{count:010}");
    }
    rows.map(|row| row.join(" ") + "\n").concat()
}

/// Of samples with several breaks the grids too are stated by hand.
#[test]
fn the_independent_checker_counts_what_was_stated_by_hand() {
    let of_name: BTreeMap<_, _> = stated().into_iter().map(|s| (s.name, s.files)).collect();
    let grids: [(&str, &Counts); 28] = [
        ("rich", &[]),
        ("r11-lowest-of-two-files", &[(2, 1, 1), (4, 1, 1)]),
        ("r20-lowest-file-first", &[(2, 2, 1), (3, 2, 1)]),
        ("r21-all-bars-are-commas", &[(7, 2, 7)]),
        ("r24-centroid-one-sign-alone", &[(4, 2, 3)]),
        // 23 at the sign and 24 at its number
        ("r23-sign-of-a-no-break-blank-beside-no-z", &[(7, 2, 2)]),
        // the texts that aren't missing
        (
            "r23-all-names-filled-with-no-break-blanks",
            &[(1, 2, 15), (2, 2, 3), (3, 2, 2), (4, 2, 3)],
        ),
        ("case-04", &[(6, 5, 2)]),
        ("case-08", &[(7, 3, 1)]),
        // 54 and 56 at one node
        ("r54-before-56-at-one-node", &[(7, 5, 2)]),
        (
            "r57-before-52-53-54-56-58",
            &[(4, 5, 1), (5, 5, 2), (7, 5, 3)],
        ),
        // its code agrees with what it is
        ("r56-a-for-a-node-of-one-point", &[(7, 5, 1)]),
        ("r56-before-58-at-one-node", &[(7, 5, 2)]),
        ("r58-all-codes-exchanged", &[(7, 5, 5)]),
        ("r58-before-56-of-a-later-node", &[(7, 5, 2)]),
        ("r53-end-by-its-id-alone", &[(5, 5, 1)]),
        // 52, 50 and 51, and 58 at node 1
        ("r52-counted-from-0", &[(5, 5, 1), (6, 5, 2), (7, 5, 1)]),
        // nodes 3 and 4
        ("ejemplo-10-5-nodos", &[(7, 5, 2)]),
        ("ok-composites", &[]),
        ("r24-composite-z-alone", &[(8, 2, 4)]),
        ("r30-composite-0-three-times", &[(8, 3, 2)]),
        (
            "r40-all-composites-lost",
            &[(2, 4, 2), (3, 4, 2), (4, 4, 2)],
        ),
        ("r41-catalogue-c-changed-to-l", &[(8, 4, 2)]),
        ("r41-before-40-of-a-later-composite", &[(8, 4, 2)]),
        // the seventies are the sixth group
        ("r70-members-lost", &[(8, 6, 1)]),
        ("r70-two-of-four", &[(8, 6, 2)]),
        ("r70-no-object-names-any", &[(8, 6, 2)]),
        // four composites besides, which nobody counts yet
        ("r58-before-70", &[(7, 5, 1)]),
    ];
    for (name, counts) in grids {
        assert_eq!(vectors::grid(&of_name[name]), rows(counts), "{name}");
    }
}

#[test]
fn records_are_written_as_the_documents_print_them() {
    let files = |name| stated().into_iter().find(|s| s.name == name).unwrap().files;
    // document 01 prints node 1 of S
    let node = b"0000000001| |+|000000100|+|0000000200| |        \r\n";
    assert!(files("s")[6].starts_with(node));
    // source 000's example 10.2 has its files' sizes in its metadata (lines 3154 to 3201)
    let sizes = files("ejemplo-10-2").map(|bytes| bytes.len());
    assert_eq!(sizes, [931, 298, 144, 512, 462, 864, 300, 0]);
    // example 10.3 that of its composite (line 3532)
    let lake = &files("ejemplo-10-3-compuesto")[7];
    assert_eq!(lake.len(), 117);
    assert!(lake.starts_with(b"0000000001|0300100|Lago Mayor "));
}

#[test]
fn every_reason_comes_up_and_all_fits_the_programs_room() {
    let lines: Vec<String> = judged().iter().map(line).collect();
    let told = |start: &str| lines.iter().filter(|line| line.starts_with(start)).count();
    // 59 can't come first: the reference to a line without a vertex is 40
    for reason in [
        10, 11, 20, 21, 22, 23, 24, 25, 30, 40, 41, 50, 51, 52, 53, 54, 55, 56, 57, 58, 70,
    ] {
        assert!(
            told(&format!("NO {reason}")) > 0,
            "reason {reason} never came up"
        );
    }
    println!("{} deliveries, {} accepted", lines.len(), told("OK"));
    assert!(lines.len() >= 369 && told("OK") >= 90);
    let [(_, stdin), ..] = vectors();
    println!("{} of {ROOM} bytes", stdin.len());
    assert!(stdin.len() <= ROOM);
}
