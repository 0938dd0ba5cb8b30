//! What a folder may hold, and what makes it look like another than was meant.

use std::ffi::OsStr;
use std::fs;
use std::os::unix::fs::symlink;
use std::path::Path;
use std::process::Command;

use crate::build::{s, Files, NAMES, NODO, OB_TEX};
use crate::run::{explain, grid, judge, run, run_in_time, show, Room, Run};

#[test]
fn what_cannot_be_judged() {
    let room = Room::holding(&s());
    fs::create_dir(room.file(OB_TEX)).unwrap();
    for page in [judge(&room.path), explain(&room.path), grid(&room.path)] {
        assert_eq!((page.status, page.out.as_str()), (2, ""));
        assert!(
            page.err.starts_with("canopyrail: could not judge: "),
            "{}",
            page.err
        );
        assert!(page.err.contains("/OB_TEX: "), "{}", page.err);
    }
    // Neither a directory that isn't there nor a file in its place is a delivery of no files.
    let missing = judge(&room.path.join("nowhere"));
    assert_eq!((missing.status, missing.out.as_str()), (2, ""));
    assert!(missing.err.contains("nowhere: "), "{}", missing.err);
    let file = judge(&room.file(NODO));
    assert_eq!((file.status, file.out.as_str()), (2, ""));
    assert!(file.err.contains("not a directory"), "{}", file.err);
}

fn make_pipe(path: &Path) {
    let made = Command::new("mkfifo").arg(path).status().unwrap();
    assert!(made.success());
}

/// Opening a pipe that nobody writes to would wait forever.
#[test]
fn a_pipe_is_no_file() {
    let room = Room::holding(&s());
    fs::remove_file(room.file(NODO)).unwrap();
    make_pipe(&room.file(NODO));
    let (folder, file) = (room.path.as_os_str(), room.file(NODO));
    for words in [
        &[OsStr::new("judge"), folder][..],
        &[OsStr::new("explain"), folder],
        &[OsStr::new("grid"), folder],
        &[OsStr::new("show"), file.as_os_str(), OsStr::new("1")],
    ] {
        let page = run_in_time(words);
        assert_eq!((page.status, page.out.as_str()), (2, ""));
        assert!(
            page.err.ends_with("/NODO: a pipe, not a file\n"),
            "{}",
            page.err
        );
    }
}

#[test]
fn a_device_is_no_file() {
    let room = Room::holding(&s());
    fs::remove_file(room.file(NODO)).unwrap();
    symlink("/dev/zero", room.file(NODO)).unwrap();
    for page in [judge(&room.path), show(&room.file(NODO), "1")] {
        assert_eq!((page.status, page.out.as_str()), (2, ""));
        assert!(
            page.err.ends_with("/NODO: a device, not a file\n"),
            "{}",
            page.err
        );
    }
}

#[test]
fn a_link_is_followed_and_a_dead_one_is_no_absent_file() {
    let room = Room::holding(&s());
    let there = room.path.join("nodes");
    fs::rename(room.file(NODO), &there).unwrap();
    symlink(&there, room.file(NODO)).unwrap();
    assert_eq!(judge(&room.path).status, 0);
    fs::remove_file(&there).unwrap();
    for page in [judge(&room.path), show(&room.file(NODO), "1")] {
        assert_eq!((page.status, page.out.as_str()), (2, ""));
        assert!(
            page.err
                .ends_with("/NODO: a link to something that is not there\n"),
            "{}",
            page.err
        );
    }
    let folder = room.path.join("folder");
    symlink("nowhere", &folder).unwrap();
    assert_eq!(judge(&folder).status, 2);
}

fn strict(command: &str, path: &Path) -> Run {
    run(&[
        OsStr::new(command),
        OsStr::new("--strict"),
        path.as_os_str(),
    ])
}

/// The line stays as document 01 has it; the warning says what may be wrong.
fn check_doubt(room: &Room, line: &str, doubts: &[&str]) {
    let warnings: Vec<String> = doubts
        .iter()
        .map(|doubt| {
            let path = room.path.display();
            format!("canopyrail: warning: {path}: {doubt}\n")
        })
        .collect();
    let status = i32::from(line.starts_with("NO"));
    for page in [judge(&room.path), explain(&room.path)] {
        assert_eq!(page.err, warnings.concat());
        assert_eq!(page.out.lines().next(), Some(line));
        assert_eq!(page.status, status);
    }
    let counted = grid(&room.path);
    assert_eq!((counted.err, counted.status), (warnings.concat(), status));
    for command in ["judge", "explain", "grid"] {
        let page = strict(command, &room.path);
        assert_eq!((page.status, page.out.as_str()), (2, ""));
        assert!(page.err.starts_with("canopyrail: could not judge: "));
        for doubt in doubts {
            assert!(page.err.contains(doubt), "{}", page.err);
        }
    }
}

const NONE: &str =
    "none of the files CATALOGO, OB_PUN, OB_TEX, OB_LIN, TRAMO, VERTICE, NODO, OB_COMP is there";
const EMPTY: &str = "OK 00000 00000 00000 00000 00000 00000 00000 00000";

fn found(file: &str, names: &str) -> String {
    format!(
        "{file} is not there; found in its place: {names} (a file's name is in capitals and has \
         no ending)"
    )
}

#[test]
fn a_folder_without_files_is_doubtful() {
    let room = Room::new();
    check_doubt(&room, EMPTY, &[NONE]);
    fs::write(room.path.join("README"), b"").unwrap();
    check_doubt(&room, EMPTY, &[NONE]);
    let page = explain(&room.path);
    assert!(page
        .out
        .contains("    NODO         0 records (no such file)\n"));
}

#[test]
fn names_in_another_case_or_with_an_ending_are_doubtful() {
    let room = Room::holding(&s());
    for (file, name) in NAMES.iter().enumerate() {
        if !s().bytes[file].is_empty() {
            fs::rename(room.file(file + 1), room.path.join(name.to_lowercase())).unwrap();
        }
    }
    let told = ["CATALOGO", "OB_LIN", "TRAMO", "VERTICE", "NODO"];
    let told = told.map(|file| found(file, &format!("'{}'", file.to_lowercase())));
    let mut doubts = vec![NONE];
    doubts.extend(told.iter().map(String::as_str));
    check_doubt(&room, EMPTY, &doubts);
}

#[test]
fn one_file_of_another_name_is_doubtful() {
    let without = "NO 40 5 00001 06";
    for name in ["nodo", "NODO.TXT", "Nodo.nod", "NODO;1", "nodo (2)"] {
        let room = Room::holding(&s());
        fs::rename(room.file(NODO), room.path.join(name)).unwrap();
        check_doubt(&room, without, &[&found("NODO", &format!("'{name}'"))]);
    }
    let room = Room::holding(&s());
    fs::rename(room.file(NODO), room.path.join("NODO.TXT")).unwrap();
    fs::write(room.path.join("NODO.BAK"), b"").unwrap();
    check_doubt(&room, without, &[&found("NODO", "'NODO.BAK', 'NODO.TXT'")]);
}

#[test]
fn what_is_not_doubtful() {
    let room = Room::holding(&s());
    // Beside a file that is there, and names that only begin alike.
    for name in ["NODO.BAK", "nodo", "OB_TEXT", "OB_PUN2", "OB_TEX_OLD"] {
        fs::write(room.path.join(name), b"").unwrap();
    }
    for page in [judge(&room.path), strict("judge", &room.path)] {
        assert_eq!((page.status, page.err.as_str()), (0, ""));
    }
    let room = Room::holding_all(&Files::default());
    assert_eq!(strict("judge", &room.path).out, format!("{EMPTY}\n"));
}

#[test]
fn a_missing_file_is_an_empty_one() {
    let room = Room::holding(&s());
    fs::remove_file(room.file(NODO)).unwrap();
    let absent = judge(&room.path);
    assert_eq!(
        (absent.status, absent.out.as_str()),
        (1, "NO 40 5 00001 06\n")
    );
    fs::write(room.file(NODO), b"").unwrap();
    let empty = judge(&room.path);
    assert_eq!(
        (empty.status, empty.out.as_str()),
        (1, "NO 40 5 00001 06\n")
    );
}
