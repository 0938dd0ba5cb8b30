//! What the command says of itself, of words it doesn't know, and where it says it.

use std::ffi::{OsStr, OsString};
use std::fs::{self, File};
use std::os::unix::ffi::{OsStrExt, OsStringExt};
use std::os::unix::io::OwnedFd;
use std::os::unix::net::UnixStream;
use std::path::Path;
use std::process::{Command, Stdio};

use crate::build::{s, NODO};
use crate::run::{command, judge, run, show, Room};

#[test]
fn help_and_version() {
    let general = run(&["--help"]);
    assert_eq!((general.status, general.err.as_str()), (0, ""));
    for words in [
        "judge [--strict] DIR",
        "explain [--strict] DIR",
        "grid [--strict] [--words] DIR...",
        "show [--as NAME] FILE RECORD",
        "exit status",
        "example",
    ] {
        assert!(general.out.contains(words), "{words}");
    }
    for words in [&["-h"][..], &["help"], &["help", "help"]] {
        assert_eq!(run(words).out, general.out);
    }
    for command in ["judge", "explain", "grid", "show"] {
        let page = run(&["help", command]);
        assert_eq!(page.status, 0);
        assert!(page
            .out
            .starts_with(&format!("usage: canopyrail {command} ")));
        assert!(page.out.contains("exit status:") && page.out.contains("example"));
        assert_eq!(run(&[command, "--help"]).out, page.out);
        assert_eq!(run(&[command, "-h"]).out, page.out);
        assert!(page.out.is_ascii() && page.out.lines().all(|line| line.len() <= 100));
    }
    for word in ["--version", "-V"] {
        let version = run(&[word]);
        assert_eq!(
            (version.status, version.out),
            (0, format!("canopyrail {}\n", env!("CARGO_PKG_VERSION")))
        );
    }
}

#[test]
fn unknown_words() {
    let wrong: [&[&str]; 19] = [
        &[],
        &["check"],
        &["judge"],
        &["judge", "a", "b"],
        &["judge", "--fast", "a"],
        &["explain"],
        &["show"],
        &["show", "NODO"],
        &["show", "NODO", "1", "2"],
        &["show", "NODO", "1", "--as"],
        &["help", "check"],
        &["judge", ""],
        &["show", "", "1"],
        &["show", "--strict", "NODO", "1"],
        &["judge", "--as=NODO", "a"],
        &["judge", "--words", "a"],
        &["grid"],
        &["grid", "a", ""],
        &["grid", "--as=NODO", "a"],
    ];
    for words in wrong {
        let page = run(words);
        assert_eq!((page.status, page.out.as_str()), (2, ""), "{words:?}");
        assert!(
            page.err.starts_with("canopyrail: ")
                && page.err.contains("usage: canopyrail judge [--strict] DIR"),
            "{}",
            page.err
        );
    }
}

#[test]
fn paths_that_are_no_text() {
    let name = OsString::from_vec(b"entrega-\xF1\x1B".to_vec());
    let room = Room::named(&name);
    room.put(&s());
    assert_eq!(
        judge(&room.path).out,
        "OK 00002 00000 00000 00001 00001 00002 00002 00000\n"
    );
    assert_eq!(show(&room.file(NODO), "1").status, 0);
    let missing = judge(&room.path.join(OsStr::from_bytes(b"\xFF")));
    assert_eq!(missing.status, 2);
    assert!(
        missing.err.contains("entrega-\\xF1\\x1B") && missing.err.contains("/\\xFF: "),
        "{}",
        missing.err
    );
    let unknown = run(&[OsStr::from_bytes(b"\xFF\xFE")]);
    assert_eq!(unknown.status, 2);
    assert!(unknown.err.contains("'\\xFF\\xFE'"), "{}", unknown.err);
    // A directory whose name looks like an option.
    let dashed = room.path.join("-d");
    fs::create_dir(&dashed).unwrap();
    let output = command(&["judge", "--", "-d"])
        .current_dir(&room.path)
        .output()
        .unwrap();
    assert_eq!(
        output.stdout,
        b"OK 00000 00000 00000 00000 00000 00000 00000 00000\n"
    );
}

#[test]
fn a_reader_that_went_away() {
    let room = Room::holding(&s().set(NODO, 2, 4, "000000141"));
    for command_name in ["judge", "explain", "grid"] {
        // The other end is closed before the command writes, as by a reader that has left.
        let (output, reader) = UnixStream::pair().unwrap();
        drop(reader);
        let mut command = command(&[OsStr::new(command_name), room.path.as_os_str()]);
        let child = command
            .stdout(Stdio::from(OwnedFd::from(output)))
            .stderr(Stdio::piped());
        let ended = child.spawn().unwrap().wait_with_output().unwrap();
        assert_eq!(
            (ended.status.code(), ended.stderr.as_slice()),
            (Some(1), &b""[..])
        );
    }
    let (errors, reader) = UnixStream::pair().unwrap();
    drop(reader);
    let mut command = command(&["judge", "/nowhere/at/all"]);
    let child = command
        .stdout(Stdio::null())
        .stderr(Stdio::from(OwnedFd::from(errors)));
    assert_eq!(child.status().unwrap().code(), Some(2));
}

#[test]
fn an_output_that_is_full() {
    let full = File::options().write(true).open("/dev/full").unwrap();
    let room = Room::holding(&s());
    let mut command = command(&[OsStr::new("judge"), room.path.as_os_str()]);
    let ended = command
        .stdout(Stdio::from(full))
        .stderr(Stdio::piped())
        .spawn()
        .unwrap()
        .wait_with_output()
        .unwrap();
    assert_eq!(ended.status.code(), Some(2));
    assert_eq!(
        ended.stderr,
        b"canopyrail: could not write: No space left on device\n"
    );
}

#[test]
fn an_empty_path_is_told_as_such() {
    for words in [
        &["judge", ""][..],
        &["explain", ""],
        &["grid", ""],
        &["show", "", "1"],
    ] {
        let page = run(words);
        assert!(page.err.contains("the path given is empty"), "{}", page.err);
    }
}

/// Rust puts /dev/null in the place of a closed standard output; the page would be lost in silence.
#[test]
fn an_output_that_is_closed() {
    let room = Room::holding(&s());
    let ended = |script: &str| {
        let mut shell = Command::new("sh");
        shell.args(["-c", script, "sh", env!("CARGO_BIN_EXE_canopyrail")]);
        shell.arg(&room.path).output().unwrap()
    };
    let closed = ended("exec \"$1\" judge \"$2\" >&-");
    assert_eq!(
        (closed.status.code(), closed.stderr.as_slice()),
        (
            Some(2),
            &b"canopyrail: could not write: standard output is closed\n"[..]
        )
    );
    // To throw the line away is the caller's right: the status tells the verdict.
    for script in [
        "exec \"$1\" judge \"$2\" >/dev/null",
        "exec \"$1\" judge \"$2\" 1<>/dev/null",
    ] {
        let thrown = ended(script);
        assert_eq!(
            (thrown.status.code(), thrown.stderr.as_slice()),
            (Some(0), &b""[..])
        );
    }
}

#[test]
fn messages_without_the_systems_numbers() {
    let missing = judge(Path::new("/nowhere/at/all"));
    assert_eq!(
        missing.err,
        "canopyrail: could not judge: /nowhere/at/all: No such file or directory\n"
    );
    let unread = show(Path::new("/nowhere/NODO"), "1");
    assert_eq!(
        unread.err,
        "canopyrail: could not show: /nowhere/NODO: No such file or directory\n"
    );
}
