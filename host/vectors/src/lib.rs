//! What the proved programs are tested with: deliveries stated by hand and
//! deliveries that are drawn, and the lines and grids that they should give;
//! and what the calls on one record should answer.
//!
//! `cargo run -p vectors --manifest-path host/Cargo.toml` writes them; a test
//! holds what is stored to what is made here. Nothing of the proved library is
//! linked: the expected lines and grids are the independent checker's, and
//! where a delivery is stated by hand, so is its line.

mod calls;
mod draft;
mod seeded;
mod stated;

pub use seeded::seeded;
pub use stated::{stated, Stated};

use deliveries::{Files, FILES, NAMES};
use std::path::{Path, PathBuf};

/// A file below the repository's root, and what it should hold.
pub type Stored = (PathBuf, Vec<u8>);

/// The bytes that crates/deliveries has room for.
pub const ROOM: usize = 2_097_152;

/// The independent checker's line, with its line feed.
pub fn line(files: &Files) -> String {
    independent::line(&independent::judge(lent(files)))
}

/// The independent checker's grid, a row a file, each with its line feed.
pub fn grid(files: &Files) -> String {
    let rows = independent::grid(lent(files))
        .map(|counts| counts.map(|count| format!("{count:010}")).join(" "));
    format!("{}\n", rows.join("\n"))
}

fn lent(files: &Files) -> [&[u8]; FILES] {
    std::array::from_fn(|file| files[file].as_slice())
}

/// Everything that crates/deliveries judges, in its order.
pub fn judged() -> Vec<Files> {
    let stated = stated().into_iter().map(|sample| sample.files);
    stated.chain(seeded()).collect()
}

/// What crates/deliveries reads and should print, and what crates/writes should.
pub fn vectors() -> [Stored; 3] {
    let all = judged();
    let stdin = all.iter().flat_map(packed).collect();
    let stdout: String = all.iter().map(line).collect();
    [
        ("crates/deliveries/stdin".into(), stdin),
        ("crates/deliveries/stdout".into(), stdout.into_bytes()),
        ("crates/writes/stdout".into(), calls::calls()),
    ]
}

/// A delivery as the program reads it: a line with the files' lengths, then
/// their bytes.
fn packed(files: &Files) -> Vec<u8> {
    let lengths: Vec<String> = files.iter().map(|file| file.len().to_string()).collect();
    let mut bytes = lengths.join(" ").into_bytes();
    bytes.push(b'\n');
    bytes.extend(files.concat());
    bytes
}

/// A sample's folder: the files that have bytes, its line and its grid.
pub fn folder(sample: &Stated) -> Vec<Stored> {
    let folder = Path::new("samples").join(sample.name);
    let line = format!("{}\n", sample.line);
    let mut stored = vec![
        (folder.join("line"), line.into_bytes()),
        (folder.join("grid"), grid(&sample.files).into_bytes()),
    ];
    for (name, bytes) in NAMES.iter().zip(&sample.files) {
        if !bytes.is_empty() {
            stored.push((folder.join(name), bytes.clone()));
        }
    }
    stored
}
