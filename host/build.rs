//! Links libcanopyrail.a from the directory that the environment variable CANOPYRAIL_LIB names.

use std::env;
use std::path::{Path, PathBuf};
use std::process;

const VARIABLE: &str = "CANOPYRAIL_LIB";
const ARCHIVE: &str = "libcanopyrail.a";

fn main() {
    println!("cargo:rerun-if-changed=build.rs");
    println!("cargo:rerun-if-env-changed={VARIABLE}");
    match archive() {
        Ok((folder, archive)) => {
            println!("cargo:rerun-if-changed={archive}");
            println!("cargo:rustc-link-search=native={folder}");
            println!("cargo:rustc-link-lib=static=canopyrail");
        }
        Err(message) => {
            eprintln!("{message}");
            process::exit(1);
        }
    }
}

/// The archive's directory and its path, or what is wrong with them.
fn archive() -> Result<(String, String), String> {
    let folder = match env::var_os(VARIABLE) {
        Some(folder) if !folder.is_empty() => PathBuf::from(folder),
        _ => {
            return Err(format!(
                "{VARIABLE} is not set: it names the directory that has {ARCHIVE}."
            ))
        }
    };
    // A relative path would be read from this package's directory here and from elsewhere by the
    // linker.
    let whole = folder
        .canonicalize()
        .map_err(|error| missing(&folder, &error.to_string()))?;
    let archive = whole.join(ARCHIVE);
    if !archive.is_file() {
        return Err(missing(
            &folder,
            &format!("there is no file {ARCHIVE} in it"),
        ));
    }
    Ok((text(&whole)?, text(&archive)?))
}

fn missing(folder: &Path, what: &str) -> String {
    let hint = if folder.is_absolute() {
        ""
    } else {
        " A relative path is read from the package's directory: give the whole path."
    };
    format!(
        "{VARIABLE} is {}: {what}. It names the directory that has {ARCHIVE}.{hint}",
        folder.display()
    )
}

/// Cargo takes its instructions as lines of text, so a path must be text without a line end.
fn text(path: &Path) -> Result<String, String> {
    match path.to_str() {
        Some(text) if !text.contains('\n') => Ok(text.to_string()),
        _ => Err(format!(
            "{VARIABLE} is {}: a path of plain UTF-8 text is needed.",
            path.display()
        )),
    }
}
