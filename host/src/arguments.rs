//! The words after a command's name, taken apart.

use canopyrail::names;
use std::ffi::{OsStr, OsString};
use std::os::unix::ffi::OsStrExt;
use std::path::Path;

use crate::failure::Misuse;

/// Which options a command takes besides --help.
#[derive(Clone, Copy)]
pub enum Takes {
    /// --strict
    Strict,
    /// --strict and --words
    StrictAndWords,
    /// --as NAME
    Name,
}

/// What was given.
pub struct Given<'a> {
    pub words: Vec<&'a OsStr>,
    pub name: Option<OsString>,
    pub strict: bool,
    pub in_words: bool,
    pub help: bool,
}

impl Given<'_> {
    /// The one folder that is to be judged.
    pub fn directory(&self) -> Result<&Path, Misuse> {
        match self.words.as_slice() {
            [directory] => filled(directory),
            [] => Err(Misuse::NoDirectory),
            _ => Err(Misuse::SeveralDirectories),
        }
    }

    /// The folders whose breaks are to be counted.
    pub fn directories(&self) -> Result<Vec<&Path>, Misuse> {
        if self.words.is_empty() {
            return Err(Misuse::NoDirectory);
        }
        self.words.iter().map(|word| filled(word)).collect()
    }

    /// The file that is to be shown, its number, and the record.
    pub fn file_and_record(&self) -> Result<(&Path, usize, u64), Misuse> {
        match self.words.as_slice() {
            [path, record] => {
                let path = filled(path)?;
                let record = record_number(record)?;
                Ok((path, self.file_number(path)?, record))
            }
            _ => Err(Misuse::NoFileAndRecord),
        }
    }

    /// Which of the eight files a path is, by the name given or by its own.
    fn file_number(&self, path: &Path) -> Result<usize, Misuse> {
        let own = || path.file_name().unwrap_or(path.as_os_str());
        let name = self.name.as_deref().unwrap_or_else(own);
        let number = name.to_str().and_then(names::number_of);
        number.ok_or_else(|| Misuse::UnknownName(name.to_os_string()))
    }
}

/// Takes options out of the words; after `--` every word is a plain one.
pub fn given(rest: &[OsString], takes: Takes) -> Result<Given<'_>, Misuse> {
    let mut given = Given {
        words: Vec::new(),
        name: None,
        strict: false,
        in_words: false,
        help: false,
    };
    let mut each = rest.iter().map(OsString::as_os_str);
    while let Some(word) = each.next() {
        match (word.to_str(), takes) {
            (Some("--help" | "-h"), _) => given.help = true,
            (Some("--strict"), Takes::Strict | Takes::StrictAndWords) => given.strict = true,
            (Some("--words"), Takes::StrictAndWords) => given.in_words = true,
            (Some("--as"), Takes::Name) => match each.next() {
                Some(name) => given.name = Some(name.to_os_string()),
                None => return Err(Misuse::NoName),
            },
            (Some("--"), _) => given.words.extend(each.by_ref()),
            (_, Takes::Name) if word.as_bytes().starts_with(b"--as=") => {
                given.name = Some(OsStr::from_bytes(&word.as_bytes()[5..]).to_os_string());
            }
            _ if word.as_bytes().starts_with(b"-") => {
                return Err(Misuse::UnknownOption(word.to_os_string()))
            }
            _ => given.words.push(word),
        }
    }
    Ok(given)
}

fn filled(path: &OsStr) -> Result<&Path, Misuse> {
    if path.is_empty() {
        return Err(Misuse::EmptyPath);
    }
    Ok(Path::new(path))
}

fn record_number(word: &OsStr) -> Result<u64, Misuse> {
    let number = word.to_str().and_then(|text| text.parse().ok());
    number.ok_or_else(|| Misuse::NoRecordNumber(word.to_os_string()))
}
