//! A delivery in hand: the eight files of a directory, read into memory.

use canopyrail::{names, Grid, Value, Verdict, FILES};
use std::io::Read;
use std::path::Path;

use crate::failure::{Trouble, Unread};
use crate::folder::{self, Doubt};
use crate::layout::{limit, Part};
use crate::picture;

/// The bytes of the eight files; no bytes of an absent one.
pub struct Delivery {
    files: [Option<Vec<u8>>; FILES],
    /// Why the folder may be another than was meant.
    pub doubts: Vec<Doubt>,
}

impl Delivery {
    /// Reads the eight files of a folder.
    pub fn open(directory: &Path) -> Result<Delivery, Trouble> {
        folder::check(directory).map_err(|unread| Trouble::Unread(directory.into(), unread))?;
        let mut files: [Option<Vec<u8>>; FILES] = Default::default();
        for (place, name) in names::FILES.iter().enumerate() {
            let path = directory.join(name);
            files[place] =
                read_file(place + 1, &path).map_err(|unread| Trouble::Unread(path, unread))?;
        }
        let absent: Vec<usize> = (1..=FILES)
            .filter(|file| files[file - 1].is_none())
            .collect();
        Ok(Delivery {
            files,
            doubts: folder::doubts(directory, &absent),
        })
    }

    pub fn judge(&self) -> Result<Verdict, Trouble> {
        canopyrail::try_judge(self.all()).map_err(Trouble::NoThread)
    }

    pub fn grid(&self) -> Result<Grid, Trouble> {
        canopyrail::try_grid(self.all()).map_err(Trouble::NoThread)
    }

    fn all(&self) -> [&[u8]; FILES] {
        let mut all: [&[u8]; FILES] = [&[]; FILES];
        for (place, bytes) in all.iter_mut().enumerate() {
            *bytes = self.bytes(place + 1);
        }
        all
    }

    /// A file's bytes; of a file that is too long, enough of them to tell that it is.
    pub fn bytes(&self, file: usize) -> &[u8] {
        self.file(file).map_or(&[], Vec::as_slice)
    }

    /// Whether the directory has no such file.
    pub fn is_absent(&self, file: usize) -> bool {
        self.file(file).is_none()
    }

    fn file(&self, file: usize) -> Option<&Vec<u8>> {
        self.files.get(file.checked_sub(1)?)?.as_ref()
    }

    /// The whole records of a file.
    pub fn count(&self, file: usize) -> usize {
        canopyrail::count(file, self.bytes(file))
    }

    /// A record's bytes: fewer than the record's length where the file ends before, none where
    /// there is no such record.
    pub fn record(&self, file: usize, record: usize) -> &[u8] {
        let length = canopyrail::length(file);
        // Record 0 then begins past every file's end, and so has no bytes.
        let start = record.wrapping_sub(1).saturating_mul(length);
        let end = start.saturating_add(length);
        Part { start, end }.of(self.bytes(file))
    }

    /// A field's bytes.
    pub fn field(&self, file: usize, record: usize, field: usize) -> &[u8] {
        Part::field(file, field).of(self.record(file, record))
    }

    /// A lawful record's values.
    pub fn values(&self, file: usize, record: usize) -> Option<Values> {
        canopyrail::read(file, self.bytes(file), record)
            .ok()
            .map(Values)
    }

    /// The lawful records of a file for which the test holds, with their numbers.
    pub fn select<T: Fn(&Values) -> bool>(&self, file: usize, test: T) -> Vec<(usize, Values)> {
        let each =
            (1..=self.count(file)).filter_map(|record| Some((record, self.values(file, record)?)));
        each.filter(|(_, values)| test(values)).collect()
    }
}

/// The values of one record, asked for by field.
pub struct Values(Vec<Value>);

impl Values {
    fn at(&self, field: usize) -> &Value {
        field
            .checked_sub(1)
            .and_then(|place| self.0.get(place))
            .unwrap_or(&Value::Missing)
    }

    /// The value in words.
    pub fn words(&self, field: usize) -> String {
        value_words(self.at(field))
    }

    pub fn number(&self, field: usize) -> Option<u64> {
        match self.at(field) {
            Value::Number(number) => Some(*number),
            _ => None,
        }
    }

    pub fn coordinate(&self, field: usize) -> Option<i64> {
        match self.at(field) {
            Value::Coordinate(number) => Some(*number),
            _ => None,
        }
    }

    pub fn text(&self, field: usize) -> Option<&[u8]> {
        match self.at(field) {
            Value::Text(text) => Some(text),
            _ => None,
        }
    }
}

/// A value in words: a coordinate with its sign, a text in quotes, so that no text looks like a
/// missing one.
pub fn value_words(value: &Value) -> String {
    match value {
        Value::Missing => "missing".to_string(),
        Value::Number(number) => number.to_string(),
        Value::Coordinate(number) => format!("{number:+}"),
        Value::Text(text) => format!("\"{}\"", picture::shown(text)),
    }
}

/// A file's bytes, nothing where there is no file of the name. One byte past the limit tells that a
/// file is too long, so no more is read.
fn read_file(file: usize, path: &Path) -> Result<Option<Vec<u8>>, Unread> {
    let source = match folder::open_if_there(path)? {
        Some(source) => source,
        None => return Ok(None),
    };
    let mut bytes = Vec::new();
    source
        .take(limit(file) as u64 + 1)
        .read_to_end(&mut bytes)
        .map_err(Unread::System)?;
    Ok(Some(bytes))
}
