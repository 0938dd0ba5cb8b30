//! include/canopyrail.h, the archive and this crate say the same: the version and every number that the header defines.

use canopyrail::names::{form, Form, FILES, GROUPS, TENS};
use canopyrail::Reason;

const HEADER: &str = include_str!("../../include/canopyrail.h");

/// What the header gives a name, by `#define` or in an enum: a plain number.
fn number(name: &str) -> usize {
    let value = HEADER.lines().find_map(|line| {
        let mut words = line.split_whitespace();
        match (words.next(), words.next(), words.next()) {
            (Some("#define"), Some(defined), value) if defined == name => value,
            (Some(listed), Some("="), value) if listed == name => value,
            _ => None,
        }
    });
    let value = value.unwrap_or_else(|| panic!("the header has no {name}"));
    value.trim_end_matches(',').parse().unwrap()
}

#[test]
fn one_version() {
    let part = |name| number(&format!("CANOPYRAIL_VERSION_{name}"));
    let (major, minor, patch) = (part("MAJOR"), part("MINOR"), part("PATCH"));
    assert_eq!(
        env!("CARGO_PKG_VERSION"),
        format!("{major}.{minor}.{patch}")
    );
    let whole = major * 10_000 + minor * 100 + patch;
    assert_eq!(canopyrail::version(), whole as u64);
}

#[test]
fn the_same_numbers() {
    let lengths = (1..)
        .map(canopyrail::length)
        .take_while(|length| *length > 0);
    let files: Vec<usize> = lengths.collect();
    let fields = |file| (1..=canopyrail::fields(file)).map(move |field| (file, field));
    let texts = (1..=files.len())
        .flat_map(fields)
        .filter(|&(file, field)| form(file, field) == Some(Form::Text))
        .map(|(file, field)| canopyrail::width(file, field));
    let most_fields = (1..=files.len()).map(canopyrail::fields).max();

    // the header's, this crate's, the archive's
    for (name, ours, there) in [
        ("FILES", canopyrail::FILES, Some(files.len())),
        ("FIELDS", canopyrail::FIELDS, most_fields),
        ("TEXT", canopyrail::TEXT, texts.max()),
        ("LONGEST", canopyrail::LONGEST, files.iter().copied().max()),
    ] {
        assert_eq!(number(&format!("CANOPYRAIL_{name}")), ours, "{name}");
        assert_eq!(Some(ours), there, "{name}");
    }
    // that the archive's is the same shows where a file of one byte more is refused (compare.rs)
    assert_eq!(number("CANOPYRAIL_RECORDS"), canopyrail::RECORDS);
    // and where a grid of one cell fewer is (examples/calls.c)
    assert_eq!(number("CANOPYRAIL_GROUPS"), canopyrail::GROUPS);
    assert_eq!(GROUPS.len(), canopyrail::GROUPS);
    assert_eq!(TENS.len(), canopyrail::GROUPS);
    let cells = "#define CANOPYRAIL_CELLS (CANOPYRAIL_FILES * CANOPYRAIL_GROUPS)\n";
    assert!(HEADER.contains(cells));
}

#[test]
fn the_same_files_and_forms() {
    for (place, name) in FILES.iter().enumerate() {
        assert_eq!(number(&format!("CANOPYRAIL_{name}")), place + 1);
    }
    for (name, form) in [
        ("TEXT", Form::Text),
        ("SIGN", Form::Sign),
        ("NUMBER", Form::Number),
        ("COORDINATE", Form::Coordinate),
    ] {
        assert_eq!(number(&format!("CANOPYRAIL_FORM_{name}")), form as usize);
    }
}

/// A name as the header has it: LONG_FILE of LongFile.
fn capitals(name: &str) -> String {
    let mut capitals = String::new();
    for letter in name.chars() {
        if letter.is_uppercase() && !capitals.is_empty() {
            capitals.push('_');
        }
        capitals.extend(letter.to_uppercase());
    }
    capitals
}

#[test]
fn the_same_reasons() {
    for reason in Reason::ALL {
        let name = format!("CANOPYRAIL_{}", capitals(&format!("{reason:?}")));
        assert_eq!(number(&name), usize::from(reason.number()), "{name}");
    }
    let listed = HEADER
        .split("enum canopyrail_reason_number {")
        .nth(1)
        .and_then(|rest| rest.split("};").next())
        .unwrap();
    // One more there: 0, that nothing is wrong.
    assert_eq!(listed.matches(" = ").count(), Reason::ALL.len() + 1);
}

#[test]
fn the_same_stack() {
    let line = HEADER
        .lines()
        .find_map(|line| line.strip_prefix("#define CANOPYRAIL_STACK "))
        .unwrap();
    let factors = line.trim_matches(|each| "()".contains(each)).split(" * ");
    let product: usize = factors
        .map(|factor| factor.trim_end_matches('u').parse::<usize>().unwrap())
        .product();
    assert_eq!(product, canopyrail::STACK);
}
