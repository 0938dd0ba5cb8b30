//! The papers say what the library says: docs/FAULT-CARD.md has the words of `explain`, docs/RULES.md the table of files and fields and
//! every reason, docs/PROMISES.md every promise. Where one differs, the test prints what should stand there.

use canopyrail::names::{self, Form};
use canopyrail::{Reason, FILES};
use std::fs;
use std::path::Path;

const CARD: &str = include_str!("../../docs/FAULT-CARD.md");
const RULES: &str = include_str!("../../docs/RULES.md");

/// The rows of a page's tables whose first cell is a number.
fn rows(page: &str) -> Vec<&str> {
    let numbered = |line: &&str| {
        let cell = line
            .strip_prefix("| ")
            .and_then(|rest| rest.split(' ').next());
        cell.map_or(false, |cell| cell.parse::<u8>().is_ok())
    };
    page.lines().filter(numbered).collect()
}

fn check(name: &str, page: &str, expected: &[String]) {
    if rows(page) != *expected {
        panic!("the rows of {name} should be\n{}", expected.join("\n"));
    }
}

/// Whether a reason is told of a call on one record or on grids, and never of a delivery.
fn is_of_calls(reason: &Reason) -> bool {
    reason.number() / 10 == 6
}

/// Every reason as papers list them: those of deliveries, and then those of the calls.
fn listed() -> Vec<Reason> {
    let (calls, deliveries): (Vec<Reason>, Vec<Reason>) =
        Reason::ALL.into_iter().partition(is_of_calls);
    [deliveries, calls].concat()
}

/// Of a delivery what is wrong, what to look at and what to ask; of a call what is wrong and what to mend.
fn card_row(reason: Reason) -> String {
    let (number, words) = (reason.number(), reason.words());
    if !is_of_calls(&reason) {
        return format!(
            "| {number} | {} | {} | {} |",
            words.wrong, words.look, words.ask
        );
    }
    format!("| {number} | {} | {} |", words.wrong, words.ask)
}

#[test]
fn the_card_has_the_words_of_explain() {
    let expected: Vec<String> = listed().into_iter().map(card_row).collect();
    check("docs/FAULT-CARD.md", CARD, &expected);
}

/// A field by its name, its form's letter and its width, as `POS_X N9`.
fn field_words(file: usize, field: usize) -> String {
    let letter = match names::form(file, field) {
        Some(Form::Text | Form::Sign) => 'A',
        _ => 'N',
    };
    format!(
        "{} {letter}{}",
        names::field(file, field),
        canopyrail::width(file, field)
    )
}

fn file_row(file: usize) -> String {
    let fields: Vec<String> = (1..=canopyrail::fields(file))
        .map(|field| field_words(file, field))
        .collect();
    format!(
        "| {file} | {} | {} | {} |",
        names::file(file),
        fields.join(", "),
        canopyrail::length(file)
    )
}

/// Whatever else a row of the rules says, it begins with the reason's number.
#[test]
fn the_rules_have_every_file_and_every_reason() {
    let (files, reasons): (Vec<&str>, Vec<&str>) =
        rows(RULES).into_iter().partition(|row| number(row) < 10);
    let expected: Vec<String> = (1..=FILES).map(file_row).collect();
    assert_eq!(files, expected, "should be\n{}", expected.join("\n"));
    let told: Vec<u8> = reasons.into_iter().map(number).collect();
    let all: Vec<u8> = listed().iter().map(|reason| reason.number()).collect();
    assert_eq!(told, all);
}

fn number(row: &str) -> u8 {
    row[2..].split(' ').next().unwrap().parse().unwrap()
}

const CRATES: &str = include_str!("../../crates.txt");
const ARCHITECTURE: &str = include_str!("../../docs/ARCHITECTURE.md");

#[test]
fn the_ladder_has_every_crate() {
    let lines = CRATES.lines().filter(|line| !line.starts_with('#'));
    for name in lines.filter_map(|line| line.split([':', ' ']).next()) {
        let found = ARCHITECTURE
            .split(|each: char| !each.is_ascii_alphanumeric() && each != '_')
            .any(|word| word == name);
        assert!(found, "docs/ARCHITECTURE.md does not name {name}");
    }
}

const TOPS: [&str; 9] = [
    "crates/",
    "docs/",
    "examples/",
    "fuzz/",
    "host/",
    "include/",
    "samples/",
    "tests/",
    "tools/",
];

/// The paths that a page names.
fn paths(page: &str) -> Vec<&str> {
    let in_path = |each: char| each.is_ascii_alphanumeric() || "_-./".contains(each);
    page.split(|each| !in_path(each))
        .filter(|word| TOPS.iter().any(|top| word.starts_with(top)))
        .map(|word| word.trim_end_matches(['.', '/']))
        .collect()
}

#[test]
fn paths_that_papers_name_are_there() {
    let root = Path::new(env!("CARGO_MANIFEST_DIR")).join("..");
    for paper in [
        "README.md",
        "docs/ARCHITECTURE.md",
        "docs/BENCHMARKS.md",
        "docs/DECISIONS.md",
        "docs/FAULT-CARD.md",
        "docs/PROMISES.md",
        "docs/REPLACE.md",
        "docs/RULES.md",
        "include/canopyrail.h",
    ] {
        let page = fs::read_to_string(root.join(paper)).unwrap();
        for path in paths(&page) {
            assert!(root.join(path).exists(), "{paper} names {path}");
        }
    }
}

/// A page with single blanks for all blanks and line ends.
fn flowing(page: &str) -> String {
    page.split_whitespace().collect::<Vec<_>>().join(" ")
}

const README: &str = include_str!("../../README.md");
const FIRST: &str = include_str!("../../examples/first.c");

/// The lines of C that README shows are a program, which tests/host compiles and runs.
#[test]
fn readme_has_the_first_example() {
    assert!(README.contains(&format!("```c\n{FIRST}```\n")));
    assert!(README.contains("examples/first.c \"$lib/libcanopyrail.a\" -o target/first"));
}

/// What a newcomer must learn from the papers, wherever a page is rewritten.
#[test]
fn papers_say_where_box_and_command_differ() {
    for (name, page, said) in [
        ("README", README, "The box's program has no exit status"),
        (
            "README",
            README,
            "| a file of more than 8,192 bytes | `BIG`",
        ),
        ("the card", CARD, "The box's program has no exit status"),
        ("the card", CARD, "Judge it on a machine with the command"),
    ] {
        assert!(flowing(page).contains(said), "{name} does not say: {said}");
    }
}

const PROMISED: &str = include_str!("../../crates/canopyrail/proofs/Promises.antt");
const PROMISES: &str = include_str!("../../docs/PROMISES.md");

/// The names that the prover's file gives its promises.
fn promised() -> Vec<&'static str> {
    let named = PROMISED
        .lines()
        .filter_map(|line| line.strip_prefix("pub "));
    named.filter_map(|line| line.split(' ').next()).collect()
}

#[test]
fn the_page_has_every_promise() {
    assert!(promised().len() > 40);
    for name in promised() {
        assert!(
            PROMISES.contains(&format!("`{name}`")),
            "docs/PROMISES.md does not name {name}"
        );
    }
}

const HEADER: &str = include_str!("../../include/canopyrail.h");

/// The calls that the header declares, each without the library's name before it.
fn calls() -> Vec<&'static str> {
    let declared = |line: &&str| line.starts_with("uint64_t") || line.starts_with("size_t");
    let rest = |line: &'static str| line.split("canopyrail_").nth(1);
    let named = HEADER.lines().filter(declared).filter_map(rest);
    named.filter_map(|rest| rest.split('(').next()).collect()
}

#[test]
fn each_call_is_promised_one_outcome() {
    assert_eq!(calls().len(), 17, "{:?}", calls());
    for call in calls() {
        // an underscore has another meaning in the prover's names
        let name = format!("{}-once", call.replace('_', "-"));
        assert!(promised().contains(&name.as_str()), "there is no {name}");
    }
}
