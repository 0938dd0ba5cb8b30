//! Deliveries that break a rule in every record, or in as many as the rule allows, each made of a lawful one.

mod bytes;
mod composites;
mod keys;
mod topology;

pub use composites::UNGROUPED;
pub use keys::{MISTYPED, REPEATED, UNKNOWN};
pub use topology::ASTRAY;

use bytes::ILL_FORMED;
use deliveries::{write, Files, Model};

/// What is broken, the line that is due, and how a lawful delivery of 16,384 records a file comes to it.
pub type Case<T = Model> = (&'static str, &'static str, fn(&mut T));

/// Several rules at once, as far as one allows another.
const AT_ONCE: [Case; 4] = [
    ("30, one key in each file", "NO 30 1 00002 01", |model| {
        in_turn(model, &REPEATED, &["30"]);
    }),
    ("40, all fields of these", "NO 40 2 00001 02", |model| {
        in_turn(model, &UNKNOWN, &["40"]);
    }),
    ("50, 53, 55 and 57 as these", "NO 55 2 00001 03", |model| {
        in_turn(model, &ASTRAY, &["50", "53", "55", "57"]);
    }),
    ("56 and 58 at the same nodes", "NO 56 7 00001 00", |model| {
        in_turn(model, &ASTRAY, &["56", "58"]);
    }),
];

/// Makes the changes of those cases whose reason is one of these.
fn in_turn(model: &mut Model, cases: &[Case], reasons: &[&str]) {
    let wanted = |(name, ..): &&Case| reasons.contains(&&name[..2]);
    cases
        .iter()
        .filter(wanted)
        .for_each(|(_, _, change)| change(model));
}

/// What is broken, the line that is due, and the files.
pub type Broken = (&'static str, &'static str, Files);

/// Every rule's deliveries that take no composites, one at a time.
pub fn all(lawful: &Model) -> impl Iterator<Item = Broken> + '_ {
    let groups: [&[Case]; 5] = [&REPEATED, &UNKNOWN, &MISTYPED, &ASTRAY, &AT_ONCE];
    by_bytes(lawful).chain(by_values(lawful, groups.concat()))
}

/// Those that take a lawful delivery with composites.
pub fn all_composed(lawful: &Model) -> impl Iterator<Item = Broken> + '_ {
    by_bytes(lawful).chain(by_values(lawful, UNGROUPED.to_vec()))
}

fn by_values(lawful: &Model, cases: Vec<Case>) -> impl Iterator<Item = Broken> + '_ {
    cases.into_iter().map(move |(name, due, change)| {
        let mut model = lawful.clone();
        change(&mut model);
        (name, due, write(&model))
    })
}

fn by_bytes(lawful: &Model) -> impl Iterator<Item = Broken> + '_ {
    ILL_FORMED.iter().map(move |(name, due, change)| {
        let mut files = write(lawful);
        change(&mut files);
        (*name, *due, files)
    })
}
