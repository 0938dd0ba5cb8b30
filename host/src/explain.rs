//! A verdict in plain words, with the records that matter.

pub mod bytes;
mod composites;
mod likeness;
mod lines;
mod nodes;
mod references;

use canopyrail::{names, Break, Reason, Verdict, FILES};

use crate::delivery::{Delivery, Values};
use crate::layout::{key_parts, place_words, whole_place, x_part, y_part, Part};
use crate::picture::{self, many};

/// The page that `canopyrail explain` prints, its first line the verdict's.
pub fn page(delivery: &Delivery, verdict: &Verdict) -> String {
    let mut page = Page {
        text: canopyrail::line(verdict),
    };
    match verdict {
        Verdict::Accepted(counts) => accepted(&mut page, delivery, counts),
        Verdict::Broken(b) => refused(&mut page, delivery, b),
    }
    page.text
}

/// A page that grows downwards.
pub struct Page {
    text: String,
}

impl Page {
    /// A labelled paragraph, with an empty line above it.
    fn say(&mut self, label: &str, text: &str) {
        self.text.push('\n');
        self.text.push_str(&picture::paragraph(label, text));
    }

    /// Sentences from the left edge, with an empty line above them.
    fn tell(&mut self, text: &str) {
        self.text.push('\n');
        self.text.push_str(&picture::sentences(text));
    }

    /// A paragraph right below what stands there; nothing of nothing.
    fn more(&mut self, text: &str) {
        if !text.is_empty() {
            self.text.push_str(&picture::paragraph("", text));
        }
    }

    /// A record's bytes with marks beneath.
    fn record(&mut self, delivery: &Delivery, file: usize, record: usize, marks: &[Part]) {
        self.text
            .push_str(&picture::record(file, delivery.record(file, record), marks));
    }
}

fn accepted(page: &mut Page, delivery: &Delivery, counts: &[usize; FILES]) {
    page.tell("Accepted: no rule is broken.");
    page.text.push('\n');
    for (place, count) in counts.iter().enumerate() {
        let absent = if delivery.is_absent(place + 1) {
            " (no such file)"
        } else {
            ""
        };
        let records = if *count == 1 { "record" } else { "records" };
        page.text.push_str(&format!(
            "    {:8} {count:5} {records}{absent}\n",
            names::FILES[place]
        ));
    }
}

fn refused(page: &mut Page, delivery: &Delivery, b: &Break) {
    page.say("Where", &place_words(b.file, b.record, b.field));
    page.record(delivery, b.file, b.record, &marks(delivery, b));
    let words = b.reason.words();
    page.say("Wrong", words.wrong);
    here(page, delivery, b);
    let number = b.reason.number();
    page.say("Rule", &format!("({number}) {}", words.rule));
    page.say(
        "Ask",
        &format!("{}{}", ask_for_file(delivery, b), words.ask),
    );
    page.tell("This is the first fault in the fixed order; there may be more behind it.");
}

/// What to ask first where a field names something of a file that is not there at all.
fn ask_for_file(delivery: &Delivery, b: &Break) -> String {
    match references::sought_file(b) {
        Some(file) if delivery.is_absent(file) => {
            format!("Where the file {} is. ", names::file(file))
        }
        _ => String::new(),
    }
}

/// The bytes of the broken record that the rule is about.
fn marks(delivery: &Delivery, b: &Break) -> Vec<Part> {
    match b.reason {
        Reason::RaggedFile => vec![Part {
            start: 0,
            end: canopyrail::length(b.file),
        }],
        Reason::SameKey => key_parts(b.file),
        Reason::SamePlace => vec![whole_place(b.file)],
        Reason::PointElsewhere => lines::point_marks(delivery, b),
        Reason::IdleNode => vec![x_part(b.file), y_part(b.file)],
        Reason::IdleObject | Reason::IdleComposite => vec![Part::field(b.file, 1)],
        _ => bytes::field_marks(b.file, b.reason, b.field),
    }
}

/// What stands in this delivery.
fn here(page: &mut Page, delivery: &Delivery, b: &Break) {
    match b.reason {
        Reason::LongFile => bytes::too_long(page, b),
        Reason::RaggedFile => bytes::ragged(page, delivery, b),
        Reason::BadEnd => bytes::bad_end(page, delivery, b),
        Reason::SameKey => references::same_key(page, delivery, b),
        Reason::NoRecord => references::no_record(page, delivery, b),
        Reason::OtherType => references::other_type(page, delivery, b),
        Reason::OrderGap | Reason::OrderAlone => lines::orders(page, delivery, b),
        Reason::StartElsewhere | Reason::EndElsewhere => lines::line_end(page, delivery, b),
        Reason::SamePlace => lines::same_place(page, delivery, b),
        Reason::PointElsewhere => lines::point_elsewhere(page, delivery, b),
        Reason::IdleNode => nodes::idle_node(page, delivery, b),
        Reason::IdleObject => lines::idle_object(page, delivery, b),
        Reason::OtherKind => nodes::other_kind(page, delivery, b),
        Reason::IdleComposite => composites::idle_composite(page, delivery, b),
        _ => {
            let text =
                bytes::field_here(b.file, delivery.record(b.file, b.record), b.reason, b.field);
            if !text.is_empty() {
                page.say("Here", &text);
            }
        }
    }
}

/// A file's name with the number of its records, or that it is not there.
fn counted(delivery: &Delivery, file: usize) -> String {
    let name = names::file(file);
    if delivery.is_absent(file) {
        return format!("{name} (no such file)");
    }
    format!("{name} ({})", many(delivery.count(file), "record"))
}

/// The line that a tramo uses: its ID_LINEA, or its own id where that is blank.
fn line_of(tramo: &Values) -> Option<u64> {
    tramo.number(4).or_else(|| tramo.number(1))
}

/// The tramo's line, and why it is that one.
fn line_words(tramo: &Values) -> String {
    match tramo.number(4) {
        Some(line) => format!("The tramo's line is {line}, by its field 4 ID_LINEA."),
        None => {
            let own = tramo.words(1);
            format!(
                "The tramo's line is {own}: its field 4 ID_LINEA is blank, which means the tramo's \
                 own id."
            )
        }
    }
}
