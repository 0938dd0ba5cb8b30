//! What is told of keys and references (30, 40, 41).

use canopyrail::{names, Break, Reason};

use super::{counted, line_words, Page};
use crate::delivery::Delivery;
use crate::layout::{key_parts, Part};
use crate::layout::{CATALOGO, NODO, OB_COMP, OB_LIN, OB_PUN, OB_TEX, TRAMO, VERTICE};
use crate::picture::shown;

pub fn same_key(page: &mut Page, delivery: &Delivery, b: &Break) {
    let earlier = b.other as usize;
    let name = names::file(b.file);
    let key = key_words(delivery, b);
    page.say(
        "Here",
        &format!("{key} stands already in {name} record {earlier}:"),
    );
    page.record(delivery, b.file, earlier, &key_parts(b.file));
}

fn key_words(delivery: &Delivery, b: &Break) -> String {
    let own = shown(delivery.field(b.file, b.record, 1));
    if b.file == VERTICE {
        let order = shown(delivery.field(b.file, b.record, 2));
        return format!("Line {own} with order {order}");
    }
    format!("{} {}", names::field(b.file, 1), own.trim_end())
}

/// What a reference is sought by.
enum Sought {
    /// A record of the file that has it in field 1.
    In(usize),
    /// A vertex of the line that a tramo names.
    Line,
    /// A tramo that uses a vertex's line.
    User,
    /// A file that does not belong to the delivery.
    Nowhere,
}

fn sought(file: usize, field: usize) -> Sought {
    match (file, names::field(file, field)) {
        (_, "CODIGO") => Sought::In(CATALOGO),
        (TRAMO, "ID_OLIN") => Sought::In(OB_LIN),
        (TRAMO, "ID_LINEA") => Sought::Line,
        (VERTICE, "ID_LINEA") => Sought::User,
        (_, "ID_OCOMP") => Sought::In(OB_COMP),
        (_, "ID_PERIM") => Sought::Nowhere,
        _ => Sought::In(NODO),
    }
}

/// The file that a reference without a record is sought in; nothing of other reasons.
pub fn sought_file(b: &Break) -> Option<usize> {
    if b.reason != Reason::NoRecord {
        return None;
    }
    match sought(b.file, b.field) {
        Sought::In(file) => Some(file),
        Sought::Line => Some(VERTICE),
        Sought::User => Some(TRAMO),
        Sought::Nowhere => None,
    }
}

pub fn no_record(page: &mut Page, delivery: &Delivery, b: &Break) {
    let said = shown(delivery.field(b.file, b.record, b.field));
    let said = said.trim_end();
    match sought(b.file, b.field) {
        Sought::In(file) => page.say("Here", &not_there(delivery, said, file)),
        Sought::Nowhere => {
            let text = "there is no file in which it could be sought. It must be blank.";
            page.say("Here", &format!("The field says {said}; {text}"));
        }
        Sought::Line => no_line(page, delivery, b),
        Sought::User => no_user(page, delivery, b),
    }
}

/// That something is not in the file that it is sought in, by its field 1, or that the file is not
/// there at all.
fn not_there(delivery: &Delivery, what: &str, file: usize) -> String {
    if delivery.is_absent(file) {
        return absent(what, file);
    }
    let (place, key) = (counted(delivery, file), names::field(file, 1));
    format!("{what} is sought in {place}, field 1 {key}, and is not there.")
}

fn absent(what: &str, file: usize) -> String {
    let name = names::file(file);
    format!("{what} is sought in {name}, and the delivery has no file {name}.")
}

fn no_line(page: &mut Page, delivery: &Delivery, b: &Break) {
    if let Some(tramo) = delivery.values(b.file, b.record) {
        page.say("Here", &line_words(&tramo));
        page.more(&not_there(delivery, "It", VERTICE));
    }
}

fn no_user(page: &mut Page, delivery: &Delivery, b: &Break) {
    let line = delivery
        .values(b.file, b.record)
        .and_then(|vertex| vertex.number(1));
    let line = match line {
        Some(line) => line,
        None => return,
    };
    page.say("Here", &no_user_words(delivery, line));
    // The likely cause: the tramo of this id is there and names another line.
    if let Some((record, tramo)) = delivery
        .select(TRAMO, |tramo| tramo.number(1) == Some(line))
        .first()
    {
        page.more(&format!(
            "Tramo {line} is TRAMO record {record}. {}",
            line_words(tramo)
        ));
        page.record(delivery, TRAMO, *record, &[Part::field(TRAMO, 4)]);
    }
}

fn no_user_words(delivery: &Delivery, line: u64) -> String {
    let line = format!("Line {line}");
    if delivery.is_absent(TRAMO) {
        return absent(&line, TRAMO);
    }
    format!(
        "{line} is sought in {}, and is neither in a field 4 ID_LINEA nor, beside a blank one, in \
         a field 1 ID_TRAMO.",
        counted(delivery, TRAMO)
    )
}

/// A kind of object by its letter.
fn letter_words(letter: u8) -> String {
    let meaning = match letter {
        b'P' => " (point)",
        b'X' => " (text)",
        b'L' => " (line)",
        b'T' => " (tramo)",
        b'C' => " (composite)",
        _ => "",
    };
    format!("{}{meaning}", shown(&[letter]))
}

/// The letter of the codes that a file may use.
fn own_letter(file: usize) -> u8 {
    match file {
        OB_PUN => b'P',
        OB_TEX => b'X',
        OB_LIN => b'L',
        OB_COMP => b'C',
        _ => b'T',
    }
}

pub fn other_type(page: &mut Page, delivery: &Delivery, b: &Break) {
    let code = delivery.values(b.file, b.record);
    let code = code
        .as_ref()
        .and_then(|values| values.text(b.field))
        .unwrap_or(&[]);
    let text = format!(
        "Code {} is catalogued under {}; {} takes {}.",
        shown(code),
        letter_words(b.other as u8),
        names::file(b.file),
        letter_words(own_letter(b.file))
    );
    page.say("Here", &text);
    if let Some((record, _)) = delivery
        .select(CATALOGO, |entry| entry.text(1) == Some(code))
        .first()
    {
        page.more(&format!("Its entry is CATALOGO record {record}:"));
        page.record(
            delivery,
            CATALOGO,
            *record,
            &[Part::field(CATALOGO, 1), Part::field(CATALOGO, 2)],
        );
    }
}
