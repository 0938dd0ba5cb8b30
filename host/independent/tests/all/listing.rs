//! The first break held against a list of all breaks.
//!
//! The list is made the slow way, straight from the table of reasons: every
//! rule asked of every place, by loops over all records. Its least place must
//! be what the library tells, and its length what the grid counts.

use crate::build::{lent, record_length, rich, start, Files, Noise, FILES, WIDTHS};
use independent::{judge, read, Break, Refusal, Verdict};

/// Tens, file, record, field, reason: the order that says which is first.
pub type Place = (u8, usize, usize, usize, u8);

/// The bytes of a field.
fn bytes(files: &Files, file: usize, record: usize, field: usize) -> &[u8] {
    let at = start(file, record, field);
    &files[file - 1][at..at + WIDTHS[file - 1][field - 1]]
}

fn records(files: &Files, file: usize) -> std::ops::RangeInclusive<usize> {
    1..=files[file - 1].len() / record_length(file)
}

fn is_blank(bytes: &[u8]) -> bool {
    bytes.iter().all(|&b| b == b' ')
}

fn is_digits(bytes: &[u8]) -> bool {
    bytes.iter().all(u8::is_ascii_digit)
}

/// Whether the field's text begins in a blank, or begins or ends in A0: the
/// blanks after it are no part of the text, and an A0 before them is.
fn is_padded(bytes: &[u8]) -> bool {
    let ends_in_a0 = |n: usize| bytes[n] == 0xA0 && is_blank(&bytes[n + 1..]);
    bytes[0] == b' ' || bytes[0] == 0xA0 || (0..bytes.len()).any(ends_in_a0)
}

const CODE: [usize; FILES] = [1, 4, 3, 3, 5, 0, 0, 2];
const FIRST_SIGN: [usize; FILES] = [0, 8, 9, 5, 0, 3, 3, 4];
const NEEDED: [&[usize]; FILES] = [
    &[1, 2],
    &[1, 4, 8, 9, 10, 11],
    &[1, 3, 5, 8, 9, 10, 11, 12],
    &[1, 3],
    &[1, 2, 5, 6, 7],
    &[1, 2, 3, 4, 5, 6],
    &[1, 3, 4, 5, 6],
    &[1, 2],
];
const NUMBERS: [&[usize]; FILES] = [
    &[],
    &[1, 2, 3, 6, 7, 9, 11, 13],
    &[1, 2, 5, 6, 7, 8, 10, 12, 14],
    &[1, 2, 6, 8, 10],
    &[1, 2, 3, 4, 6, 7],
    &[1, 2, 4, 6, 8],
    &[1, 4, 6, 8],
    &[1, 5, 7, 9],
];

/// Whether the field is one of a position's six, and which.
fn of_six(file: usize, field: usize) -> Option<usize> {
    let first = FIRST_SIGN[file - 1];
    if first > 0 && field >= first {
        Some(field - first)
    } else {
        None
    }
}

fn tens(files: &Files, list: &mut Vec<Place>) {
    for file in 1..=FILES {
        let (have, length) = (files[file - 1].len(), record_length(file));
        if have > 16_384 * length {
            list.push((1, file, 0, 0, 10));
        }
        if have % length > 0 {
            list.push((1, file, have / length + 1, 0, 11));
        }
    }
}

fn twenties_of_record(files: &Files, file: usize, record: usize) -> Vec<Place> {
    let mut list = Vec::new();
    let last = WIDTHS[file - 1].len();
    let line_end = record * record_length(file) - 2;
    if files[file - 1][line_end..line_end + 2] != *b"\r\n" {
        list.push((2, file, record, 0, 20));
    }
    for field in 1..=last {
        let have = bytes(files, file, record, field);
        let mut told = |reason| list.push((2, file, record, field, reason));
        let bar = files[file - 1][start(file, record, field) + have.len()];
        if field < last && bar != b'|' {
            told(21);
        }
        let number = NUMBERS[file - 1].contains(&field);
        let bad_number = number && !is_digits(have) && !is_blank(have);
        let in_a = |b: &u8| (0x20..0x7F).contains(b) || *b >= 0xA0;
        let bad_text = !number && !is_blank(have) && (is_padded(have) || !have.iter().all(in_a));
        if bad_number {
            told(22);
        }
        if bad_text {
            told(23);
        }
        let code = field == CODE[file - 1];
        let missing = is_blank(have) || code && [&b"NA     "[..], b"ND     "].contains(&have);
        let at = |i: usize| bytes(files, file, record, FIRST_SIGN[file - 1] + i);
        let demanded = NEEDED[file - 1].contains(&field)
            || of_six(file, field).map_or(false, |i| !is_blank(at(i ^ 1)))
            || [4, 8].contains(&file)
                && of_six(file, field).map_or(false, |i| i < 4)
                && (0..6).any(|i| !is_blank(at(i)));
        if missing && demanded {
            told(24);
        }
        if missing || bad_number || bad_text {
            continue;
        }
        let outside = match (file, field, of_six(file, field)) {
            (1, 2, _) => !b"PXLTC".contains(&have[0]),
            (5, 8, _) => !b"+-".contains(&have[0]),
            (7, 2, _) => !b"ACEIH".contains(&have[0]),
            (2, 6, _) | (3, 7, _) => have[..3] > b"359"[..] || have[3..] > b"59"[..],
            (3, 8, _) => have == b"0",
            (_, _, Some(i)) if i % 2 == 0 => {
                let size = at(i + 1);
                let zero = size.iter().all(|&b| b == b'0');
                !b"+-".contains(&have[0]) || have[0] == b'-' && zero
            }
            _ => false,
        };
        if outside {
            told(25);
        }
    }
    list
}

fn key(files: &Files, file: usize, record: usize) -> (&[u8], &[u8]) {
    let first = bytes(files, file, record, 1);
    match file {
        6 => (first, bytes(files, file, record, 2)),
        _ => (first, &[]),
    }
}

fn thirties(files: &Files, list: &mut Vec<Place>) {
    for file in 1..=FILES {
        for later in records(files, file) {
            if (1..later).any(|earlier| key(files, file, earlier) == key(files, file, later)) {
                list.push((3, file, later, if file == 6 { 2 } else { 1 }, 30));
            }
        }
    }
}

/// The bytes of the line id a tramo uses.
fn line_of(files: &Files, tramo: usize) -> &[u8] {
    let named = bytes(files, 5, tramo, 4);
    if is_blank(named) {
        bytes(files, 5, tramo, 1)
    } else {
        named
    }
}

fn forties(files: &Files, list: &mut Vec<Place>) {
    let names =
        |file: usize, id: &[u8]| records(files, file).any(|r| bytes(files, file, r, 1) == id);
    for (file, field, target) in [
        (2, 2, 8),
        (2, 3, 7),
        (3, 2, 8),
        (4, 2, 8),
        (5, 2, 4),
        (5, 3, 0),
        (5, 6, 7),
        (5, 7, 7),
    ] {
        for record in records(files, file) {
            let id = bytes(files, file, record, field);
            if !is_blank(id) && (target == 0 || !names(target, id)) {
                list.push((4, file, record, field, 40));
            }
        }
    }
    for tramo in records(files, 5) {
        if !names(6, line_of(files, tramo)) {
            list.push((4, 5, tramo, 4, 40));
        }
    }
    for vertex in records(files, 6) {
        let line = bytes(files, 6, vertex, 1);
        if !records(files, 5).any(|tramo| line_of(files, tramo) == line) {
            list.push((4, 6, vertex, 1, 40));
        }
    }
    for (file, tipo) in [(2, b"P"), (3, b"X"), (4, b"L"), (5, b"T"), (8, b"C")] {
        let field = CODE[file - 1];
        for record in records(files, file) {
            let code = bytes(files, file, record, field);
            match records(files, 1).find(|&r| bytes(files, 1, r, 1) == code) {
                None => list.push((4, file, record, field, 40)),
                Some(entry) if bytes(files, 1, entry, 2) != tipo => {
                    list.push((4, file, record, field, 41));
                }
                Some(_) => {}
            }
        }
    }
}

/// The bytes of X and Y with their signs; no two ways to write one place.
fn xy(files: &Files, file: usize, record: usize) -> Vec<&[u8]> {
    (0..4)
        .map(|i| bytes(files, file, record, FIRST_SIGN[file - 1] + i))
        .collect()
}

fn xyz(files: &Files, node: usize) -> Vec<&[u8]> {
    (3..=8).map(|field| bytes(files, 7, node, field)).collect()
}

fn value(bytes: &[u8]) -> u64 {
    std::str::from_utf8(bytes).unwrap().parse().unwrap()
}

fn fifties(files: &Files, list: &mut Vec<Place>) {
    let vertices_of = |line: &[u8]| {
        let line = line.to_vec();
        records(files, 6).filter(move |&v| bytes(files, 6, v, 1) == &line[..])
    };
    let order = |v: usize| value(bytes(files, 6, v, 2));
    let node = |id: &[u8]| {
        records(files, 7)
            .find(|&n| bytes(files, 7, n, 1) == id)
            .unwrap()
    };
    for v in records(files, 6) {
        let line = bytes(files, 6, v, 1);
        let has = |wanted: u64| vertices_of(line).any(|w| order(w) == wanted);
        if order(v) == 0 || order(v) > 1 && !has(order(v) - 1) {
            list.push((5, 6, v, 2, 50));
        }
        if order(v) == 1 && !has(2) {
            list.push((5, 6, v, 2, 51));
        }
    }
    for tramo in records(files, 5) {
        let line = line_of(files, tramo);
        let first = vertices_of(line).find(|&v| order(v) == 1);
        let last = vertices_of(line).max_by_key(|&v| order(v));
        for (vertex, field, reason) in [(first, 6, 52), (last, 7, 53)] {
            let end = node(bytes(files, 5, tramo, field));
            if vertex.map_or(false, |v| xy(files, 6, v) != xy(files, 7, end)) {
                list.push((5, 5, tramo, field, reason));
            }
        }
        if last.is_none() {
            list.push((5, 5, tramo, 4, 59));
        }
    }
    for later in records(files, 7) {
        if (1..later).any(|earlier| xyz(files, earlier) == xyz(files, later)) {
            list.push((5, 7, later, 0, 54));
        }
        let id = bytes(files, 7, later, 1);
        let ends = |t: usize| bytes(files, 5, t, 6) == id || bytes(files, 5, t, 7) == id;
        let namers = records(files, 2).filter(|&p| bytes(files, 2, p, 3) == id);
        if !records(files, 5).any(ends)
            && !records(files, 6).any(|v| xy(files, 6, v) == xy(files, 7, later))
            && namers.count() < 2
        {
            list.push((5, 7, later, 0, 56));
        }
        // The codes that would do for it, by all vertices at its place.
        let here = records(files, 6).filter(|&v| xy(files, 6, v) == xy(files, 7, later));
        let is_last = |v: usize| {
            let line = bytes(files, 6, v, 1);
            vertices_of(line).all(|w| order(w) <= order(v))
        };
        let (at_ends, between): (Vec<usize>, Vec<usize>) =
            here.partition(|&v| order(v) == 1 || is_last(v));
        let is_end = records(files, 5).any(ends) || !at_ends.is_empty();
        let lawful = match (is_end, between.is_empty()) {
            (false, true) => b"A ".to_vec(),
            (true, true) => b"CE ".to_vec(),
            (false, false) => b"CI ".to_vec(),
            (true, false) => b"CH ".to_vec(),
        };
        if !lawful.contains(&bytes(files, 7, later, 2)[0]) {
            list.push((5, 7, later, 2, 58));
        }
    }
    for point in records(files, 2) {
        let id = bytes(files, 2, point, 3);
        if !is_blank(id) && xy(files, 2, point) != xy(files, 7, node(id)) {
            list.push((5, 2, point, 3, 55));
        }
    }
    for linear in records(files, 4) {
        let id = bytes(files, 4, linear, 1);
        if !records(files, 5).any(|t| bytes(files, 5, t, 2) == id) {
            list.push((5, 4, linear, 0, 57));
        }
    }
}

fn seventies(files: &Files, list: &mut Vec<Place>) {
    for composite in records(files, 8) {
        let id = bytes(files, 8, composite, 1);
        let named = |file: usize| records(files, file).any(|r| bytes(files, file, r, 2) == id);
        if ![2, 3, 4].into_iter().any(named) {
            list.push((7, 8, composite, 0, 70));
        }
    }
}

fn twenties(files: &Files, list: &mut Vec<Place>) {
    for file in 1..=FILES {
        for record in records(files, file) {
            list.extend(twenties_of_record(files, file, record));
        }
    }
}

/// What else a reason tells at its place: the least earlier record that is alike, or the letter of
/// the code's entry in the catalogue.
fn other(files: &Files, (_, file, record, field, reason): Place) -> u64 {
    let earlier = |alike: &dyn Fn(usize) -> bool| (1..record).find(|&r| alike(r)).unwrap() as u64;
    match reason {
        30 => earlier(&|r| key(files, file, r) == key(files, file, record)),
        54 => earlier(&|r| xyz(files, r) == xyz(files, record)),
        41 => {
            let code = bytes(files, file, record, field);
            let entry = records(files, 1).find(|&r| bytes(files, 1, r, 1) == code);
            u64::from(bytes(files, 1, entry.unwrap(), 2)[0])
        }
        _ => 0,
    }
}

/// All breaks of the lowest ten that has any.
pub fn lowest_ten(files: &Files) -> Vec<Place> {
    let mut list = Vec::new();
    for group in [tens, twenties, thirties, forties, fifties, seventies] {
        group(files, &mut list);
        if !list.is_empty() {
            break;
        }
    }
    list
}

fn listed(files: &Files) -> Option<Break> {
    let place = lowest_ten(files).into_iter().min()?;
    let (_, file, record, field, reason) = place;
    Some(Break {
        reason,
        file,
        record,
        field,
        other: other(files, place),
    })
}

/// One random change to a delivery.
pub fn disturb(files: &mut Files, noise: &mut Noise) {
    // The files that the fifties are read of come up more often.
    let file = [1, 2, 3, 4, 4, 5, 5, 6, 6, 6, 7, 7, 8, 8][noise.below(14)];
    let length = record_length(file);
    let count = files[file - 1].len() / length;
    if count == 0 {
        return;
    }
    let record = noise.below(count);
    let other = noise.below(count);
    let bytes = &mut files[file - 1];
    match noise.below(13) {
        0 => {
            bytes.drain(record * length..(record + 1) * length);
        }
        1 => {
            let copy = bytes[record * length..(record + 1) * length].to_vec();
            bytes.extend_from_slice(&copy);
        }
        2 => {
            for i in 0..length {
                bytes.swap(record * length + i, other * length + i);
            }
        }
        3 => {
            let at = noise.below(bytes.len());
            let palette = b" 0129+-|PXLTCNAD*\xA0\x00\r\n";
            bytes[at] = palette[noise.below(palette.len())];
        }
        // The place of one vertex or node given to another.
        9 if [6, 7].contains(&file) => {
            let from = start(file, other + 1, 3);
            let to = start(file, record + 1, 3);
            let place = bytes[from..(other + 1) * length].to_vec();
            bytes[to..(record + 1) * length].copy_from_slice(&place);
        }
        // One composite more, with an id of its own.
        11 | 12 if file == 8 => {
            let mut copy = bytes[record * length..(record + 1) * length].to_vec();
            let id = 10 + noise.below(1_000_000);
            copy[..10].copy_from_slice(format!("{id:010}").as_bytes());
            bytes.extend_from_slice(&copy);
        }
        4 if noise.below(8) == 0 => {
            let keep = noise.below(bytes.len());
            bytes.truncate(keep);
        }
        kind => {
            let field = 1 + noise.below(WIDTHS[file - 1].len());
            let width = WIDTHS[file - 1][field - 1];
            let to = start(file, record + 1, field);
            let from = start(file, other + 1, field);
            let number = NUMBERS[file - 1].contains(&field);
            let new = match kind {
                5 if noise.below(2) == 0 => vec![b' '; width],
                11 if file == 7 && field == 2 => vec![b"ACEIHae "[noise.below(8)]],
                // A0 anywhere in a text, its first and last byte included.
                10 if !number => {
                    let mut text = bytes[from..from + width].to_vec();
                    let used = text.iter().rposition(|&b| b != b' ').map_or(0, |n| n + 1);
                    text[noise.below((used + 1).min(width))] = 0xA0;
                    text
                }
                6 | 7 if number => {
                    let small = noise.below(6);
                    format!("{small:0width$}").into_bytes()
                }
                8 if number => {
                    let old = std::str::from_utf8(&bytes[to..to + width]).ok();
                    let old: u64 = old.and_then(|s| s.parse().ok()).unwrap_or(7);
                    let changed = old + 1 - 2 * (old.min(1) * noise.below(2) as u64);
                    let mut new = format!("{changed:0width$}").into_bytes();
                    new.truncate(width);
                    new
                }
                _ => bytes[from..from + width].to_vec(),
            };
            bytes[to..to + width].copy_from_slice(&new);
        }
    }
}

#[test]
fn the_first_break_is_the_least_of_the_list() {
    let mut noise = Noise(0xD15C0);
    let mut seen = [0_usize; 80];
    for _ in 0..12_000 {
        let mut files = rich();
        for _ in 0..noise.below(5) {
            disturb(&mut files, &mut noise);
        }
        let expected = listed(&files);
        let found = match judge(lent(&files)) {
            Verdict::Accepted(_) => None,
            Verdict::Broken(b) => Some(b),
        };
        assert_eq!(found, expected);
        seen[found.map_or(0, |b| usize::from(b.reason))] += 1;
    }
    for reason in [
        0, 11, 20, 21, 22, 23, 24, 25, 30, 40, 41, 50, 51, 52, 53, 54, 55, 56, 57, 58, 70,
    ] {
        assert!(seen[reason] >= 5, "{reason}: {}", seen[reason]);
    }
}

#[test]
fn reading_tells_the_least_of_the_records_list() {
    let mut noise = Noise(0xF1E1D);
    for _ in 0..2_000 {
        let mut files = rich();
        for _ in 0..12 {
            disturb(&mut files, &mut noise);
        }
        for file in 1..=FILES {
            for record in records(&files, file) {
                let list = twenties_of_record(&files, file, record);
                let expected = list
                    .iter()
                    .min()
                    .map(|&(_, _, _, field, reason)| Refusal { reason, field });
                let found = read(file, &files[file - 1], record).err();
                assert_eq!(found, expected);
            }
        }
    }
}
