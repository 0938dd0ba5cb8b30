//! Single values: ids, codes, texts and coordinates, lawful by themselves and
//! drawn so that the edges come often.

use std::collections::BTreeSet;

use crate::random::Random;

pub const ID_MOST: u64 = 9_999_999_999;
pub const X_MOST: i64 = 999_999_999;
pub const Y_MOST: i64 = 9_999_999_999;
pub const Z_MOST: i64 = 99_999_999;
pub const ORDER_MOST: u64 = 99_999;

/// Ids that trip a program which cuts to 32 bits, compares unpadded text or
/// takes 0 for missing.
const EDGE_IDS: &[u64] = &[
    0,
    1,
    2,
    10,
    11,
    100,
    1_000_000_000,
    2_147_483_647,
    2_147_483_648,
    4_294_967_295,
    4_294_967_296,
    4_294_967_297,
    4_294_967_298,
    9_999_999_998,
    ID_MOST,
];

pub fn any_id(random: &mut Random) -> u64 {
    match random.below(3) {
        0 => random.pick(EDGE_IDS),
        1 => random.below(100),
        _ => random.below(ID_MOST + 1),
    }
}

/// The wished id, or another where it is taken already.
pub fn take_id(random: &mut Random, wish: u64, taken: &mut BTreeSet<u64>) -> u64 {
    let mut id = wish;
    while !taken.insert(id) {
        id = random.below(ID_MOST + 1);
    }
    id
}

/// So many different ids, in no order.
pub fn ids(random: &mut Random, count: usize) -> Vec<u64> {
    let style = random.below(4);
    let mut taken = BTreeSet::new();
    let mut list = Vec::with_capacity(count);
    for step in 0..count as u64 {
        let wish = match style {
            _ if random.chance(1, 8) => any_id(random),
            0 => step + 1,
            1 => step,
            2 => ID_MOST - step,
            _ => any_id(random),
        };
        list.push(take_id(random, wish, &mut taken));
    }
    random.shuffle(&mut list);
    list
}

/// An id outside the taken ones, often one that looks like a taken one.
pub fn fresh_id(random: &mut Random, taken: &BTreeSet<u64>) -> u64 {
    loop {
        let id = match (random.below(3), random.one_of(taken.iter().collect())) {
            (0, Some(&like)) => looks_like(random, like),
            (1, _) => any_id(random),
            _ => random.below(ID_MOST + 1),
        };
        if id <= ID_MOST && !taken.contains(&id) {
            return id;
        }
    }
}

fn looks_like(random: &mut Random, id: u64) -> u64 {
    match random.below(5) {
        0 => id + 1,
        1 => id.saturating_sub(1),
        2 => id * 10,
        3 => id / 10,
        _ => (id + (1 << 32)) % (ID_MOST + 1),
    }
}

/// A byte of the A set.
pub fn a_byte(random: &mut Random) -> u8 {
    let place = random.below(191) as u8;
    if place < 95 {
        0x20 + place
    } else {
        0xA0 + (place - 95)
    }
}

/// The no-break blank, which converters use as padding.
pub const NO_BREAK: u8 = 0xA0;

/// A blank of either sort: a text may neither begin nor end in it.
pub fn is_padding(byte: u8) -> bool {
    byte == b' ' || byte == NO_BREAK
}

/// A byte of the A set that a text may begin and end in.
pub fn visible_byte(random: &mut Random) -> u8 {
    match a_byte(random) {
        padding if is_padding(padding) => b'|',
        other => other,
    }
}

/// Codes of shapes a checker might take for missing, cut, or hold for equal.
const ODD_CODES: &[&[u8]] = &[
    b"na",
    b"nd",
    b"Na",
    b"nD",
    b"N.D.",
    b"N.A.",
    b"NAA",
    b"NDX",
    b"NA 1",
    b"ND ND",
    b"N A",
    b"N",
    b"NANDNA",
    b"NA|",
    b"|",
    b"|||||||",
    b"A|B",
    b"1 2 3",
    b"1     2",
    b"0",
    b"00",
    b"+",
    b"-1",
    b"~",
    b"N\xA0A",
    b"NA\xA0A",
    b"ND\xA0\xA0D",
    b"\xA1\xA0\xA1",
    b"\xD1and\xFA",
    b"\xFF\xFF\xFF\xFF\xFF\xFF\xFF",
    b"0100000",
    b"100000",
    b"0100001",
    b"010000",
];

fn any_code(random: &mut Random) -> Vec<u8> {
    match random.below(8) {
        0 | 1 => random.pick(ODD_CODES).to_vec(),
        2 => {
            let width = 1 + random.index(7);
            noise(random, width)
        }
        _ => format!("{:07}", random.below(10_000_000)).into_bytes(),
    }
}

/// A lawful code outside the taken ones.
pub fn fresh_code(random: &mut Random, taken: &BTreeSet<Vec<u8>>) -> Vec<u8> {
    loop {
        let code = any_code(random);
        if !code_is_missing(&code) && !taken.contains(&code) {
            return code;
        }
    }
}

/// A lawful code outside the taken ones, often one that looks like `like`.
pub fn code_beside(random: &mut Random, like: &[u8], taken: &BTreeSet<Vec<u8>>) -> Vec<u8> {
    for _ in 0..4 {
        let code = tidy(near_code(random, like), 7);
        if !code_is_missing(&code) && !taken.contains(&code) {
            return code;
        }
    }
    fresh_code(random, taken)
}

fn near_code(random: &mut Random, like: &[u8]) -> Vec<u8> {
    let mut code = like.to_vec();
    match random.below(6) {
        0 if code.len() > 1 => code.insert(1, NO_BREAK),
        1 => {
            code.pop();
        }
        2 if !code.is_empty() => {
            code.remove(0);
        }
        3 => code.insert(0, b'0'),
        4 if !code.is_empty() => {
            let place = random.index(code.len());
            code[place] ^= 0x20;
        }
        _ => code.push(b'|'),
    }
    if code.iter().all(|&byte| is_a_byte(byte)) {
        code
    } else {
        Vec::new()
    }
}

pub fn code_is_missing(code: &[u8]) -> bool {
    code.is_empty() || code == b"NA" || code == b"ND"
}

pub fn is_a_byte(byte: u8) -> bool {
    (0x20..=0x7E).contains(&byte) || byte >= 0xA0
}

/// A text's value has no blank of either sort at its ends and fits its width.
pub fn tidy(mut text: Vec<u8>, width: usize) -> Vec<u8> {
    text.truncate(width);
    while text.last().map_or(false, |&byte| is_padding(byte)) {
        text.pop();
    }
    let padding = text.iter().take_while(|&&byte| is_padding(byte)).count();
    text.drain(..padding);
    text
}

/// Bytes of the A set, exactly so many, blanks of either sort within only.
fn noise(random: &mut Random, width: usize) -> Vec<u8> {
    let mut text: Vec<u8> = (0..width).map(|_| a_byte(random)).collect();
    for end in [0, width - 1] {
        if is_padding(text[end]) {
            text[end] = visible_byte(random);
        }
    }
    text
}

const ODD_TEXTS: &[&[u8]] = &[
    b"NA",
    b"ND",
    b"na",
    b"N.D.",
    b"|",
    b"||||",
    b"a|b",
    b"0000000001| |+|000000100|+|0000000200| |",
    b"Nacional I | tramo 2",
    b"-",
    b"+000000000",
    b"N\xA0A",
    b"Santo\xA0Domingo",
    b"\xA1\xA0\xA1",
    b"Orilla   de    Lago",
];

const WORDS: &[&[u8]] = &[
    b"Ermita",
    b"del",
    b"Santo",
    b"Orilla",
    b"de",
    b"Lago",
    b"Mayor",
    b"R\xEDo",
    b"Manzanares",
    b"CARRETERA",
    b"N-VI",
    b"Almudena",
    b"3",
    b"|",
];

/// A lawful free text, which may be empty.
pub fn text(random: &mut Random, width: usize) -> Vec<u8> {
    let text = match random.below(12) {
        0 | 1 => Vec::new(),
        2 | 3 => random.pick(ODD_TEXTS).to_vec(),
        4 => noise(random, width),
        5 => {
            let length = 1 + random.index(width);
            noise(random, length)
        }
        _ => words(random),
    };
    tidy(text, width)
}

fn words(random: &mut Random) -> Vec<u8> {
    let mut text = Vec::new();
    for _ in 0..1 + random.index(8) {
        text.extend_from_slice(random.pick(WORDS));
        text.push(b' ');
        if random.chance(1, 8) {
            text.push(b' ');
        }
    }
    text
}

/// A number of so many digits at most, or missing.
pub fn optional(random: &mut Random, below: u64) -> Option<u64> {
    match random.below(6) {
        0 | 1 => None,
        2 => Some(0),
        3 => Some(below - 1),
        _ => Some(random.below(below)),
    }
}

/// An orientation, often at an edge of degrees or minutes, or missing.
pub fn orientation(random: &mut Random) -> Option<u64> {
    let degrees = random.below(360);
    let minutes = random.below(60);
    match random.below(8) {
        0 | 1 => None,
        2 => Some(random.pick(&[0, 59, 35_900, 35_959])),
        3 => Some(100 * degrees + random.pick(&[0, 59])),
        4 => Some(100 * random.pick(&[0, 9, 99, 359]) + minutes),
        _ => Some(100 * degrees + minutes),
    }
}

/// A text's justification, never missing.
pub fn justification(random: &mut Random) -> Option<u64> {
    Some(1 + random.below(9))
}

pub fn coordinate(random: &mut Random, most: i64) -> i64 {
    match random.below(16) {
        0 => 0,
        1 => most,
        2 => -most,
        3..=6 => random.between(-9, 9),
        7 => random.between(-most, most),
        // Numbers that differ by 2 to the 32 are equal once cut to 32 bits.
        8 => (random.between(-2, 2) * (1 << 32) + random.between(-2, 2)) % (most + 1),
        _ => random.between(0, 1_000_000) % (most + 1),
    }
}

/// A Z, missing at times.
pub fn height(random: &mut Random) -> Option<i64> {
    match random.below(6) {
        0 | 1 => None,
        2 => Some(0),
        _ => Some(coordinate(random, Z_MOST)),
    }
}

/// Another value within the width, often one that a careless comparison takes
/// for the same.
pub fn moved(random: &mut Random, value: i64, most: i64) -> i64 {
    loop {
        let other = match random.below(8) {
            0 => value + 1,
            1 => value - 1,
            2 => -value,
            3 => value + (1 << 32),
            4 => value - (1 << 32),
            5 => value / 10,
            6 => value * 10,
            _ => random.between(-most, most),
        };
        if other != value && (-most..=most).contains(&other) {
            return other;
        }
    }
}
