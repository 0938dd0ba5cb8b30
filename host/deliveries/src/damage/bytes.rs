//! Damage to the bytes of files: reasons 10 to 25, and blunt damage.

use std::ops::Range;

use super::{strike, ByteStep};
use crate::layout::{field_start, fields, Domain, Field, Form, FILES, OB_COMP, OB_LIN, RECORD};
use crate::model::Files;
use crate::random::Random;
use crate::values::NO_BREAK;

/// Bytes at the edges of what fields, bars and record ends may hold.
const NASTY: &[u8] = &[
    0x20, 0x7C, 0x0D, 0x0A, b'-', b'+', b'0', 0x7F, 0xA0, 0x1F, 0xFF, 0x80, 0x7E, 0x9F, 0x00, b'9',
    b':', b'/',
];

fn records(files: &Files, file: usize) -> usize {
    files[file].len() / RECORD[file]
}

/// Any file with so many whole records at least.
fn file_with(random: &mut Random, files: &Files, least: usize) -> Option<usize> {
    random.one_of(
        (0..FILES)
            .filter(|&file| records(files, file) >= least)
            .collect(),
    )
}

fn file_with_bytes(random: &mut Random, files: &Files) -> Option<usize> {
    random.one_of((0..FILES).filter(|&file| !files[file].is_empty()).collect())
}

fn record_range(file: usize, record: usize) -> Range<usize> {
    record * RECORD[file]..(record + 1) * RECORD[file]
}

fn any_record(random: &mut Random, files: &Files, file: usize) -> Range<usize> {
    record_range(file, random.index(records(files, file)))
}

/// A field of a record: its bytes stand at `at` in the file.
struct Spot {
    file: usize,
    field: &'static Field,
    at: Range<usize>,
}

/// Any field of the wanted sort; the file is drawn first, so that short
/// records aren't struck less.
fn spot(random: &mut Random, files: &Files, wanted: fn(&Field) -> bool) -> Option<Spot> {
    let with_field = (0..FILES)
        .filter(|&file| records(files, file) > 0 && fields(file).iter().any(wanted))
        .collect();
    let file = random.one_of(with_field)?;
    let record = any_record(random, files, file);
    let places = (0..fields(file).len())
        .filter(|&place| wanted(&fields(file)[place]))
        .collect();
    let place = random.one_of(places)?;
    Some(spot_of(file, record.start, place))
}

fn spot_of(file: usize, record_start: usize, place: usize) -> Spot {
    let field = &fields(file)[place];
    let start = record_start + field_start(file, place);
    Spot {
        file,
        field,
        at: start..start + field.width,
    }
}

impl Spot {
    fn bytes<'a>(&self, files: &'a mut Files) -> &'a mut [u8] {
        &mut files[self.file][self.at.clone()]
    }

    fn is_blank(&self, files: &Files) -> bool {
        files[self.file][self.at.clone()]
            .iter()
            .all(|&byte| byte == b' ')
    }

    fn fill(&self, files: &mut Files, byte: u8) {
        self.bytes(files).fill(byte);
    }
}

/// A sign and the number behind it.
struct Pair {
    sign: Spot,
    number: Spot,
}

/// Any pair that is as asked; the file is drawn first here too.
fn pair(random: &mut Random, files: &Files, wanted: fn(&Pair, &Files) -> bool) -> Option<Pair> {
    let mut by_file = Vec::new();
    for file in 0..FILES {
        let mut pairs: Vec<Pair> = (0..records(files, file))
            .flat_map(|record| pairs_of(file, record))
            .collect();
        pairs.retain(|pair| wanted(pair, files));
        if !pairs.is_empty() {
            by_file.push(pairs);
        }
    }
    let pairs = random.one_of(by_file)?;
    random.one_of(pairs)
}

/// The pairs of X, Y and Z in a record, if it has any.
fn pairs_of(file: usize, record: usize) -> Vec<Pair> {
    let start = record_range(file, record).start;
    (0..fields(file).len())
        .filter(|&place| fields(file)[place].is_sign())
        .map(|place| Pair {
            sign: spot_of(file, start, place),
            number: spot_of(file, start, place + 1),
        })
        .collect()
}

impl Pair {
    fn is_blank(&self, files: &Files) -> bool {
        self.sign.is_blank(files) && self.number.is_blank(files)
    }

    fn is_filled(&self, files: &Files) -> bool {
        !self.sign.is_blank(files) && !self.number.is_blank(files)
    }
}

// Reason 10: appended to a file of exactly 16,384 records.

pub fn lengthen(random: &mut Random, bytes: &mut Vec<u8>, file: usize) {
    let extra = match random.below(4) {
        0 => 1,
        1 => RECORD[file] - 1,
        2 => RECORD[file],
        _ => RECORD[file] * (2 + random.index(3)),
    };
    let more = bytes[..extra].to_vec();
    bytes.extend_from_slice(&more);
}

// Reason 11.

pub const RAGGED_END: &[ByteStep] = &[
    |random, files| {
        let file = random.index(FILES);
        let part = 1 + random.index(RECORD[file] - 1);
        let tail = match random.below(5) {
            0 => b"\n".to_vec(),
            1 => b"\r\n".to_vec(),
            2 => b"\x1A".to_vec(),
            3 if records(files, file) > 0 => files[file][..part].to_vec(),
            _ => vec![b' '; part],
        };
        files[file].extend_from_slice(&tail);
        true
    },
    |random, files| {
        strike(file_with(random, files, 1), |file| {
            let cut = 1 + random.index(RECORD[file] - 1);
            let left = files[file].len() - cut;
            files[file].truncate(left);
        })
    },
];

// Reasons 20 and 21.

const WRONG_ENDS: &[&[u8; 2]] = &[
    b"\n\r", b"\n\n", b"\r\r", b"  ", b"\r ", b" \n", b"|\n", b"\r|", b"\0\n", b"||",
];

pub const RECORD_END: &[ByteStep] = &[|random, files| {
    strike(file_with(random, files, 1), |file| {
        let end = any_record(random, files, file).end;
        let wrong = random.pick(WRONG_ENDS);
        files[file][end - 2..end].copy_from_slice(wrong);
    })
}];

pub const NO_BAR: &[ByteStep] = &[|random, files| {
    strike(file_with(random, files, 1), |file| {
        let record = any_record(random, files, file);
        let place = random.index(fields(file).len() - 1);
        let bar = spot_of(file, record.start, place).at.end;
        files[file][bar] = random.pick(b" !I{};,0+\r\n\0\x7F\xFC\xA6\xA0");
    })
}];

// Reason 22.

pub const BROKEN_NUMBER: &[ByteStep] = &[
    |random, files| {
        strike(spot(random, files, is_number), |number| {
            let place = random.index(number.field.width);
            number.bytes(files)[place] = random.pick(b"-+.,OIle|/:\0\x1F\t\xA0\xB2\xFF");
        })
    },
    // A blank among digits, or a digit among blanks.
    |random, files| {
        strike(spot(random, files, is_wide_number), |number| {
            let was_blank = number.is_blank(files);
            let place = random.index(number.field.width);
            number.bytes(files)[place] = if was_blank { b'0' } else { b' ' };
        })
    },
    // Filled with blanks instead of zeros, on either side.
    |random, files| {
        strike(spot(random, files, is_wide_number), |number| {
            let blanks = 1 + random.index(number.field.width - 1);
            let left = random.chance(1, 2);
            let bytes = number.bytes(files);
            bytes.fill(b'1');
            if left {
                bytes[..blanks].fill(b' ');
            } else {
                let from = bytes.len() - blanks;
                bytes[from..].fill(b' ');
            }
        })
    },
];

fn is_number(field: &Field) -> bool {
    field.form == Form::N
}

fn is_wide_number(field: &Field) -> bool {
    field.form == Form::N && field.width > 1
}

// Reason 23.

pub const BROKEN_TEXT: &[ByteStep] = &[
    |random, files| {
        strike(spot(random, files, is_text), |text| {
            let place = random.index(text.field.width);
            text.bytes(files)[place] = random.pick(b"\0\t\n\r\x1F\x7F\x80\x85\x9F");
        })
    },
    // Pushed to the right by a blank.
    |random, files| {
        strike(spot(random, files, is_wide_text), |text| {
            let was_blank = text.is_blank(files);
            let place = 1 + random.index(text.field.width - 1);
            let bytes = text.bytes(files);
            bytes.rotate_right(1);
            bytes[0] = b' ';
            if was_blank {
                bytes[place] = b'x';
            }
        })
    },
    // Pushed to the right end.
    |random, files| {
        strike(spot(random, files, is_wide_text), |text| {
            text.fill(files, b' ');
            let word = random.pick(&[b"NA", b"ND", b"x|"]);
            let bytes = text.bytes(files);
            let from = bytes.len() - 2;
            bytes[from..].copy_from_slice(word);
        })
    },
];

pub const NO_BREAK_PADDING: &[ByteStep] = &[
    // Before the text, which moves to the right.
    |random, files| {
        strike(spot(random, files, is_text), |text| {
            let bytes = text.bytes(files);
            bytes.rotate_right(1);
            bytes[0] = NO_BREAK;
        })
    },
    // After it, in the place of some blanks or of all. A text that fills its
    // field gives up its last byte.
    |random, files| {
        strike(spot(random, files, is_text), |text| {
            let bytes = text.bytes(files);
            let used = text_length(bytes).min(bytes.len() - 1);
            let padding = 1 + random.index(bytes.len() - used);
            bytes[used..used + padding].fill(NO_BREAK);
        })
    },
    // In the last byte of a text that fills its field.
    |random, files| {
        strike(spot(random, files, is_wide_text), |text| {
            text.fill(files, b'x');
            let bytes = text.bytes(files);
            bytes[bytes.len() - 1] = NO_BREAK;
        })
    },
    // Alone: no text at all, and yet not missing.
    |random, files| {
        strike(spot(random, files, is_text), |text| {
            text.fill(files, b' ');
            text.bytes(files)[0] = NO_BREAK;
        })
    },
    // After NA and ND, which it doesn't make a code of.
    |random, files| {
        strike(spot(random, files, Field::is_code), |code| {
            code.fill(files, b' ');
            let word = random.pick(&[b"NA\xA0", b"ND\xA0"]);
            code.bytes(files)[..3].copy_from_slice(word);
        })
    },
];

/// The bytes of a field up to the blanks after its text.
fn text_length(bytes: &[u8]) -> usize {
    let last = bytes.iter().rposition(|&byte| byte != b' ');
    last.map_or(0, |last| last + 1)
}

fn is_text(field: &Field) -> bool {
    field.form == Form::A
}

fn is_wide_text(field: &Field) -> bool {
    field.form == Form::A && field.width > 1
}

// Reason 24.

pub const MISSING_FIELD: &[ByteStep] = &[
    |random, files| {
        strike(spot(random, files, |field| field.must), |field| {
            field.fill(files, b' ');
        })
    },
    |random, files| {
        strike(spot(random, files, |field| field.must), |field| {
            field.fill(files, b' ');
            if field.field.is_code() {
                let missing = random.pick(&[b"NA", b"ND"]);
                field.bytes(files)[..2].copy_from_slice(missing);
            }
        })
    },
];

pub const MISSING_PARTNER: &[ByteStep] = &[
    |random, files| {
        strike(pair(random, files, Pair::is_filled), |pair| {
            let lost = random.chance(1, 2);
            let spot = if lost { pair.sign } else { pair.number };
            spot.fill(files, b' ');
        })
    },
    |random, files| {
        strike(pair(random, files, Pair::is_blank), |pair| {
            match random.below(4) {
                0 => pair.sign.fill(files, b'-'),
                1 => pair.sign.fill(files, b'+'),
                2 => pair.number.fill(files, b'7'),
                _ => pair.number.fill(files, b'0'),
            }
        })
    },
    // X or Y taken out of a centroid.
    |random, files| {
        let centroids = centroids(files, Pair::is_filled);
        strike(random.one_of(centroids), |mut centroid| {
            let lost = centroid.swap_remove(random.index(2));
            lost.sign.fill(files, b' ');
            lost.number.fill(files, b' ');
        })
    },
    // A centroid with one coordinate only.
    |random, files| {
        let centroids = centroids(files, Pair::is_blank);
        strike(random.one_of(centroids), |mut centroid| {
            let alone = centroid.swap_remove(random.index(3));
            alone.sign.fill(files, b'+');
            alone.number.fill(files, b'0');
        })
    },
];

/// The centroids whose X and Y are both as asked, as three pairs each.
fn centroids(files: &Files, wanted: fn(&Pair, &Files) -> bool) -> Vec<Vec<Pair>> {
    [OB_LIN, OB_COMP]
        .into_iter()
        .flat_map(|file| (0..records(files, file)).map(move |record| pairs_of(file, record)))
        .filter(|pairs| wanted(&pairs[0], files) && wanted(&pairs[1], files))
        .collect()
}

// Reason 25.

pub const OUTSIDE_DOMAIN: &[ByteStep] = &[|random, files| {
    strike(spot(random, files, Field::has_domain), |spot| {
        let outside = outside(random, spot.field);
        spot.bytes(files).copy_from_slice(&outside);
    })
}];

/// Something that keeps the field's form and isn't in its domain.
fn outside(random: &mut Random, field: &Field) -> Vec<u8> {
    let inside = match field.domain {
        Domain::Any => panic!("{} has no domain", field.name),
        Domain::Angle => return outside_angle(random),
        Domain::OneOf(bytes) => bytes,
    };
    // S is a type of MIGRA that has no file here, small letters are no types
    // at all. A0 would be damage, and no value.
    let mut bytes = match field.form {
        Form::N => b"0".to_vec(),
        Form::A => b"CSplxtaceih*0~|._\xA1\xB1\xD7PXLTAEIH+-".to_vec(),
    };
    bytes.retain(|byte| !inside.contains(byte));
    vec![random.pick(&bytes)]
}

/// Degrees past 359 or minutes past 59.
fn outside_angle(random: &mut Random) -> Vec<u8> {
    let (degrees, minutes) = (random.below(360), random.below(60));
    let angle = match random.below(5) {
        0 => random.pick(&[60, 36_000, 35_960, 36_060, 99_999, 35_999]),
        1 | 2 => 100 * (360 + random.below(640)) + minutes,
        3 => 100 * degrees + 60 + random.below(40),
        _ => 100 * (360 + random.below(640)) + 60 + random.below(40),
    };
    format!("{angle:05}").into_bytes()
}

pub const MINUS_ZERO: &[ByteStep] = &[|random, files| {
    strike(pair(random, files, |_, _| true), |pair| {
        pair.sign.fill(files, b'-');
        pair.number.fill(files, b'0');
    })
}];

// Whole records.

pub const RECORDS_SWAPPED: &[ByteStep] = &[|random, files| {
    strike(file_with(random, files, 2), |file| {
        let count = records(files, file);
        let one = random.index(count);
        let other = (one + 1 + random.index(count - 1)) % count;
        let kept = files[file][record_range(file, one)].to_vec();
        files[file].copy_within(record_range(file, other), record_range(file, one).start);
        files[file][record_range(file, other)].copy_from_slice(&kept);
    })
}];

pub const RECORD_REMOVED: &[ByteStep] = &[|random, files| {
    strike(file_with(random, files, 1), |file| {
        let record = any_record(random, files, file);
        files[file].drain(record);
    })
}];

pub const RECORD_DOUBLED: &[ByteStep] = &[|random, files| {
    strike(file_with(random, files, 1), |file| {
        let copy = files[file][any_record(random, files, file)].to_vec();
        let place = random.index(records(files, file) + 1) * RECORD[file];
        files[file].splice(place..place, copy);
    })
}];

// Single bytes.

pub const CHANGED_BYTE: &[ByteStep] = &[
    |random, files| {
        strike(file_with_bytes(random, files), |file| {
            let place = random.index(files[file].len());
            files[file][place] ^= 1 + random.below(255) as u8;
        })
    },
    |random, files| {
        strike(file_with_bytes(random, files), |file| {
            let place = random.index(files[file].len());
            files[file][place] ^= 1 << random.below(8);
        })
    },
];

pub const NASTY_BYTE: &[ByteStep] = &[|random, files| {
    strike(file_with_bytes(random, files), |file| {
        let place = random.index(files[file].len());
        let mut bytes = NASTY.to_vec();
        bytes.retain(|&byte| byte != files[file][place]);
        files[file][place] = random.pick(&bytes);
    })
}];

pub const BYTE_INSERTED: &[ByteStep] = &[|random, files| {
    let file = random.index(FILES);
    let place = random.index(files[file].len() + 1);
    files[file].insert(place, random.pick(NASTY));
    true
}];

pub const BYTE_REMOVED: &[ByteStep] = &[|random, files| {
    strike(file_with_bytes(random, files), |file| {
        let place = random.index(files[file].len());
        files[file].remove(place);
    })
}];

// Whole files.

pub const TRUNCATED: &[ByteStep] = &[
    |random, files| {
        strike(file_with_bytes(random, files), |file| {
            let length = random.index(files[file].len());
            files[file].truncate(length);
        })
    },
    // After a whole record, or more than the length would never be read.
    |random, files| {
        strike(file_with(random, files, 1), |file| {
            let kept = random.index(records(files, file));
            files[file].truncate(kept * RECORD[file]);
        })
    },
];

pub const FILES_SWAPPED: &[ByteStep] = &[|random, files| {
    let mut pairs = Vec::new();
    for one in 0..FILES {
        for other in 0..one {
            if files[one] != files[other] {
                pairs.push((one, other));
            }
        }
    }
    strike(random.one_of(pairs), |(one, other)| files.swap(one, other))
}];

pub const FILE_EMPTIED: &[ByteStep] =
    &[|random, files| strike(file_with_bytes(random, files), |file| files[file].clear())];

pub const RANDOM_FILE: &[ByteStep] = &[
    |random, files| {
        let file = random.index(FILES);
        let length = 1 + random.index(400);
        files[file] = (0..length).map(|_| random.below(256) as u8).collect();
        true
    },
    // Of whole records, so that something beyond the length is read.
    |random, files| {
        let file = random.index(FILES);
        let length = RECORD[file] * (1 + random.index(3));
        files[file] = (0..length).map(|_| random.pick(NASTY)).collect();
        true
    },
    // With bars and record ends in place.
    |random, files| {
        let file = random.index(FILES);
        let mut bytes = Vec::new();
        for _ in 0..1 + random.index(3) {
            for field in fields(file) {
                bytes.extend((0..field.width).map(|_| random.pick(b"0 1+-|NA")));
                bytes.push(b'|');
            }
            bytes.pop();
            bytes.extend_from_slice(b"\r\n");
        }
        files[file] = bytes;
        true
    },
];

// Several fields at once, so that breaks meet in one record.

pub const MIXED_PAIR: &[ByteStep] = &[|random, files| {
    strike(pair(random, files, |_, _| true), |pair| {
        let before = files[pair.sign.file].clone();
        while files[pair.sign.file] == before {
            redraw(random, files, &pair.sign);
            redraw(random, files, &pair.number);
        }
    })
}];

pub const MIXED_RECORD: &[ByteStep] = &[|random, files| {
    strike(file_with(random, files, 1), |file| {
        let start = any_record(random, files, file).start;
        let before = files[file].clone();
        while files[file] == before {
            for place in 0..fields(file).len() {
                let spot = spot_of(file, start, place);
                if random.chance(1, 3) {
                    redraw(random, files, &spot);
                }
                if random.chance(1, 40) {
                    files[file][spot.at.end] ^= 1;
                }
            }
        }
    })
}];

/// Gives a field one of the contents its rules tell apart.
fn redraw(random: &mut Random, files: &mut Files, spot: &Spot) {
    let width = spot.field.width;
    let contents: &[&[u8]] = match spot.field.form {
        Form::N => &[
            b"0", b"9", b" ", b"0 ", b" 0", b"0x", b"-1", b"35959", b"00060",
        ],
        Form::A if width == 1 => &[
            b"+", b"-", b" ", b"*", b"P", b"A", b"E", b"e", b"\x7F", b"\xA0",
        ],
        Form::A => &[
            b"NA ", b"ND ", b" ", b" x ", b"na ", b"x\x80", b"|", b"0", b"\xA0x ", b"x\xA0 ",
            b"x\xA0x ", b"NA\xA0 ",
        ],
    };
    let content = random.pick(contents);
    // The last byte fills the rest, so that `0` is all zeros and `NA ` padded.
    let rest = content[content.len() - 1];
    let bytes = spot.bytes(files);
    bytes.fill(rest);
    for (byte, &given) in bytes.iter_mut().zip(content) {
        *byte = given;
    }
}
