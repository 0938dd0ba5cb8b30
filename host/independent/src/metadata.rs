//! Metadata files (W-206): the form that chapter 6 of source 000 gives them,
//! and what they say of the files of a delivery.
//!
//! A file is split into lines once. Then every reason is looked for by itself,
//! from 80 on, since a lower reason hides a higher one wherever it stands. So
//! each search may count on what those before it have found to be in order.

use crate::layout::FILES;

/// The most lines a file may have.
const MOST_LINES: usize = 2_048;

/// The most bytes of a line, its end mark not counted.
const MOST_BYTES: usize = 256;

/// What is wrong with a metadata file.
#[derive(Clone, Copy, Debug, PartialEq, Eq)]
pub struct MetadataFault {
    /// The reason, 80 to 86.
    pub reason: u8,
    /// The line, counted from 1; 0 is the file as a whole.
    pub line: usize,
}

/// What is wrong first with a metadata file, by reason and then by line.
///
/// `counts` and `sizes` are the record counts and the sizes in bytes of files
/// 1 to 8.
pub fn metadata_fault(
    bytes: &[u8],
    counts: &[u64; FILES],
    sizes: &[u64; FILES],
) -> Option<MetadataFault> {
    let lines = split(bytes);
    first_fault(&lines, counts, sizes).map(|(reason, line)| MetadataFault { reason, line })
}

fn first_fault(lines: &[Line], counts: &[u64; FILES], sizes: &[u64; FILES]) -> Option<(u8, usize)> {
    if let Some(line) = too_much(lines) {
        return Some((80, line));
    }
    if let Some(line) = formless(lines) {
        return Some((81, line));
    }
    if let Some(line) = wrong_version(lines) {
        return Some((82, line));
    }
    let sections = file_sections(lines);
    if let Some(line) = unlisted(&sections, counts).or_else(|| misplaced(&sections)) {
        return Some((83, line));
    }
    if let Some(line) = sections.iter().find_map(FileSection::wrong_keys) {
        return Some((84, line));
    }
    if let Some(line) = wrong_number(&sections, COUNT, counts) {
        return Some((85, line));
    }
    wrong_number(&sections, SIZE, sizes).map(|line| (86, line))
}

/// A line without its end mark.
struct Line<'a> {
    bytes: &'a [u8],
    is_ended: bool,
}

/// The lines up to the first that is too many: that one settles the answer, or
/// one before it does, so what follows need not be read.
fn split(bytes: &[u8]) -> Vec<Line<'_>> {
    let mut lines = Vec::new();
    let mut rest = bytes;
    while !rest.is_empty() && lines.len() <= MOST_LINES {
        let end = rest.windows(2).position(|pair| pair == b"\r\n");
        let length = end.unwrap_or(rest.len());
        lines.push(Line {
            bytes: &rest[..length],
            is_ended: end.is_some(),
        });
        rest = rest.get(length + 2..).unwrap_or(&[]);
    }
    lines
}

/// What a line is by its form.
enum Kind<'a> {
    Empty,
    /// What stands between the brackets.
    Section(&'a [u8]),
    /// A key and its value, without the blanks beside the equals sign.
    Pair(&'a [u8], &'a [u8]),
    Other,
}

fn kind(line: &[u8]) -> Kind<'_> {
    if line.is_empty() {
        return Kind::Empty;
    }
    // In this order a lone bracket is not both the first and the last.
    let opened = line.strip_prefix(b"[");
    if let Some(name) = opened.and_then(|name| name.strip_suffix(b"]")) {
        return Kind::Section(name);
    }
    match equals_sign(line) {
        Some(at) => Kind::Pair(
            without_last_blanks(&line[..at]),
            without_first_blanks(&line[at + 1..]),
        ),
        None => Kind::Other,
    }
}

/// Where the first equals sign is that has a byte before it that isn't blank.
/// Such a byte may be an equals sign itself.
fn equals_sign(line: &[u8]) -> Option<usize> {
    let key = line.iter().position(|&byte| byte != b' ')?;
    let after = line[key + 1..].iter().position(|&byte| byte == b'=')?;
    Some(key + 1 + after)
}

fn without_first_blanks(text: &[u8]) -> &[u8] {
    let start = text.iter().position(|&byte| byte != b' ');
    &text[start.unwrap_or(text.len())..]
}

fn without_last_blanks(text: &[u8]) -> &[u8] {
    let last = text.iter().rposition(|&byte| byte != b' ');
    &text[..last.map_or(0, |last| last + 1)]
}

/// The accepted spellings of something, in small letters of ISO 8859-1.
type Spellings = &'static [&'static [u8]];

const VERSION: Spellings = &[b"version_de_migra"];

/// The three keys that a file needs; the places of the first, second and third
/// are those of `NAME`, `COUNT` and `SIZE`.
const KEYS: [Spellings; 3] = [
    &[b"nombre_migra"],
    &[b"numero_de_registros", b"n\xFAmero_de_registros"],
    &[b"tama\xF1o_en_bytes", b"tama\xF1o_en bytes"],
];
const NAME: usize = 0;
const COUNT: usize = 1;
const SIZE: usize = 2;

/// The MIGRA names in the order of section 5.5, each with the number of its
/// file. Surfaces and perimeters are no files of this stage.
const LISTED: [(Spellings, usize); FILES] = [
    (&[b"catalogo_de_elementos", b"cat\xE1logo_de_elementos"], 1),
    (&[b"objeto_compuesto"], 8),
    (&[b"objeto_puntual"], 2),
    (&[b"objeto_textual"], 3),
    (&[b"objeto_lineal"], 4),
    (&[b"tramo"], 5),
    (&[b"vertice"], 6),
    (&[b"nodo"], 7),
];

/// Whether a text is one of the spellings in any letter case.
fn is_one_of(text: &[u8], spellings: Spellings) -> bool {
    spellings
        .iter()
        .any(|spelling| text.len() == spelling.len() && small(text).eq(spelling.iter().copied()))
}

fn small(text: &[u8]) -> impl Iterator<Item = u8> + '_ {
    text.iter().map(|&byte| match byte {
        // The capitals of the spellings that aren't ASCII: their small letters
        // stand 32 places after them as well.
        0xC1 | 0xD1 | 0xDA => byte + 32,
        _ => byte.to_ascii_lowercase(),
    })
}

/// Whether a text is digits only, at least one, and their number is this one.
/// The digits are compared as digits, since there may be any number of them.
fn is_number(text: &[u8], number: u64) -> bool {
    if text.is_empty() || !text.iter().all(u8::is_ascii_digit) {
        return false;
    }
    let zeros = text.iter().take_while(|&&digit| digit == b'0').count();
    let digits: &[u8] = if zeros == text.len() {
        b"0"
    } else {
        &text[zeros..]
    };
    digits == number.to_string().as_bytes()
}

/// 80: the first line that is too long or one too many.
fn too_much(lines: &[Line]) -> Option<usize> {
    numbered(lines)
        .find(|(number, line)| *number > MOST_LINES || line.bytes.len() > MOST_BYTES)
        .map(|(number, _)| number)
}

/// 81: the first line of no known form or without its end mark.
fn formless(lines: &[Line]) -> Option<usize> {
    numbered(lines)
        .find(|(_, line)| !line.is_ended || matches!(kind(line.bytes), Kind::Other))
        .map(|(number, _)| number)
}

/// 82: the first version that isn't 1, or line 0 if there is none at all.
fn wrong_version(lines: &[Line]) -> Option<usize> {
    let mut is_missing = true;
    for (number, line) in numbered(lines) {
        match kind(line.bytes) {
            Kind::Pair(key, value) if is_one_of(key, VERSION) => {
                if !is_number(value, 1) {
                    return Some(number);
                }
                is_missing = false;
            }
            _ => {}
        }
    }
    if is_missing {
        Some(0)
    } else {
        None
    }
}

fn numbered<'a>(lines: &'a [Line<'a>]) -> impl Iterator<Item = (usize, &'a Line<'a>)> {
    (1..).zip(lines)
}

/// What a section named FICHERO and digits says of its file.
struct FileSection<'a> {
    line: usize,
    /// The line and the value of the first of each of `KEYS`.
    found: [Option<(usize, &'a [u8])>; 3],
    /// The line of the first of `KEYS` that was there before.
    repeated: Option<usize>,
}

impl<'a> FileSection<'a> {
    fn note(&mut self, line: usize, key: &[u8], value: &'a [u8]) {
        for (spellings, found) in KEYS.iter().zip(&mut self.found) {
            if is_one_of(key, spellings) {
                if found.is_none() {
                    *found = Some((line, value));
                } else {
                    self.repeated = self.repeated.or(Some(line));
                }
            }
        }
    }

    /// The place in `LISTED` of the file that the section names.
    fn place(&self) -> Option<usize> {
        let (_, name) = self.found[NAME]?;
        LISTED
            .iter()
            .position(|(spellings, _)| is_one_of(name, spellings))
    }

    /// The file that the section names, counted from 1.
    fn file(&self) -> Option<usize> {
        self.place().map(|place| LISTED[place].1)
    }

    /// 84: an absent key is told at the section's line, which comes before
    /// those of its keys.
    fn wrong_keys(&self) -> Option<usize> {
        if self.found.iter().any(Option::is_none) {
            Some(self.line)
        } else {
            self.repeated
        }
    }
}

/// The sections of files, in the order of the lines.
fn file_sections<'a>(lines: &'a [Line<'a>]) -> Vec<FileSection<'a>> {
    let mut sections = Vec::new();
    let mut open = None;
    for (number, line) in numbered(lines) {
        match kind(line.bytes) {
            Kind::Section(name) => {
                sections.extend(open.take());
                if is_file_section(name) {
                    open = Some(FileSection {
                        line: number,
                        found: [None; 3],
                        repeated: None,
                    });
                }
            }
            Kind::Pair(key, value) => {
                if let Some(section) = &mut open {
                    section.note(number, key, value);
                }
            }
            Kind::Empty | Kind::Other => {}
        }
    }
    sections.extend(open);
    sections
}

fn is_file_section(name: &[u8]) -> bool {
    const WORD: &[u8] = b"fichero";
    name.len() > WORD.len()
        && small(&name[..WORD.len()]).eq(WORD.iter().copied())
        && name[WORD.len()..].iter().all(u8::is_ascii_digit)
}

/// 83 at line 0: a file with records that no section names.
fn unlisted(sections: &[FileSection], counts: &[u64; FILES]) -> Option<usize> {
    let mut is_listed = [false; FILES];
    for file in sections.iter().filter_map(FileSection::file) {
        is_listed[file - 1] = true;
    }
    let is_left_out = |(count, is_listed): (&u64, bool)| *count > 0 && !is_listed;
    if counts.iter().zip(is_listed).any(is_left_out) {
        Some(0)
    } else {
        None
    }
}

/// 83 at a name: an unknown file, or one that does not come after all those
/// listed before it.
fn misplaced(sections: &[FileSection]) -> Option<usize> {
    let mut least = 0;
    for section in sections {
        if let Some((line, _)) = section.found[NAME] {
            match section.place() {
                Some(place) if place >= least => least = place + 1,
                _ => return Some(line),
            }
        }
    }
    None
}

/// 85 and 86: the first count or size that isn't that of the file.
fn wrong_number(sections: &[FileSection], key: usize, actual: &[u64; FILES]) -> Option<usize> {
    sections.iter().find_map(|section| {
        let file = section.file()?;
        let (line, value) = section.found[key]?;
        if is_number(value, actual[file - 1]) {
            None
        } else {
            Some(line)
        }
    })
}

#[cfg(test)]
mod tests {
    use super::*;

    /// No file has records, so that none must be listed.
    const NONE: [u64; FILES] = [0; FILES];
    const COUNTS: [u64; FILES] = [5, 2, 1, 4, 6, 14, 3, 7];
    const SIZES: [u64; FILES] = [665, 298, 144, 512, 462, 756, 150, 819];

    fn told(bytes: &[u8], counts: &[u64; FILES], sizes: &[u64; FILES]) -> Option<(u8, usize)> {
        metadata_fault(bytes, counts, sizes).map(|fault| (fault.reason, fault.line))
    }

    /// The answer for a file by itself, with nothing to be held against.
    fn alone(bytes: &[u8]) -> Option<(u8, usize)> {
        told(bytes, &NONE, &NONE)
    }

    /// The lines of a slice, each with its mark.
    fn marked(lines: &[&[u8]]) -> Vec<u8> {
        lines.iter().flat_map(|l| [*l, b"\r\n"].concat()).collect()
    }

    /// The answer for one line, the second, after a right version.
    fn line(line: &[u8]) -> Option<(u8, usize)> {
        alone(&marked(&[b"VERSION_DE_MIGRA=1", line]))
    }

    /// The answer for lines after a right version and `[FICHERO1]`, lines 1 and
    /// 2, where the catalogue has 5 records of 133 bytes and no other file any.
    fn catalogue(rest: &[&[u8]]) -> Option<(u8, usize)> {
        let mut lines: Vec<&[u8]> = vec![b"VERSION_DE_MIGRA=1", b"[FICHERO1]"];
        lines.extend(rest);
        let (mut counts, mut sizes) = (NONE, NONE);
        counts[0] = 5;
        sizes[0] = 665;
        told(&marked(&lines), &counts, &sizes)
    }

    const NAME_LINE: &[u8] = b"NOMBRE_MIGRA=catalogo_de_elementos";
    const COUNT_LINE: &[u8] = b"NUMERO_DE_REGISTROS=5";
    const SIZE_LINE: &[u8] = b"TAMA\xD1O_EN_BYTES=665";

    /// A list of files by these names, of which none has records.
    fn list(names: &[&[u8]]) -> Option<(u8, usize)> {
        let mut bytes = b"VERSION_DE_MIGRA=1\r\n".to_vec();
        for name in names {
            let named = [b"NOMBRE_MIGRA=", *name].concat();
            bytes.extend(marked(&[
                b"[FICHERO1]",
                &named,
                b"NUMERO_DE_REGISTROS=0",
                b"TAMA\xD1O_EN_BYTES=0",
            ]));
        }
        alone(&bytes)
    }

    /// A whole file in the order of section 5.5: the section of the file at
    /// place p, from 0, is line 5p + 3, its name, count and size follow.
    fn whole() -> Vec<u8> {
        let mut bytes = marked(&[b"[VERSION_DE_MIGRA]", b"VERSION_DE_MIGRA=1"]);
        for (place, (spellings, file)) in LISTED.iter().enumerate() {
            bytes.extend(format!("[FICHERO{}]\r\nNOMBRE_MIGRA=", place + 1).bytes());
            bytes.extend(spellings[0]);
            bytes.extend(format!("\r\nNUMERO_DE_REGISTROS={}\r\n", COUNTS[file - 1]).bytes());
            bytes.extend(b"TAMA\xD1O_EN BYTES=");
            bytes.extend(format!("{}\r\n\r\n", SIZES[file - 1]).bytes());
        }
        bytes
    }

    #[test]
    fn whole_files() {
        assert_eq!(told(&whole(), &COUNTS, &SIZES), None);
        for (place, (_, file)) in LISTED.iter().enumerate() {
            let (mut counts, mut sizes) = (COUNTS, SIZES);
            counts[file - 1] += 1;
            sizes[file - 1] += 1;
            let (count, size) = (5 * place + 5, 5 * place + 6);
            assert_eq!(told(&whole(), &counts, &SIZES), Some((85, count)));
            assert_eq!(told(&whole(), &COUNTS, &sizes), Some((86, size)));
            assert_eq!(told(&whole(), &counts, &sizes), Some((85, count)));
        }
    }

    /// Without any one line of the whole file there is something to tell.
    #[test]
    fn whole_files_less_one_line() {
        let bytes = whole();
        let lines = split(&bytes);
        for left_out in 0..lines.len() {
            let mut kept: Vec<&[u8]> = lines.iter().map(|line| line.bytes).collect();
            kept.remove(left_out);
            let expected = match left_out {
                0 => None,
                1 => Some((82, 0)),
                // The section before swallows the keys, and its own name is
                // then the one that counts.
                _ => match (left_out - 2) % 5 {
                    0 | 1 => Some((83, 0)),
                    2 | 3 => Some((84, left_out - (left_out - 2) % 5 + 1)),
                    _ => None,
                },
            };
            assert_eq!(told(&marked(&kept), &COUNTS, &SIZES), expected);
        }
    }

    #[test]
    fn empty_files() {
        assert_eq!(alone(b""), Some((82, 0)));
        assert_eq!(alone(b"\r\n"), Some((82, 0)));
        assert_eq!(told(b"", &COUNTS, &SIZES), Some((82, 0)));
    }

    #[test]
    fn lengths_of_lines() {
        let mut long = vec![b'='; 256];
        assert_eq!(line(&long), None);
        long.push(b'=');
        assert_eq!(line(&long), Some((80, 2)));
        // Also where the end mark lacks, and where another reason is before it.
        assert_eq!(alone(&long), Some((80, 1)));
        assert_eq!(alone(&long[1..]), Some((81, 1)));
        assert_eq!(alone(&marked(&[b" ", &long])), Some((80, 2)));
        assert_eq!(alone(&marked(&[b" ", &long, &long])), Some((80, 2)));
        // A 0D that no 0A follows is one of the bytes.
        long[256] = b'\r';
        assert_eq!(alone(&long), Some((80, 1)));
        assert_eq!(line(&long), Some((80, 2)));
        assert_eq!(line(&long[1..]), None);
    }

    #[test]
    fn numbers_of_lines() {
        let mut bytes = b"VERSION_DE_MIGRA=1\r\n".to_vec();
        bytes.extend(b"\r\n".repeat(2_047));
        assert_eq!(alone(&bytes), None);
        for more in [&b"\r\n"[..], b"A=b\r\n", b"A=b", b" ", b"\r", b"\n"] {
            assert_eq!(alone(&[&bytes, more].concat()), Some((80, 2_049)));
        }
        assert_eq!(alone(&b"\r\n".repeat(2_048)), Some((82, 0)));
        assert_eq!(alone(&b"x\r\n".repeat(5_000)), Some((80, 2_049)));
        assert_eq!(
            alone(&[&b"\r\n".repeat(2_047)[..], &[b'='; 300]].concat()),
            Some((80, 2_048))
        );
    }

    #[test]
    fn end_marks() {
        assert_eq!(alone(b"VERSION_DE_MIGRA=1\r\n"), None);
        assert_eq!(alone(b"VERSION_DE_MIGRA=1"), Some((81, 1)));
        assert_eq!(alone(b"VERSION_DE_MIGRA=1\r"), Some((81, 1)));
        assert_eq!(alone(b"VERSION_DE_MIGRA=1\n"), Some((81, 1)));
        assert_eq!(alone(b"VERSION_DE_MIGRA=1\n\r"), Some((81, 1)));
        assert_eq!(alone(b"VERSION_DE_MIGRA=1\r\n[A]"), Some((81, 2)));
        assert_eq!(alone(b"VERSION_DE_MIGRA=1\r\n\r"), Some((81, 2)));
        assert_eq!(alone(b"VERSION_DE_MIGRA=1\r\n\n"), Some((81, 2)));
        // Lone marks are bytes of the value, of the key or of a line of none.
        assert_eq!(alone(b"VERSION_DE_MIGRA=1\r\r\n"), Some((82, 1)));
        assert_eq!(alone(b"\nVERSION_DE_MIGRA=1\r\n"), Some((82, 0)));
        assert_eq!(line(b"A=b\nc"), None);
        assert_eq!(line(b"\n"), Some((81, 2)));
        assert_eq!(line(b"\r"), Some((81, 2)));
        assert_eq!(line(b"\n="), None);
    }

    #[test]
    fn forms_of_lines() {
        let right: [&[u8]; 16] = [
            b"", b"[]", b"[A]", b"[ ]", b"[=]", b"[A=b]", b"[A] B=c", b"[]]", b"[[]", b"A=",
            b"A=b=c", b" A = b ", b"==", b" ==", b"# a=b", b"\t=",
        ];
        for right in right {
            assert_eq!(line(right), None, "{:?}", right);
        }
        let wrong: [&[u8]; 14] = [
            b" ", b"    ", b"=", b"=x", b" =x", b"  = ", b"[", b"]", b"][", b"[A", b" [A]",
            b"[A] ", b"# note", b"\0",
        ];
        for wrong in wrong {
            assert_eq!(line(wrong), Some((81, 2)), "{:?}", wrong);
        }
        assert_eq!(alone(b"A=b\r\nx\r\ny\r\n"), Some((81, 2)));
    }

    #[test]
    fn parts_of_pairs() {
        let cases: [(&[u8], &[u8], &[u8]); 8] = [
            (b"A=b", b"A", b"b"),
            (b"A  =  b", b"A", b"b"),
            (b" A= b ", b" A", b"b "),
            (b"A=", b"A", b""),
            (b"A=  ", b"A", b""),
            (b"A==b", b"A", b"=b"),
            (b"==", b"=", b""),
            (b" =A= b", b" =A", b"b"),
        ];
        for (line, key, value) in cases {
            match kind(line) {
                Kind::Pair(k, v) => assert_eq!((k, v), (key, value)),
                _ => panic!("{:?} is no key line", line),
            }
        }
    }

    #[test]
    fn versions() {
        let right: [&[u8]; 6] = [
            b"VERSION_DE_MIGRA=1",
            b"version_de_migra=1",
            b"Version_De_Migra=1",
            b"VERSION_DE_MIGRA=01",
            b"VERSION_DE_MIGRA = 1",
            b"VERSION_DE_MIGRA  =  0001",
        ];
        for right in right {
            assert_eq!(alone(&marked(&[right])), None, "{:?}", right);
            assert_eq!(alone(&marked(&[b"[FICHERO]", right])), None);
        }
        let wrong: [&[u8]; 9] = [
            b"VERSION_DE_MIGRA=",
            b"VERSION_DE_MIGRA=0",
            b"VERSION_DE_MIGRA=2",
            b"VERSION_DE_MIGRA=10",
            b"VERSION_DE_MIGRA=1 ",
            b"VERSION_DE_MIGRA=1.0",
            b"VERSION_DE_MIGRA=+1",
            b"VERSION_DE_MIGRA==1",
            b"VERSION_DE_MIGRA=\xB9",
        ];
        for wrong in wrong {
            assert_eq!(alone(&marked(&[b"", wrong])), Some((82, 2)), "{:?}", wrong);
            assert_eq!(line(wrong), Some((82, 2)));
        }
        let other: [&[u8]; 5] = [
            b" VERSION_DE_MIGRA=1",
            b"VERSI\xD3N_DE_MIGRA=1",
            b"VERSION DE MIGRA=1",
            b"VERSION_DE_MIGRA\t=1",
            b"[VERSION_DE_MIGRA=1]",
        ];
        for other in other {
            assert_eq!(alone(&marked(&[other])), Some((82, 0)), "{:?}", other);
            assert_eq!(line(other), None);
        }
    }

    #[test]
    fn spellings_of_keys() {
        let counts: [&[u8]; 5] = [
            b"NUMERO_DE_REGISTROS=5",
            b"N\xDAMERO_DE_REGISTROS=5",
            b"n\xFAmero_de_registros=5",
            b"Numero_De_Registros  =  5",
            b"NUMERO_DE_REGISTROS=0005",
        ];
        for count in counts {
            let answer = catalogue(&[NAME_LINE, count, SIZE_LINE]);
            assert_eq!(answer, None, "{:?}", count);
        }
        let sizes: [&[u8]; 5] = [
            b"TAMA\xD1O_EN BYTES=665",
            b"tama\xF1o_en_bytes=665",
            b"Tama\xD1o_en bytes=665",
            b"TAMA\xD1O_EN BYTES =665",
            b"TAMA\xD1O_EN_BYTES= 000665",
        ];
        for size in sizes {
            let answer = catalogue(&[NAME_LINE, COUNT_LINE, size]);
            assert_eq!(answer, None, "{:?}", size);
        }
        let other_counts: [&[u8]; 5] = [
            b"N\xC3\x9AMERO_DE_REGISTROS=5",
            b"N\xD9MERO_DE_REGISTROS=5",
            b"NUMERO DE_REGISTROS=5",
            b" NUMERO_DE_REGISTROS=5",
            b"NUMERO_DE_REGISTRO=5",
        ];
        for count in other_counts {
            let answer = catalogue(&[NAME_LINE, count, SIZE_LINE]);
            assert_eq!(answer, Some((84, 2)), "{:?}", count);
        }
        let other_sizes: [&[u8]; 6] = [
            b"TAMANO_EN_BYTES=665",
            b"TAMA\xC3\x91O_EN_BYTES=665",
            b"TAMA\xD1O EN_BYTES=665",
            b"TAMA\xD1O EN BYTES=665",
            b"TAMA\xD1O_EN  BYTES=665",
            b"TAMA\xD1O_ENBYTES=665",
        ];
        for size in other_sizes {
            let answer = catalogue(&[NAME_LINE, COUNT_LINE, size]);
            assert_eq!(answer, Some((84, 2)), "{:?}", size);
        }
    }

    #[test]
    fn spellings_of_names() {
        let right: [&[u8]; 12] = [
            b"catalogo_de_elementos",
            b"cat\xE1logo_de_elementos",
            b"CAT\xC1LOGO_DE_ELEMENTOS",
            b"Catalogo_De_Elementos",
            b" Objeto_compuesto",
            b"objeto_puntual",
            b"Objeto_Textual",
            b"OBJETO_LINEAL",
            b"Tramo",
            b"vertice",
            b"NODO",
            b"   nodo",
        ];
        for right in right {
            assert_eq!(list(&[right]), None, "{:?}", right);
        }
        let wrong: [&[u8]; 16] = [
            b"",
            b"CATALOGO",
            b"cat\xC3\xA1logo_de_elementos",
            b"c\xE1talogo_de_elementos",
            b"Catalogo de elementos",
            b"Objeto puntual",
            b"OB_PUN",
            b"objeto_superficial",
            b"Per\xEDmetro",
            b"perimetro",
            b"v\xE9rtice",
            b"tramo ",
            b"tramo_nodo",
            b"nod",
            b"nodos",
            b"=nodo",
        ];
        for wrong in wrong {
            assert_eq!(list(&[wrong]), Some((83, 3)), "{:?}", wrong);
        }
    }

    #[test]
    fn orders_of_names() {
        let order: [&[u8]; FILES] = [
            b"cat\xE1logo_de_elementos",
            b"objeto_compuesto",
            b"objeto_puntual",
            b"objeto_textual",
            b"objeto_lineal",
            b"tramo",
            b"vertice",
            b"nodo",
        ];
        assert_eq!(list(&order), None);
        for (i, first) in order.iter().enumerate() {
            for (j, second) in order.iter().enumerate() {
                let expected = if i < j { None } else { Some((83, 7)) };
                assert_eq!(list(&[first, second]), expected);
            }
        }
        // Not only the file just before counts.
        assert_eq!(list(&[b"tramo", b"nodo", b"vertice"]), Some((83, 11)));
        assert_eq!(list(&[b"nodo", b"x", b"tramo"]), Some((83, 7)));
    }

    #[test]
    fn names_of_sections() {
        let named = |section: &[u8]| line(section);
        let files: [&[u8]; 5] = [
            b"[FICHERO1]",
            b"[fichero1]",
            b"[Fichero007]",
            b"[FICHERO0]",
            b"[FICHERO99999999999999999999999999]",
        ];
        for section in files {
            assert_eq!(named(section), Some((84, 2)), "{:?}", section);
        }
        let others: [&[u8]; 9] = [
            b"[FICHERO]",
            b"[FICHERO_1]",
            b"[FICHERO 1]",
            b"[ FICHERO1]",
            b"[FICHERO1 ]",
            b"[FICHERO1A]",
            b"[FICHEROS1]",
            b"[FICHERO\xB2]",
            b"[FICHER1]",
        ];
        for section in others {
            assert_eq!(named(section), None, "{:?}", section);
        }
    }

    #[test]
    fn absent_keys() {
        assert_eq!(catalogue(&[NAME_LINE, COUNT_LINE, SIZE_LINE]), None);
        assert_eq!(catalogue(&[SIZE_LINE, COUNT_LINE, NAME_LINE]), None);
        assert_eq!(catalogue(&[NAME_LINE, COUNT_LINE]), Some((84, 2)));
        assert_eq!(catalogue(&[NAME_LINE, SIZE_LINE]), Some((84, 2)));
        assert_eq!(catalogue(&[NAME_LINE]), Some((84, 2)));
        assert_eq!(catalogue(&[COUNT_LINE, SIZE_LINE]), Some((83, 0)));
        assert_eq!(catalogue(&[]), Some((83, 0)));
        // Any section ends the one before, and keys elsewhere are passed over.
        let parted = [NAME_LINE, COUNT_LINE, b"[]", SIZE_LINE];
        assert_eq!(catalogue(&parted), Some((84, 2)));
        let after = [NAME_LINE, COUNT_LINE, SIZE_LINE, b"[]", b"NOMBRE_MIGRA=x"];
        assert_eq!(catalogue(&after), None);
        assert_eq!(line(b"NOMBRE_MIGRA=x"), None);
        // Empty lines and other keys do not.
        let spaced = [b"", NAME_LINE, b"NOMBRE_FISICO=a", COUNT_LINE, SIZE_LINE];
        assert_eq!(catalogue(&spaced), None);
        // Two sections with one number are two sections.
        let twice = [NAME_LINE, COUNT_LINE, SIZE_LINE, b"[FICHERO1]"];
        assert_eq!(catalogue(&twice), Some((84, 6)));
    }

    #[test]
    fn repeated_keys() {
        for (key, repeated) in [NAME_LINE, COUNT_LINE, SIZE_LINE].iter().enumerate() {
            let lines = [NAME_LINE, COUNT_LINE, SIZE_LINE, repeated, b"A=b", repeated];
            assert_eq!(catalogue(&lines), Some((84, 6)), "{}", key);
        }
        // The first name counts, so another one later is no 83.
        let renamed = [NAME_LINE, b"NOMBRE_MIGRA=x", COUNT_LINE, SIZE_LINE];
        assert_eq!(catalogue(&renamed), Some((84, 4)));
        let renamed = [b"NOMBRE_MIGRA=nodo", NAME_LINE, COUNT_LINE, SIZE_LINE];
        assert_eq!(catalogue(&renamed), Some((83, 0)));
        // Two spellings are one key.
        let accented = [
            NAME_LINE,
            COUNT_LINE,
            b"N\xDAMERO_DE_REGISTROS=5",
            SIZE_LINE,
        ];
        assert_eq!(catalogue(&accented), Some((84, 5)));
        let blank = [NAME_LINE, b"TAMA\xD1O_EN BYTES=1", COUNT_LINE, SIZE_LINE];
        assert_eq!(catalogue(&blank), Some((84, 6)));
        // An absent key is told before a repeated one.
        let both = [NAME_LINE, COUNT_LINE, COUNT_LINE];
        assert_eq!(catalogue(&both), Some((84, 2)));
        // Any other key may come again.
        let other = [NAME_LINE, b"A=b", COUNT_LINE, b"A=b", SIZE_LINE];
        assert_eq!(catalogue(&other), None);
    }

    #[test]
    fn counts_and_sizes() {
        let values: [&[u8]; 12] = [
            b"", b"0", b"4", b"6", b"-5", b"+5", b"5 ", b"5.0", b"cinco", b"0x5", b"5,", b"\x005",
        ];
        for value in values {
            let count = [b"NUMERO_DE_REGISTROS=", value].concat();
            let answer = catalogue(&[NAME_LINE, &count, SIZE_LINE]);
            assert_eq!(answer, Some((85, 4)), "{:?}", value);
            let size = [b"TAMA\xD1O_EN_BYTES=", value].concat();
            let answer = catalogue(&[NAME_LINE, COUNT_LINE, &size]);
            assert_eq!(answer, Some((86, 5)), "{:?}", value);
            // A lower reason comes first, though it be told of a later line.
            let answer = catalogue(&[NAME_LINE, &size, &count]);
            assert_eq!(answer, Some((85, 5)));
        }
    }

    #[test]
    fn numbers() {
        assert!(is_number(b"0", 0) && is_number(b"000", 0) && !is_number(b"", 0));
        assert!(is_number(b"18446744073709551615", u64::MAX));
        assert!(!is_number(b"18446744073709551616", 0));
        assert!(!is_number(b"18446744073709551617", 1));
        assert!(is_number(b"10", 10) && !is_number(b"10", 1) && !is_number(b"1", 10));
        let mut many = vec![b'0'; 999];
        many.push(b'7');
        assert!(is_number(&many, 7));
        many[0] = b'1';
        assert!(!is_number(&many, 7));
        // In a file such a number makes its line too long.
        let size = [b"TAMA\xD1O_EN_BYTES=", &many[..]].concat();
        assert_eq!(catalogue(&[NAME_LINE, COUNT_LINE, &size]), Some((80, 5)));
        let size = [b"TAMA\xD1O_EN_BYTES=", &[b'9'; 240][..]].concat();
        assert_eq!(catalogue(&[NAME_LINE, COUNT_LINE, &size]), Some((86, 5)));
        let size = [b"TAMA\xD1O_EN_BYTES=", &[b'0'; 237][..], b"665"].concat();
        assert_eq!(catalogue(&[NAME_LINE, COUNT_LINE, &size]), None);
    }

    #[test]
    fn lowest_reason_then_lowest_line() {
        let lines: [&[u8]; 6] = [
            b"[FICHERO1]",
            b"NOMBRE_MIGRA=x",
            b"[FICHERO2]",
            b"VERSION_DE_MIGRA=2",
            b"VERSION_DE_MIGRA=3",
            b"x",
        ];
        assert_eq!(alone(&marked(&lines)), Some((81, 6)));
        assert_eq!(alone(&marked(&lines[..5])), Some((82, 4)));
        assert_eq!(alone(&marked(&lines[..3])), Some((82, 0)));
        let right: Vec<&[u8]> = [&lines[..3], &[b"VERSION_DE_MIGRA=1"]].concat();
        assert_eq!(alone(&marked(&right)), Some((83, 2)));
        assert_eq!(told(&marked(&right), &COUNTS, &SIZES), Some((83, 0)));
        assert_eq!(alone(&marked(&[right[0], right[3]])), Some((84, 1)));
    }

    /// Bytes that a simple generator draws from a few that matter.
    fn noise(length: usize, alphabet: &[u8]) -> Vec<u8> {
        let mut state: u32 = 206;
        let mut draw = || {
            state = state.wrapping_mul(1_664_525).wrapping_add(1_013_904_223);
            alphabet[(state >> 16) as usize % alphabet.len()]
        };
        (0..length).map(|_| draw()).collect()
    }

    #[test]
    fn a_mebibyte_of_noise() {
        let every: Vec<u8> = (0..=255).collect();
        let alphabets: [&[u8]; 6] = [&every, b"\r\n", b"\r\n= ", b"\r\n[]=", b"=", b"\r"];
        for alphabet in alphabets {
            let answer = alone(&noise(1 << 20, alphabet));
            assert!(matches!(answer, Some((80, line)) if (1..=2_049).contains(&line)));
        }
        // Short noise gets past the first reason.
        for length in 0..2_000 {
            let answer = alone(&noise(length, b"\r\n=[] 1"));
            assert!(answer.is_some());
        }
    }
}
